#!/bin/sh
# samples.sh: writes stdin and stdout of the program vectors: the cases of the model in tools/cases, a sample of the cases of
# rust/twin with its own answers, and the jobs of examples/. rust/twin shares no code with the model.
# samples.sh --check: compares them with what stands there, and ends with 1 where they differ.
set -eu
case ${1-} in
'' | --check) ;;
*)
    echo "usage: tools/samples.sh [--check]" >&2
    exit 2
    ;;
esac
cd "$(dirname "$0")/.."
(cd rust/twin && cargo build --release --offline --quiet)
made=$(mktemp -d)
trap 'rm -rf "$made"' EXIT
python3 tools/cases "$made" rust/twin/target/release/twin
differ=0
for part in stdin stdout; do
    if [ "${1-}" != --check ]; then
        cp "$made/$part" "crates/vectors/$part"
    elif ! cmp "$made/$part" "crates/vectors/$part"; then
        differ=1
    fi
done
exit "$differ"
