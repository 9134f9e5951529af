#!/bin/sh
# differ.sh [FIRST LAST COUNT]: the generated cases of rust/twin, COUNT runs, COUNT runs with a signature, COUNT calls with many subjects,
# a tenth of COUNT runs in steps, COUNT calls with an index, COUNT counted runs (each beside the run without counts too),
# COUNT texts of rules or rules to write and COUNT questions of free variables for each seed from FIRST to LAST (1, 10 and 10,000 if not
# given), through the proved functions, the plain ones and, for runs, the optimised engine, compared word by word. So is a collection of what each run is handed, and of what it
# leaves. It ends with 1 where two of them differ, and with 2 where there is nothing to compare. The archive is made as for benchmark.sh.
# With MARSHTRUNDLE_ARCHIVE set to a folder that has libmarshtrundle.a, that archive is taken as it is.
set -eu

[ "$#" -eq 0 ] || [ "$#" -eq 3 ] || {
    echo "usage: tools/differ.sh [FIRST LAST COUNT]" >&2
    exit 2
}
root=$(cd "$(dirname "$0")/.." && pwd -P)
cd "$root/rust/bench"
if [ -z "${MARSHTRUNDLE_ARCHIVE:-}" ]; then
    MARSHTRUNDLE_ARCHIVE=$root/target/native
    "$root/tools/native_archive.sh" "$MARSHTRUNDLE_ARCHIVE"
fi
export MARSHTRUNDLE_ARCHIVE
cargo build --release --offline --quiet --bin differ
exec target/release/differ "${1:-1}" "${2:-10}" "${3:-10000}"
