#!/bin/sh
# benchmark.sh [ROUNDS]: the one command of the benchmark. It makes the archive for the machine at hand, compares the three
# engines, measures them, and writes docs/BENCHMARK.md and docs/benchmark.svg. Where the program maude is on the path, the
# same tasks are done by it too. With MARSHTRUNDLE_ARCHIVE set to a folder that has libmarshtrundle.a, that archive is
# taken as it is.
set -eu

usage() {
    echo "usage: tools/benchmark.sh [ROUNDS]" >&2
    exit 2
}
[ "$#" -le 1 ] || usage
case ${1-15} in
'' | *[!0-9]*) usage ;;
esac
root=$(cd "$(dirname "$0")/.." && pwd -P)
if [ -z "${MARSHTRUNDLE_ARCHIVE:-}" ]; then
    MARSHTRUNDLE_ARCHIVE=$root/target/native
    "$root/tools/native_archive.sh" "$MARSHTRUNDLE_ARCHIVE"
fi
export MARSHTRUNDLE_ARCHIVE
cd "$root/rust/bench"
cargo build --release --quiet
cargo test --release --quiet
mkdir -p "$root/docs"
# One core, the last of those at hand, where taskset can keep the program on it.
core=$(($(nproc) - 1))
if command -v taskset >/dev/null && taskset -c "$core" true 2>/dev/null; then
    exec taskset -c "$core" target/release/bench "$root/docs" "${1:-15}"
fi
exec target/release/bench "$root/docs" "${1:-15}"
