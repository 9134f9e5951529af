#!/bin/sh
# archive.sh [FOLDER]: proves the crate marshtrundle_c and those that it stands on, where that is not done yet, and writes
# FOLDER/libmarshtrundle.a; FOLDER is target/staticlib if not given. The archive is x86-64 code.
set -eu

usage() {
    echo "usage: tools/archive.sh [FOLDER]" >&2
    exit 2
}
[ "$#" -le 1 ] || usage
case ${1-} in
-*) usage ;;
esac
root=$(cd "$(dirname "$0")/.." && pwd -P)
out=${1:-$root/target/staticlib}
mkdir -p "$out"
out=$(cd "$out" && pwd -P)

cd "$root/crates/marshtrundle_c"
rt lib
rm -f "$out/libmarshtrundle.a"
cp out/libmarshtrundle_c.a "$out/libmarshtrundle.a"
echo "archive.sh: $out/libmarshtrundle.a"
