#!/bin/sh
# native_archive.sh [FOLDER [PROCESSOR]]: writes FOLDER/libmarshtrundle.a for the machine at hand; FOLDER is target/native if not given.
# On x86-64 it is the archive that tools/archive.sh writes. The kit runs on x86-64 and writes for it alone. For another PROCESSOR, as
# aarch64, this script keeps a copy of the LLVM module that rt hands to the kit's clang, and compiles that very module with the kit's
# clang and the same flags for it. It needs the crates proved, or proves them.
set -eu

usage() {
    echo "usage: tools/native_archive.sh [FOLDER [PROCESSOR]]" >&2
    exit 2
}
[ "$#" -le 2 ] || usage
for word in "$@"; do
    case $word in
    -*) usage ;;
    esac
done
root=$(cd "$(dirname "$0")/.." && pwd -P)
out=${1:-$root/target/native}
mkdir -p "$out"
out=$(cd "$out" && pwd -P)
processor=${2:-$(uname -m)}

if [ "$(uname -m)" != x86_64 ]; then
    echo "native_archive.sh: the kit runs on x86-64 alone: 'tools/native_archive.sh FOLDER $processor' there writes the archive" >&2
    exit 2
fi
if [ "$processor" = x86_64 ]; then
    exec "$root/tools/archive.sh" "$out"
fi

kit=$(dirname "$(rt doc)")
tools=$kit/toolchain
[ -x "$tools/bin/clang" ] || { echo "native_archive.sh: the kit has no clang" >&2; exit 2; }

work=$(mktemp -d)
trap 'rm -rf "$work"' EXIT
trap 'exit 1' HUP INT TERM

# A copy of the kit, by links but for rt, which finds the kit by its own place, and for clang. This clang keeps the module and the words
# of the call, then calls the kit's.
mkdir -p "$work/kit/toolchain/bin" "$work/kept"
for part in "$kit"/*; do
    case $(basename "$part") in
    bin) cp -r "$part" "$work/kit/bin" ;;
    toolchain) ;;
    *) ln -s "$part" "$work/kit/$(basename "$part")" ;;
    esac
done
ln -s "$tools/lib" "$work/kit/toolchain/lib"
for tool in "$tools"/bin/*; do
    [ "$(basename "$tool")" = clang ] || ln -s "$tool" "$work/kit/toolchain/bin/$(basename "$tool")"
done
cat >"$work/kit/toolchain/bin/clang" <<WRAPPER
#!/bin/sh
if [ -f module.bc ]; then
    cp module.bc "$work/kept/module.bc"
    printf '%s\n' "\$@" >"$work/kept/words"
fi
exec "$tools/bin/clang" "\$@"
WRAPPER
chmod +x "$work/kit/toolchain/bin/clang"

if ! (cd "$root/crates/marshtrundle_c" && "$work/kit/bin/rt" lib) >"$work/said" 2>&1; then
    cat "$work/said" >&2
    exit 1
fi
grep -e '^logic=' "$work/said" | tail -n 1
[ -f "$work/kept/module.bc" ] || { echo "native_archive.sh: no module was kept" >&2; exit 2; }

# The module as text, without what names x86-64: the processor, the target and its layout of data.
"$tools/bin/clang" --target=x86_64-unknown-linux-gnu --no-default-config -O0 -Xclang -disable-llvm-passes \
    -S -emit-llvm -x ir "$work/kept/module.bc" -o "$work/module.ll"
sed -e 's/"target-cpu"="[^"]*"//g' -e 's/"target-features"="[^"]*"//g' -e 's/"tune-cpu"="[^"]*"//g' \
    -e '/^target triple/d' -e '/^target datalayout/d' "$work/module.ll" >"$work/native.ll"

# The kit's own words of the call, but for the target, the module and what is written.
sed -e '/^--target=/d' -e '/^-march=/d' -e '/^--sysroot=/d' -e '/^-Werror$/d' \
    -e "s|^module\.bc\$|$work/native.ll|" -e "s|^module\.o\$|$work/marshtrundle.o|" "$work/kept/words" >"$work/words"
oldifs=$IFS
IFS='
'
# shellcheck disable=SC2046
set -- $(cat "$work/words")
IFS=$oldifs
"$tools/bin/clang" "--target=$processor-unknown-linux-gnu" "$@" -Wno-override-module
[ -f "$work/marshtrundle.o" ] || { echo "native_archive.sh: the compiler wrote no object" >&2; exit 2; }
rm -f "$out/libmarshtrundle.a"
"$tools/bin/llvm-ar" rcs "$out/libmarshtrundle.a" "$work/marshtrundle.o"
echo "native_archive.sh: $out/libmarshtrundle.a, for $processor"
