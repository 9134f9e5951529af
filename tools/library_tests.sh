#!/bin/sh
# Tests the C header, the Rust crate and the command over target/staticlib/libmarshtrundle.a, which tools/archive.sh writes.
#
#   tools/library_tests.sh          the C test, the crate's tests and its documentation's examples, the command's tests, what
#                                   stands on the pages
#   tools/library_tests.sh stack    the least stack of each recursive form at 4,096 levels
#
# The archive is x86-64 code. An x86-64 machine needs cargo and cc. An Arm machine needs a rustc with the standard library
# of x86_64-unknown-linux-gnu, the cargo beside it, x86_64-linux-gnu-gcc, qemu-x86_64, under which the programs run, and the
# Rattle kit for its C library; on Debian the packages rustc, cargo, libstd-rust-dev:amd64, gcc-x86-64-linux-gnu and qemu-user.
#
# MARSHTRUNDLE_LIB names another folder with the archive.
# Exit status: 0 all is right; 1 something is not; 2 bad usage; 77 something is missing, and no test was run.
set -eu

root=$(cd "$(dirname "$0")/.." && pwd)
crate=$root/rust/marshtrundle
work=$root/target/library
target=x86_64-unknown-linux-gnu
MARSHTRUNDLE_LIB=${MARSHTRUNDLE_LIB:-$root/target/staticlib}
CARGO_TARGET_DIR=$work/cargo
export MARSHTRUNDLE_LIB CARGO_TARGET_DIR

missing() {
    echo "library_tests: missing: $*"
    exit 77
}

case ${1-} in
'' | stack) ;;
*)
    echo "library_tests: usage: tools/library_tests.sh [stack]" >&2
    exit 2
    ;;
esac

[ -f "$MARSHTRUNDLE_LIB/libmarshtrundle.a" ] ||
    missing "$MARSHTRUNDLE_LIB/libmarshtrundle.a; tools/archive.sh writes it"

# The first folder of PATH with a rustc that has the standard library of the target, and a cargo.
rust_folder() {
    (
        IFS=:
        for folder in $PATH; do
            [ -x "$folder/rustc" ] && [ -x "$folder/cargo" ] || continue
            sysroot=$("$folder/rustc" --print sysroot 2>/dev/null) || continue
            for library in "$sysroot/lib/rustlib/$target/lib"/libstd-*.rlib; do
                [ -f "$library" ] && echo "$folder" && exit 0
            done
        done
        exit 1
    )
}

rust=$(rust_folder) || missing "a rustc with the standard library of $target, and cargo beside it"
RUSTC=$rust/rustc
RUSTDOC=$rust/rustdoc
export RUSTC RUSTDOC
machine=$(uname -m)
run=
c_flags=
case $machine in
x86_64)
    cc=${CC:-cc}
    ;;
aarch64 | arm64)
    cc=x86_64-linux-gnu-gcc
    command -v rt >/dev/null || missing "rt, of the Rattle kit"
    command -v qemu-x86_64 >/dev/null || missing qemu-x86_64
    kit=$(dirname "$(rt doc)")/toolchain
    for file in lib/ld-linux-x86-64.so.2 lib/libc.so.6 lib/libc_nonshared.a lib/libm.so.6 \
        lib/libgcc_s.so.1 lib/Scrt1.o; do
        [ -f "$kit/$file" ] || missing "$file, of the Rattle kit"
    done
    ;;
*) missing "an x86-64 or an Arm machine" ;;
esac
command -v "$cc" >/dev/null || missing "$cc"
mkdir -p "$work/link"

if [ "$machine" != x86_64 ]; then
    # What a linker looks for by other names than the kit has. libutil and its like are parts of libc and empty by now.
    link=$work/link
    for name in util rt pthread dl; do
        printf '!<arch>\n' >"$link/lib$name.a"
    done
    printf 'GROUP ( %s/lib/libc.so.6 %s/lib/libc_nonshared.a AS_NEEDED ( %s/lib/ld-linux-x86-64.so.2 ) )\n' \
        "$kit" "$kit" "$kit" >"$link/libc.so"
    ln -sf "$kit/lib/libm.so.6" "$link/libm.so"
    ln -sf "$kit/lib/libgcc_s.so.1" "$link/libgcc_s.so"
    # A Rust program reads /proc/self/maps when it starts, to find its stack's guard page, and the emulator can end
    # with a fault there. Here the question is answered with an error, which Rust's start allows for.
    echo 'int pthread_getattr_np(unsigned long t, void *a) { (void)t; (void)a; return 38; }' >"$link/guard.c"
    "$cc" -c "$link/guard.c" -o "$link/guard.o"
    run="qemu-x86_64 $kit/lib/ld-linux-x86-64.so.2 --library-path $kit/lib"
    rust_flags="-C link-arg=-B$kit/lib/ -L native=$link -C link-arg=$link/guard.o"
    c_flags="-ffreestanding -B$kit/lib/ -L$link"
    CARGO_BUILD_TARGET=$target
    CARGO_TARGET_X86_64_UNKNOWN_LINUX_GNU_LINKER=$cc
    CARGO_TARGET_X86_64_UNKNOWN_LINUX_GNU_RUSTFLAGS=$rust_flags
    CARGO_TARGET_X86_64_UNKNOWN_LINUX_GNU_RUNNER=$run
    export CARGO_BUILD_TARGET CARGO_TARGET_X86_64_UNKNOWN_LINUX_GNU_LINKER
    export CARGO_TARGET_X86_64_UNKNOWN_LINUX_GNU_RUSTFLAGS CARGO_TARGET_X86_64_UNKNOWN_LINUX_GNU_RUNNER
fi
built=$CARGO_TARGET_DIR/${CARGO_BUILD_TARGET:+$CARGO_BUILD_TARGET/}debug

if [ "${1-}" = stack ]; then
    (cd "$crate" && "$rust/cargo" build --quiet --example stack)
    program=$built/examples/stack
    # The least stack in bytes, to 1 KiB, with which a form still gives its right answer.
    least() {
        low=0
        high=8192
        while [ $((high - low)) -gt 1 ]; do
            middle=$(((low + high) / 2))
            if $run "$program" "$1" $((1024 * middle)) >/dev/null 2>&1; then high=$middle; else low=$middle; fi
        done
        echo $((1024 * high))
    }
    ground=$(least 0)
    echo "a run of one visit: $((ground / 1024)) KiB. The table: stack above it at 4,096 levels, and the whole stack."
    $run "$program" | while IFS='	' read -r form name; do
        [ "$form" -gt 0 ] || continue
        whole=$(least "$form" </dev/null)
        above=$((whole - ground))
        echo "| $name | $((above / 1024)) KiB | $(((above + 2048) / 4096)) bytes a level | $((whole / 1024)) KiB |"
    done
    exit 0
fi

# The archive needs memcpy and memset of the C library and nothing else, as include/marshtrundle.h says.
if [ "$machine" = x86_64 ] && command -v nm >/dev/null; then
    needs=$(nm -u "$MARSHTRUNDLE_LIB/libmarshtrundle.a" | awk '$1 == "U" { print $2 }' | sort -u | tr '\n' ' ')
    [ "$needs" = "memcpy memset " ] || { echo "library_tests: the archive needs $needs" >&2; exit 1; }
fi

# shellcheck disable=SC2086  # the flags are words
"$cc" -std=c99 -pedantic -O2 -Wall -Wextra -Werror -I"$root/include" $c_flags "$root/c/marshtrundle_test.c" \
    "$MARSHTRUNDLE_LIB/libmarshtrundle.a" -o "$work/marshtrundle_test" || exit 1
$run "$work/marshtrundle_test" || exit 1

# The C builder, against what 'make install' puts where a program looks for it. Without pkg-config its words are written out.
if command -v make >/dev/null && [ "$MARSHTRUNDLE_LIB" = "$root/target/staticlib" ]; then
    prefix=$work/prefix
    rm -rf "$prefix"
    make -s -C "$root" install PREFIX="$prefix" || exit 1
    words="-I$prefix/include -L$prefix/lib -lmarshtrundle"
    if command -v pkg-config >/dev/null; then
        words=$(PKG_CONFIG_PATH=$prefix/lib/pkgconfig pkg-config --cflags --libs marshtrundle) || exit 1
    fi
else
    words="-I$root/include -L$MARSHTRUNDLE_LIB -lmarshtrundle"
fi
version=$(sed -n 's/^version = "\(.*\)\.\(.*\)\.\(.*\)"$/10000*\1+100*\2+\3/p' "$crate/Cargo.toml")
# shellcheck disable=SC2086
"$cc" -std=c99 -pedantic -O2 -Wall -Wextra -Werror -DVERSION="$version" $c_flags "$root/c/build_test.c" $words -o "$work/build_test" || exit 1
$run "$work/build_test" || exit 1
# Both headers are C++ too.
if [ "$machine" = x86_64 ] && command -v c++ >/dev/null; then
    c++ -x c++ -std=c++11 -Wall -Wextra -Werror -DVERSION="$version" -I"$root/include" -fsyntax-only "$root/c/build_test.c" || exit 1
fi

cd "$crate"
if [ "$machine" = x86_64 ]; then
    "$rust/cargo" test || exit 1
else
    "$rust/cargo" test --tests || exit 1
    # cargo runs no examples of a documentation for another machine, so rustdoc is asked itself.
    "$rust/cargo" build --quiet || exit 1
    tool=--runtool
    "$RUSTDOC" --help | grep -q -e --test-runtool && tool=--test-runtool
    words=
    first=
    for word in $run; do
        if [ -z "$first" ]; then first=$word; else words="$words $tool-arg $word"; fi
    done
    # shellcheck disable=SC2086
    RUSTC_BOOTSTRAP=1 "$RUSTDOC" -Z unstable-options --test --edition 2021 --crate-name marshtrundle src/lib.rs \
        --target "$target" --extern marshtrundle="$built/libmarshtrundle.rlib" -L native="$MARSHTRUNDLE_LIB" \
        -C linker="$cc" $rust_flags $tool "$first" $words || exit 1
fi
# The command, as a program.
cd "$root/rust/command"
MARSHTRUNDLE_RUNNER=$run "$rust/cargo" test || exit 1

# What stands on the pages for people who write passes. A page's commands are those of the machine at hand.
cd "$root"
pages="README.md docs/PASSES.md docs/REFERENCE.md $(echo examples/*.md examples/*/*.md)"
# shellcheck disable=SC2086  # the pages are words
if ! command -v python3 >/dev/null; then
    echo "library_tests: no python3, so the pages are left out"
elif [ "$machine" = x86_64 ]; then
    CARGO=$rust/cargo python3 tools/pages.py --programs "$built" $pages || exit 1
else
    CARGO=$rust/cargo python3 tools/pages.py --no-commands $pages || exit 1
fi

# The tools: that each says how it is used, both job programs on every example, and a new user's way.
run_job=crates/run_job/out/run_job
if command -v rt >/dev/null && [ -f "$run_job" ]; then
    tools/job.sh examples/swap.job | cmp - examples/swap.answer || exit 1
fi
if command -v python3 >/dev/null && [ "$machine" = x86_64 ]; then
    tools/usage_tests.sh || exit 1
    [ ! -f "$run_job" ] || tools/examples.py "$run_job" || exit 1
    "$rust/cargo" build --quiet --offline --manifest-path rust/twin/Cargo.toml --bin twin || exit 1
    tools/examples.py "$built/twin" job || exit 1
    CARGO=$rust/cargo tools/new_user.sh || [ $? -eq 77 ] || exit 1
fi
echo "library_tests: all is right"
