#!/usr/bin/env bash
# Makes the figures of docs/BENCHMARKS.md and docs/benchmarks.svg again: runs the programs that measure, and writes what they print.
#
#     packaging/library.sh && bench/page.sh      all of them, some three minutes
#     bench/page.sh PART..                       some; the others' figures stay as they were measured last
#
# PART            measured by                                                needs
# same_compiler   bench/callgrind.sh, C by hand compiled by the kit's clang  valgrind, cargo, cc
# counts          bench/callgrind.sh: instructions                           valgrind, cargo, cc
# times           bench: the comparison, then time                           cargo, cc, an idle machine
# cortex          bench/cortex-m4.sh: the library on a Cortex-M4             cargo, arm-none-eabi-gcc with newlib, qemu-system-arm
# worst           bench/worst.sh: the longest calls                          valgrind, cc, and the same
# targets         targets/test.sh: size and stack                            Debian's cross compilers and emulators, which it installs
# by_hand         size and stack on x86-64, of C by hand and of the library  cc
# casbin          bench/casbin.sh: another engine                            Go and casbin (bench/casbin.sh --install); left out without them
set -euo pipefail
cd "$(dirname "$0")/.."
# shellcheck source=packaging/below.sh
. packaging/below.sh

PARTS=(same_compiler counts times cortex worst targets by_hand casbin)
out=target/bench

counts() { bench/callgrind.sh; }

# The kit's compiler has no headers of its own.
same_compiler() {
    printf '#!/bin/sh\nexec %s -isystem %s -isystem /usr/include -isystem /usr/include/%s "$@"\n' \
        "$(kit)/toolchain/bin/clang" "$(cc -print-file-name=include)" "$(cc -print-multiarch)" >"$out/clang"
    chmod +x "$out/clang"
    CC=$PWD/$out/clang CARGO_TARGET_DIR=$PWD/$out/model bench/callgrind.sh
}

times() { (cd model && cargo run --quiet --release --features yardstick --bin bench); }

cortex() { bench/cortex-m4.sh cases; }

worst() { bench/worst.sh; }

targets() { targets/test.sh; }

# The same program as on each target: with C by hand in the library's place, and with the library.
by_hand() {
    local name names=() object=$out/yardstick.o
    for name in judge hand_in take access_list test_list convert_list; do
        names+=("-Dtillerclover_${name}_at=yardstick_${name}_at")
    done
    cc -std=c11 -O3 -march=x86-64 -Iinclude -c bench/yardstick.c -o "$object"
    cc -static -std=c11 -O1 -Iinclude "${names[@]}" targets/stack.c "$object" -o "$out/stack"
    "$out/stack"
    echo "size: $(size "$object" | awk 'END { print $1 }') bytes of code"
    cc -static -std=c11 -O1 -Iinclude targets/stack.c target/staticlib/libterminal.a -o "$out/stack"
    "$out/stack"
    echo "size: $(size -t target/staticlib/libterminal.a | awk 'END { print $1 }') bytes of code"
}

casbin() { bench/casbin.sh; }

for part in "$@"; do
    [[ " ${PARTS[*]} " == *" $part "* ]] || { echo "no part '$part'; they are: ${PARTS[*]}" >&2 && exit 2; }
done
[ -f target/staticlib/libterminal.a ] || packaging/library.sh >/dev/null
mkdir -p "$out"
if [ $# -eq 0 ]; then
    command -v go >/dev/null || PARTS=("${PARTS[@]/casbin/}")
    set -- "${PARTS[@]}"
fi
for part in "$@"; do
    [ -n "$part" ] || continue
    "$part" >"$out/$part.new" && mv "$out/$part.new" "$out/$part.txt" || { cat "$out/$part.new" && echo "page.sh: $part is not measured" >&2 && exit 1; }
done
bench/page.py "$out"
