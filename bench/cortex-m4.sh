#!/usr/bin/env bash
# Runs a program of bench/ with the library on a Cortex-M4 that qemu-system-arm represents, and that gives each instruction the same time:
# the program reads a timer, and so counts instructions (bench/counter.h).
#
#     bench/cortex-m4.sh cases                                        the cases of docs/BENCHMARKS.md
#     bench/cortex-m4.sh worst -DROUNDS=0 -DSEED=1 '-DCASES="FILE"'    the longest calls; bench/worst.sh calls it
#
# A board has no command line, so that words go to the compiler. Needs arm-none-eabi-gcc with newlib and qemu-system-arm, which
# targets/test.sh --install installs.
set -euo pipefail
cd "$(dirname "$0")/.."

program=$1
shift
out=target/bench/cortex-m4
archive=target/lib/thumbv7em-none-eabi/O3/libterminal.a
compiler=(arm-none-eabi-gcc -mcpu=cortex-m4 -mthumb)
flags=(-std=c11 -O1 -Wall -Wextra -Wpedantic -Wconversion -Werror -Iinclude)

mkdir -p "$out"
[ -f "$archive" ] || targets/build.sh thumbv7em-none-eabi >&2
if [ "$program" = cases ]; then
    (cd model && cargo run --quiet --release --features yardstick --bin bench -- --inputs) >"$out/inputs"
    set -- "-DCASES=\"$PWD/$out/inputs\""
fi
"${compiler[@]}" "${flags[@]}" "$@" -c "bench/$program.c" -o "$out/$program.o"
"${compiler[@]}" "${flags[@]}" -c targets/cortex-m.c -o "$out/start.o"
"${compiler[@]}" -nostartfiles --specs=rdimon.specs -T targets/cortex-m.ld \
    -Wl,--no-warn-execstack,--no-warn-rwx-segments,--defsym=CODE_START=0,--defsym=DATA_START=0x20000000 \
    "$out/$program.o" "$out/start.o" "$archive" -o "$out/$program"
qemu-system-arm -M mps2-an386 -icount shift=8 -display none -monitor none -serial none \
    -semihosting-config enable=on,target=native -kernel "$out/$program" </dev/null
