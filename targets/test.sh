#!/usr/bin/env bash
# Runs the library on each processor that targets/build.sh builds it for, under emulation: tests/interface.c, the self test,
# examples/yard.c, the model's vectors, calls at random whose digest is that of targets/digest, and how deep calls go into the stack.
#
#     targets/test.sh              all targets
#     targets/test.sh TRIPLE..     some of them
#     targets/test.sh --install    installs what is missing, and no more
#
# Linux targets run under qemu-user with Debian's cross compilers, the Cortex-M under qemu-system-arm with newlib, wasm32 under node
# with wasi-libc, and there also the module by itself, called from JavaScript. What is missing is installed by apt-get. The last line
# counts the targets; a failure makes the script exit with 1.
set -uo pipefail
cd "$(dirname "$0")/.." || exit 2

VECTORS=$PWD/crates/vectors/data/vectors.bin
CALLS=${CALLS:-20000}
# what this many calls print, on every target; of another number the targets are compared among each other
DIGEST=$(grep "^random: $CALLS calls" targets/digest)

# triple, C compiler with its words, emulator with its words
TARGETS=(
    "x86_64-unknown-linux-gnu|cc -static|env"
    "aarch64-unknown-linux-gnu|aarch64-linux-gnu-gcc -static|qemu-aarch64"
    "riscv64-unknown-linux-gnu|riscv64-linux-gnu-gcc -static|qemu-riscv64"
    "armv7-unknown-linux-gnueabihf|arm-linux-gnueabihf-gcc -static|qemu-arm"
    "thumbv7em-none-eabi|arm-none-eabi-gcc -mcpu=cortex-m4 -mthumb|qemu-system-arm -M mps2-an386"
    "thumbv7em-none-eabihf|arm-none-eabi-gcc -mcpu=cortex-m4 -mthumb -mfloat-abi=hard -mfpu=fpv4-sp-d16|qemu-system-arm -M mps2-an386"
    "thumbv8m.main-none-eabi|arm-none-eabi-gcc -mcpu=cortex-m33 -mthumb|qemu-system-arm -M mps2-an505"
    "thumbv8m.main-none-eabihf|arm-none-eabi-gcc -mcpu=cortex-m33 -mthumb -mfloat-abi=hard -mfpu=fpv5-sp-d16|qemu-system-arm -M mps2-an505"
    "wasm32-unknown-unknown|clang --target=wasm32-wasi|node --experimental-wasi-unstable-preview1 targets/wasi.mjs"
)
PACKAGES=(gcc gcc-aarch64-linux-gnu libc6-dev-arm64-cross gcc-riscv64-linux-gnu libc6-dev-riscv64-cross gcc-arm-linux-gnueabihf
    libc6-dev-armhf-cross gcc-arm-none-eabi libnewlib-arm-none-eabi qemu-user qemu-system-arm clang wasi-libc libclang-rt-dev-wasm32 nodejs)
# commands and files of these packages
PARTS=(cc aarch64-linux-gnu-gcc riscv64-linux-gnu-gcc arm-linux-gnueabihf-gcc arm-none-eabi-gcc qemu-aarch64 qemu-riscv64 qemu-arm
    qemu-system-arm clang node /usr/lib/wasm32-wasi/libc.a "/usr/lib/llvm-*/lib/clang/*/lib/wasi/libclang_rt.builtins-wasm32.a")

work=$(mktemp -d) || exit 2
trap 'rm -rf "$work"' EXIT

# Cross compilers and emulators, of Debian.
install() {
    local part
    for part in "${PARTS[@]}"; do
        command -v "$part" >/dev/null || compgen -G "$part" >/dev/null && continue
        echo "missing: installing ${PACKAGES[*]}"
        (flock 9 && apt-get update && apt-get install -y --no-install-recommends "${PACKAGES[@]}") >"$work/apt" 2>&1 9>/tmp/tillerclover.apt && return
        tail -n 5 "$work/apt"
        return 1
    done
}

# Code and data of the board that an emulator represents; its memory is twice as large.
board() {
    local code=0x00000000 data=0x20000000
    [[ $1 != *an505* ]] || code=0x10000000 data=0x38000000
    BARE=(-nostartfiles --specs=rdimon.specs -T targets/cortex-m.ld
        "-Wl,--no-warn-execstack,--no-warn-rwx-segments,--defsym=CODE_START=$code,--defsym=DATA_START=$data")
}

# compile FILE..: objects in $own, for the target's compiler
compile() {
    local file
    for file in "$@"; do
        "${compiler[@]}" -std=c11 -O1 -Wall -Wextra -Wpedantic -Wconversion -Werror -ffunction-sections -fdata-sections -Iinclude "${DIRECT[@]}" \
            -c "$file" -o "$own/$(basename "$file" .c).o" || return
    done
}

# run NAME WORD..: the program of the object and the archive, on the target
run() {
    local start=()
    [ ${#BARE[@]} -eq 0 ] || start=("$own/cortex-m.o")
    "${compiler[@]}" "${BARE[@]}" "${LINK[@]}" -Wl,--gc-sections "$own/$1.o" "${start[@]}" "$archive" -o "$own/$1" || return
    if [ ${#BARE[@]} -eq 0 ]; then
        timeout 300 "${emulator[@]}" "$own/$1" "${@:2}"
    else
        timeout 300 "${emulator[@]}" -display none -monitor none -serial none -semihosting-config enable=on,target=native -kernel "$own/$1" </dev/null
    fi
}

# target TRIPLE: its two archives
target() {
    local own=$work/$1 compiler emulator level archive row BARE=() DIRECT=() LINK=()
    row=$(printf '%s\n' "${TARGETS[@]}" | grep "^$1|")
    IFS='|' read -r _ compiler emulator <<<"$row"
    read -ra compiler <<<"$compiler"
    read -ra emulator <<<"$emulator"
    mkdir "$own"
    if [[ $1 == thumb* ]]; then
        # a board has no command line
        board "${emulator[*]}"
        DIRECT=("-DVECTORS=\"$VECTORS\"" "-DCALLS=$CALLS")
        compile targets/cortex-m.c || return
    fi
    # Debian's own linker is older than the archive
    [[ $1 != wasm32-* ]] || LINK=("-fuse-ld=$PWD/target/lib/wasm-ld")
    compile tests/interface.c tests/self_test.c examples/yard.c targets/calls.c targets/stack.c || return
    for level in O3 O2; do
        archive=target/lib/$1/$level/libterminal.a
        run interface || { echo "$1 -$level: tests/interface.c" && return 1; }
        run self_test >"$own/text" || { cat "$own/text" && echo "$1 -$level: tests/self_test.c" && return 1; }
        run yard >"$own/text" && diff examples/yard.expected "$own/text" || { echo "$1 -$level: examples/yard.c" && return 1; }
        run calls "$VECTORS" "$CALLS" >"$own/text" && grep '^random' "$own/text" >>"$own/digests" ||
            { cat "$own/text" && echo "$1 -$level: targets/calls.c" && return 1; }
        run stack >>"$own/text" || { cat "$own/text" && echo "$1 -$level: targets/stack.c" && return 1; }
        alone "$1" "$level" || { echo "$1 -$level: targets/module.mjs" && return 1; }
        printf '%-30s -%s  %s; %s bytes of code\n' "$1" "$level" "$(paste -sd ';' "$own/text" | sed 's/;/; /g')" "$(size_of "$archive")"
    done
}

# alone TRIPLE LEVEL: the module of wasm32, called from JavaScript
alone() { [[ $1 != wasm32-* ]] || node targets/module.mjs "target/lib/$1/$2/terminal.wasm" include crates/run; }

# size_of ARCHIVE: bytes of code and constants; of wasm32 those of the linked module
size_of() {
    local module
    module=$(dirname "$1")/terminal.wasm
    [ ! -e "$module" ] || { stat -c %s "$module" && return; }
    size -t "$1" | awk 'END { print $1 }'
}

if [ "${1-}" = --install ]; then
    install
    exit
fi
if [ $# -eq 0 ]; then
    set -- "${TARGETS[@]%%|*}"
fi
install && targets/build.sh "$@" || exit 1
# as many at a time as there are processors
for triple in "$@"; do
    while [ "$(jobs -rp | wc -l)" -ge "$(nproc)" ]; do
        wait -n || true
    done
    { target "$triple" && : >"$work/$triple.passed"; } >"$work/$triple.log" 2>&1 &
done
wait
passed=0
failed=0
for triple in "$@"; do
    cat "$work/$triple.log"
    if [ -e "$work/$triple.passed" ]; then
        passed=$((passed + 1))
    else
        echo "$triple: failed"
        failed=$((failed + 1))
    fi
done
digest=$(cat "$work"/*/digests | sort -u)
if [ "$(wc -l <<<"$digest")" -ne 1 ]; then
    echo "the digests differ"
    failed=$((failed + 1))
elif [ "$digest" != "${DIGEST:-$digest}" ]; then
    printf 'the digest is another than that of targets/digest:\n%s\n' "$digest"
    failed=$((failed + 1))
fi
echo "targets: $passed passed, $failed failed"
[ "$failed" -eq 0 ]
