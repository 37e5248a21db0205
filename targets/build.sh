#!/usr/bin/env bash
# Builds the library for other processors, from the one module that was proved.
#
#     targets/build.sh              all targets
#     targets/build.sh TRIPLE..     some of them; an unknown one lists them all
#     targets/build.sh --look FILE  builds nothing: exits with 1 where the module with this text would be refused
#
# `rt lib` in crates/terminal_c proves the library and hands a module to its compiler, once for x86-64. packaging/library.sh --keep keeps
# that module (target/lib/module.bc), and this script compiles it for each target, at -O3 and at -O2:
#
#     target/lib/TRIPLE/O3/libterminal.a    fast, as the toolchain compiles
#     target/lib/TRIPLE/O2/libterminal.a    about a tenth smaller
#
# For wasm32 there is also a module next to each archive, terminal.wasm: it exports all functions and imports nothing.
#
# The archive for x86-64 at -O3 must be the toolchain's own, byte for byte. For the others three things of the module change,
# none of them in a function: the triple, the data layout, and the name of the x86-64 processor. That is sound as far as the
# exported functions are called alike everywhere, so a module where they take or give anything but pointers, 32-bit and 64-bit
# numbers is refused; and as far as each function means the same there, so a module with a type whose fields would lie elsewhere
# where a pointer has 32 bits, or with an address as a number, is refused too. Nothing but the toolchain is needed.
set -euo pipefail
cd "$(dirname "$0")/.."
# shellcheck source=packaging/below.sh
. packaging/below.sh

# triple, and the compiler's words for it
TARGETS=(
    "x86_64-unknown-linux-gnu -march=x86-64 -fPIC"
    "aarch64-unknown-linux-gnu -march=armv8-a -fPIC"
    "riscv64-unknown-linux-gnu -march=rv64gc -mabi=lp64d -fPIC"
    "armv7-unknown-linux-gnueabihf -march=armv7-a -mfloat-abi=hard -fPIC"
    "thumbv7em-none-eabi -mcpu=cortex-m4 -mfloat-abi=soft"
    "thumbv7em-none-eabihf -mcpu=cortex-m4 -mfloat-abi=hard"
    "thumbv8m.main-none-eabi -mcpu=cortex-m33 -mfloat-abi=soft"
    "thumbv8m.main-none-eabihf -mcpu=cortex-m33 -mfloat-abi=hard"
    "wasm32-unknown-unknown -mcpu=generic -msimd128"
)
OWN=x86_64-unknown-linux-gnu
# how the toolchain calls its compiler, except for the target's words and the level
FLAGS=(-ffunction-sections -fdata-sections -mllvm -trap-unreachable -mllvm -no-trap-after-noreturn -mllvm -no-x86-call-frame-opt
    -mllvm -disable-machine-licm -mllvm -disable-postra-machine-licm -mllvm -sink-common-insts=false --no-default-config
    -no-canonical-prefixes -fintegrated-cc1 -fno-crash-diagnostics -Werror -c -x ir)
# the crate whose code the module is; the compiler's object, in an archive, has its name
CRATE=terminal_c

lib=$PWD/target/lib
archive=$PWD/target/staticlib/libterminal.a
kit=$(kit) || exit 2
clang=$kit/toolchain/bin/clang
ar=$kit/toolchain/bin/llvm-ar

stop() {
    echo "build.sh: $*" >&2
    exit 1
}

# ---- the module

# Keeps the module, unless the kept module is the archive's.
module() {
    [ -f "$archive" ] || packaging/library.sh >/dev/null || stop "the library is not proved"
    if [ -f "$lib/module.bc" ] && cmp -s "$archive" "$lib/archive.a"; then
        return
    fi
    echo "build.sh: proves the library's own crate once more, to keep its module"
    packaging/library.sh --keep "$lib.new" || stop "the library is not proved"
    cmp -s "$archive" "$lib.new/archive.a" || stop "$archive is of other sources: packaging/library.sh makes it anew"
    mkdir -p "$lib" && mv "$lib.new/module.bc" "$lib.new/archive.a" "$lib/" && rmdir "$lib.new"
}

# exported FILE: the names of the functions that the module's text exports
exported() { sed -nE 's/^define (void|noundef i64) @(tillerclover_[a-z_]+)\(.*/\2/p' "$1"; }

# The exported functions take pointers, 32-bit and 64-bit numbers, and give nothing or 64 bits.
called_alike() {
    local others
    grep -qE '^define .*@tillerclover_' "$1" || stop "the module exports nothing"
    others=$(grep -E '^define ' "$1" | grep -vE '^define (internal|private) ' |
        grep -vE '^define (void|noundef i64) @tillerclover_[a-z_]+\(((ptr|i64|i32) noundef %a[0-9]+(, )?)*\) #[0-9]+ \{$') || true
    [ -z "$others" ] || stop "the module has exported functions that other processors call otherwise:"$'\n'"$others"
}

# ---- a target

# Each type of several fields has them at the same places for a pointer of 32 bits and of 64, and nothing asks for an address.
placed_alike() {
    local others
    others=$(grep -vE '^attributes ' "$1" | grep -oE '<?\{ [^}]* \}>?|\[[0-9]+ x ptr\]' | sort -u |
        grep -vE '^\{ (ptr, i64|i[0-9]+)(, i[0-9]+)* \}$') || true
    [ -z "$others" ] || stop "the module has types whose fields lie elsewhere on other processors:"$'\n'"$others"
    others=$(awk '/^define /{ within = $0 } /^}/{ within = "" } / (ptrtoaddr|ptrtoint|inttoptr) /{ print within ? within : $0 }' "$1" | sort -u)
    [ -z "$others" ] || stop "the module has addresses as numbers, which have other lengths on other processors:"$'\n'"$others"
}

# for_target TRIPLE FLAG..: the module's text, with triple and data layout as the compiler has them for the target
for_target() {
    local empty layout triple
    empty=$(echo 'int x;' | "$clang" --no-default-config --target="$1" "${@:2}" -S -emit-llvm -x c - -o -)
    layout=$(grep '^target datalayout = ' <<<"$empty")
    triple=$(grep '^target triple = ' <<<"$empty")
    sed -E -e "s/^target triple = .*/$triple/" -e "s/^target datalayout = .*/$layout/" -e 's/ "target-cpu"="x86-64"//' "$lib/module.ll"
}

# link_module ARCHIVE MODULE: a WebAssembly module that exports every function of the archive, its memory, and where free memory
# begins. The stack comes first in its memory: a call that needs more than there is stops, and writes over nothing.
link_module() {
    local name exports=()
    for name in $(exported "$lib/module.ll"); do
        exports+=("--export=$name")
    done
    "$lib/wasm-ld" --no-entry --stack-first -z stack-size=16384 --strip-all "${exports[@]}" --export=__heap_base "$1" -o "$2"
}

# build TRIPLE FLAG..
build() {
    local folder=$lib/$1 level from=$lib/module.bc start=$SECONDS
    mkdir -p "$folder"
    if [ "$1" != "$OWN" ]; then
        from=$folder/module.ll
        for_target "$@" >"$from"
    fi
    for level in O3 O2; do
        rm -rf "${folder:?}/$level" && mkdir "$folder/$level"
        "$clang" --target="$1" "${@:2}" "${FLAGS[@]}" "-$level" "$from" -o "$folder/$level/$CRATE.o"
        "$ar" rcsD "$folder/$level/libterminal.a" "$folder/$level/$CRATE.o"
        rm "$folder/$level/$CRATE.o"
        [[ $1 != wasm32-* ]] || link_module "$folder/$level/libterminal.a" "$folder/$level/terminal.wasm"
    done
    rm -f "$folder/module.ll"
    if [ "$1" = "$OWN" ]; then
        cmp "$folder/O3/libterminal.a" "$archive" || stop "the module gives another archive than the toolchain's own"
    fi
    echo "build.sh: $1 at -O3 and -O2, $((SECONDS - start)) s"
}

if [ "${1-}" = --look ]; then
    [ $# -eq 2 ] && [ -f "$2" ] || stop "--look takes a file, the text of a module"
    called_alike "$2"
    placed_alike "$2"
    exit
fi
if [ $# -eq 0 ]; then
    set -- "${TARGETS[@]%% *}"
fi
for triple in "$@"; do
    [[ " ${TARGETS[*]%% *} " == *" $triple "* ]] || stop "no target '$triple'; the targets are: ${TARGETS[*]%% *}"
done
module
"$clang" --target="$OWN" --no-default-config -Xclang -disable-llvm-passes -S -emit-llvm -x ir "$lib/module.bc" -o "$lib/module.ll"
called_alike "$lib/module.ll"
placed_alike "$lib/module.ll"
# the compiler links WebAssembly where it is called by this name; no link, since `rt ci` takes none below the root
rm -f "$lib/wasm-ld"
printf '#!/usr/bin/env bash\nexec -a wasm-ld %q "$@"\n' "$clang" >"$lib/wasm-ld"
chmod +x "$lib/wasm-ld"
# The toolchain's own is always built, and first: where it is not the same, the others are worth nothing. Then as many at a
# time as there are processors.
for row in "${TARGETS[@]}"; do
    read -ra words <<<"$row"
    if [ "${words[0]}" = "$OWN" ]; then
        build "${words[@]}"
    elif [[ " $* " == *" ${words[0]} "* ]]; then
        while [ "$(jobs -rp | wc -l)" -ge "$(nproc)" ]; do
            wait -n || stop "not built"
        done
        build "${words[@]}" &
    fi
done
for job in $(jobs -p); do
    wait "$job" || stop "not built"
done
rm -f "$lib/module.ll"
