# shellcheck shell=bash disable=SC2154
# The library on the other processors, under emulation.
# touched by: crates/* crates.txt include/* targets/* packaging/* tests/install/* Makefile

test_targets() {
    refused_modules && library && log targets/test.sh && cat "$work/log" && foreign_install
}

# A module that another processor would read or call otherwise is not built: with an address as a number, in a constant or in a function,
# with a type whose fields lie elsewhere where a pointer has 32 bits, or with an exported function that takes a byte.
refused_modules() {
    local module="$work/module.ll" line
    printf 'define void @tillerclover_a(ptr noundef %%a0) #0 {\n  ret void\n}\n' >"$module"
    log targets/build.sh --look "$module" || return 1
    for line in '@c = constant i64 ptrtoint (ptr @d to i64)' '  %1 = ptrtoaddr ptr %a0 to i64' '  %1 = alloca { i8, ptr }' '  %1 = alloca [2 x ptr]' \
        'define void @tillerclover_b(i8 noundef %a0) #0 {'; do
        { cat "$module" && echo "$line"; } >"$module.other"
        ! targets/build.sh --look "$module.other" >"$work/log" 2>&1 && grep -q "the module has" "$work/log" ||
            { echo "targets: a module with this line is built: $line" && return 1; }
    done
}

# What was installed serves its own targets: a program outside the repository for ARM with 64 bits, by pkg-config and by CMake, run
# under emulation, and one for a Cortex-M4. CMake's cross build without a target finds no library, instead of this machine's.
foreign_install() {
    local prefix="$work/targets" triple=aarch64-unknown-linux-gnu outside="$work/foreign-outside" flags cmake
    need cmake cmake && need pkg-config pkg-config && cp -R tests/install "$outside" && log make install PREFIX="$prefix" || return 1
    read -ra flags < <(PKG_CONFIG_PATH="$prefix/lib/pkgconfig" pkg-config --cflags --libs tillerclover-$triple) &&
        log aarch64-linux-gnu-gcc -static -std=c11 "$outside/main.c" "${flags[@]}" -o "$outside/main" && log qemu-aarch64 "$outside/main" || return 1
    read -ra flags < <(PKG_CONFIG_PATH="$prefix/lib/pkgconfig" pkg-config --cflags --libs tillerclover-thumbv7em-none-eabi) &&
        log arm-none-eabi-gcc -mcpu=cortex-m4 -mthumb --specs=nosys.specs -std=c11 "$outside/main.c" "${flags[@]}" -o "$outside/main" || return 1
    cmake=(cmake -S "$outside" -B "$outside/build" -DCMAKE_PREFIX_PATH="$prefix" -DCMAKE_SYSTEM_NAME=Linux -DCMAKE_SYSTEM_PROCESSOR=aarch64
        -DCMAKE_C_COMPILER=aarch64-linux-gnu-gcc -DCMAKE_EXE_LINKER_FLAGS=-static)
    ! "${cmake[@]}" >"$work/log" 2>&1 && grep -q "set tillerclover_TARGET to one of" "$work/log" && rm -rf "$outside/build" ||
        { cat "$work/log" && echo "targets: CMake gives a cross build this machine's archive" && return 1; }
    log "${cmake[@]}" -Dtillerclover_TARGET=$triple && log cmake --build "$outside/build" && log qemu-aarch64 "$outside/build/outside"
}
