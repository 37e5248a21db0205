# shellcheck shell=bash disable=SC2154
# The store over a simulated EEPROM whose power is cut, by itself and under a terminal, also under the sanitizers; and against the model.
# touched by: crates/* crates.txt include/* model/* tests/*.[ch] tests/header-lines.sh

. tests/header-lines.sh

test_store() {
    need cc gcc && need c++ g++ && need_cargo && library || return 1
    local name language
    for language in c11 c++11; do
        compiles $language '#include "tillerclover_store.h"' || { cat "$work/log" && return 1; }
    done
    header_lines include/tillerclover_store.h >"$work/header-lines.h" || return 1
    for name in store powercut loads; do
        c_program "$name" -O2 "-I$work" "tests/$name.c" && log "$work/$name" && cat "$work/log" &&
            c_program sanitized -g -fsanitize=address,undefined -fno-sanitize-recover=all "-I$work" "tests/$name.c" &&
            log "$work/sanitized" || return 1
    done
    log in_model cargo run --quiet --profile gate --locked --features yardstick --bin stores && tail -n 1 "$work/log"
}
