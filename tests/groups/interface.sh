# shellcheck shell=bash disable=SC2154
# The headers in C and C++, and what C sees of the library: layouts, edges, no bytes; also under the sanitizers.
# touched by: crates/* crates.txt include/* tests/*.[ch]

test_interface() {
    need cc gcc && need c++ g++ && library || return 1
    local language name failed=0
    for language in c11 c17 c++11 c++17 c++20; do
        compiles $language 'int interface(void) { return TILLERCLOVER_INTERFACE + TILLERCLOVER_FORMAT; }' &&
            compiles $language '#include "tillerclover_words.h"' &&
            compiles $language '#include "tillerclover_self_test.h"' &&
            compiles $language $'#ifdef __GLIBC__\n#include "tillerclover_records.h"\n#endif' ||
            { cat "$work/log" && echo "interface: $language does not take the headers" && failed=1; }
        ! compiles $language 'void dropped(tillerclover_terminal *t) { tillerclover_hand_in(t, 0, 0); }' ||
            { echo "interface: in $language a result may be dropped" && failed=1; }
        ! compiles $language 'void none(void) { tillerclover_clear(0, 0); }' ||
            { echo "interface: in $language a terminal may be a null pointer" && failed=1; }
        compiles $language $'#if defined TILLERCLOVER_ASSERT || defined TILLERCLOVER_RESULT || defined TILLERCLOVER_NONNULL\n#error\n#endif' ||
            { echo "interface: in $language the header leaves a macro of its own" && failed=1; }
    done
    log cc -std=c11 -Wall -Wextra -Wpedantic -Werror -Iinclude tests/identity.c -o "$work/identity" && log "$work/identity" || failed=1
    for name in interface inlines records yards self_test; do
        c_program "$name" "tests/$name.c" && log "$work/$name" &&
            c_program sanitized -g -fsanitize=address,undefined -fno-sanitize-recover=all "tests/$name.c" && log "$work/sanitized" ||
            failed=1
    done
    foreign || failed=1
    return "$failed"
}

# A program with the header of another build notices that the archive is not its own.
foreign() {
    cp -R include "$work/foreign" && sed -i 's/\(#define TILLERCLOVER_IDENTITY UINT64_C(\)/\1 1 + /' "$work/foreign/tillerclover_yards.h" &&
        printf '#include "tillerclover.h"\nint main(void) { return tillerclover_identified(); }\n' >"$work/foreign.c" &&
        log cc -std=c11 -I"$work/foreign" "$work/foreign.c" target/staticlib/libterminal.a -o "$work/foreign.program" &&
        log "$work/foreign.program" && return
    echo "interface: an archive of another build is not noticed"
    return 1
}
