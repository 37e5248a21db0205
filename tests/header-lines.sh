# shellcheck shell=bash
# The blocks of code that the store's header prints, each as a macro: tests/loads.c compiles them as they are printed.
# header_lines HEADER: prints them.
header_lines() {
    awk '
        BEGIN { split("LOAD_tables LOAD_whole STORE_LINES FAILED_LINES", name, " ") }
        sub(/^ \*     /, "") { if (!inside) printf "#define %s", name[++blocks]; inside = 1; printf " \\\n    %s", $0; next }
        { if (inside) print ""; inside = 0 }
        END { exit blocks == 4 ? 0 : 1 }' "$1" || { echo "tillerclover_store.h does not print four blocks of code"; return 1; }
}
