#!/usr/bin/env bash
# Counts the instructions of each case of `bench`, of the library and in C by hand: counts do not depend on how busy the machine is.
# A count is of one call, from the first instruction of the C function to its return.
#
#     bench/callgrind.sh                          all cases, a line for each
#     bench/callgrind.sh CASE TABLES [SIDE]       one case by function, of the library or by hand; as serve full, take25 full hand
#     bench/callgrind.sh --again CASE ..          the same of what was counted last
set -euo pipefail
cd "$(dirname "$0")/.."

out=target/bench/callgrind

# The instructions between two marks are one file. Each case has two on each side: a first call, and the call that counts.
count() {
    [ -f target/staticlib/libterminal.a ] || packaging/library.sh >/dev/null
    (cd model && cargo build --quiet --release --features yardstick --bin bench)
    rm -rf "$out" && mkdir -p "$out"
    valgrind --tool=callgrind --callgrind-out-file="$out/part" --dump-after=measured_mark \
        --toggle-collect='tillerclover_*_at' --toggle-collect='yardstick_*_at' \
        "${CARGO_TARGET_DIR:-model/target}/release/bench" --count >"$out/names" 2>"$out/log" || { cat "$out/log" >&2 && exit 2; }
}

# part LINE: the file of that line of the names
part() { echo "$out/part.$((2 * $1))"; }

instructions() { sed -nE 's/^totals: ([0-9]+)$/\1/p' "$(part "$1")"; }

# The two sides of a case are one after the other.
all() {
    local line=0 name tables side library hand
    printf '%-10s  %-11s  %8s  %8s  %s\n' case tables library 'by hand' ratio
    while read -r name tables side; do
        line=$((line + 1))
        if [ "$side" = library ]; then
            library=$(instructions "$line")
        else
            hand=$(instructions "$line")
            printf '%-10s  %-11s  %8d  %8d  %5s\n' "$name" "$tables" "$library" "$hand" "$(awk "BEGIN { printf \"%.2f\", $library / $hand }")"
        fi
    done <"$out/names"
}

# one CASE TABLES SIDE: its functions, by their own instructions
one() {
    local line
    line=$(grep -nFx "$1 $2 $3" "$out/names" | cut -d : -f 1) || { echo "no case '$1 $2 $3'; they are those of $out/names" >&2 && exit 2; }
    callgrind_annotate --auto=no --threshold=100 "$(part "$line")" 2>/dev/null |
        sed -nE 's/^ *([0-9,]+) \([0-9. ]+%\) +[^:]*:([^[]*[^ [])( \[.*)?$/\1 \2/p' |
        awk -v total="$(instructions "$line")" '{ n = $1; gsub(",", "", n) } n + 0 < total { printf "%7d  %s\n", n, $2 }'
}

again=
if [ "${1-}" = --again ]; then
    again=yes
    shift
fi
case $# in 0 | 2 | 3) ;; *)
    echo "usage: bench/callgrind.sh [--again] [CASE TABLES [SIDE]]" >&2
    exit 2
    ;;
esac
command -v valgrind >/dev/null || { echo "callgrind.sh: valgrind is not installed" >&2 && exit 2; }
[ -n "$again" ] || count
if [ $# -eq 0 ]; then
    all
else
    one "$1" "$2" "${3:-library}"
fi
