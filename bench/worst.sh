#!/usr/bin/env bash
# The longest calls: counts the instructions of the cases of bench/worst.txt, on x86-64 and on a Cortex-M4, or searches for longer ones.
#
#     bench/worst.sh                          the longest call of each function
#     bench/worst.sh --search ROUNDS SEED     searches from the cases, that many tries for each function on either processor, and
#                                             writes what it finds to target/bench/worst.txt, in the form of bench/worst.txt
#
# On x86-64 callgrind counts inside the library's functions, for which valgrind and cc are needed; bench/cortex-m4.sh has the rest.
set -euo pipefail
cd "$(dirname "$0")/.."

out=target/bench
rounds=0
seed=1
case ${1-} in
'') ;;
--search) rounds=$2 seed=$3 ;;
*)
    sed -n '2,/^set /{/^#/s/^# \{0,1\}//p}' "$0" >&2
    exit 2
    ;;
esac

on_x86() {
    mkdir -p "$out/worst"
    [ -f target/staticlib/libterminal.a ] || packaging/library.sh >/dev/null
    cc -std=c11 -O1 -Wall -Wextra -Wpedantic -Wconversion -Werror -Iinclude bench/worst.c target/staticlib/libterminal.a -o "$out/worst/program"
    DUMPS=$out/worst/part valgrind --quiet --tool=callgrind --callgrind-out-file="$out/worst/part" --toggle-collect='tillerclover_*_at' \
        "$out/worst/program" bench/worst.txt "$rounds" "$seed" 2>"$out/worst/log" || { cat "$out/worst/log" >&2 && return 1; }
}

on_cortex_m4() { bench/cortex-m4.sh worst "-DROUNDS=$rounds" "-DSEED=$seed" "-DCASES=\"$PWD/bench/worst.txt\""; }

# longest PROCESSOR: of the lines that are read the one with the most instructions, for each function
longest() {
    awk -v processor="$1" '$3 == "instructions," {
            if (!($1 in most)) names[++many] = $1
            if ($2 > most[$1]) { most[$1] = $2; answer[$1] = $5 }
        }
        END { for (i = 1; i <= many; i++) print "longest", processor, names[i], most[names[i]], answer[names[i]] }'
}

if [ "$rounds" -eq 0 ]; then
    on_x86 | longest x86-64
    on_cortex_m4 | longest Cortex-M4
else
    mkdir -p "$out"
    { on_x86 && on_cortex_m4; } >"$out/worst.txt"
    grep '^#' "$out/worst.txt"
fi
