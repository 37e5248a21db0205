#!/usr/bin/env bash
# Proves the library or the run program with all that they depend on, builds it, and says so crate by crate.
#
#     packaging/prove.sh library    packaging/library.sh: the archive for C, target/staticlib/libterminal.a
#     packaging/prove.sh program    packaging/program.sh: the run program, target/bin/run
#
# A line for each crate as it is proved, if it changed since it was proved last, with the seconds; target/prove.log has all that was
# reported. Exit status: that of the script that is named.
set -uo pipefail
cd "$(dirname "$0")/.." || exit 2
# shellcheck source=packaging/below.sh
. packaging/below.sh

case ${1-}$# in
library1) crate=terminal_c ;;
program1) crate=run ;;
*)
    sed -n '2,/^set /{/^#/s/^# \{0,1\}//p}' packaging/prove.sh
    exit 2
    ;;
esac
kit >/dev/null || exit

# said: of what rt says, a line for each crate that it proves, and errors
said() {
    local line name='' many=0 before=0
    while read -r line; do
        case $line in
        "crate "*": modules loaded="*) name=${line#crate } name=${name%%:*} ;;
        "logic=proved functions="*)
            many=$((many + 1))
            printf '[%*d/%d] %s (%d s)\n' "${#all}" "$many" "$all" "$name" $((SECONDS - before))
            before=$SECONDS
            ;;
        "logic=not-proved"*) echo "${name:-$crate} NOT PROVED" ;;
        *": error"*) echo "${line:0:300}" ;;
        esac
    done
}

mkdir -p target
all=$(below "$crate" | wc -l)
"packaging/$1.sh" 2>&1 | tee target/prove.log | said
status=${PIPESTATUS[0]}
if [ "$status" -eq 0 ]; then
    echo "Proved: $all crates, $SECONDS s."
else
    echo "NOT PROVED; target/prove.log has all that was said."
fi
exit "$status"
