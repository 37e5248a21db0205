#!/usr/bin/env bash
# Puts a wrong program in, and shows what the prover says to it.
#
#     tests/refuse.sh CRATE FILE.edit
#
# FILE.edit has a line 'file: ' with a file of the crate below src/, specs/ or proofs/, and pairs of lines 'old: ' and 'new: '; each
# old text is in the file exactly once. Other lines are a comment. crates/*/must-fail/ has examples. The edit is applied to a copy:
# nothing in the repository changes. What is proved already is not proved again. With --after-ci before CRATE, where `rt ci` has just
# passed, the libraries that it left are taken.
#
# Exit status: 0 refused, 1 not refused (the program with the edit is still proved), 2 the edit or the call does not fit.
set -uo pipefail
cd_from=$PWD
cd "$(dirname "$0")/.." || exit 2

fail() {
    echo "refuse: $*" >&2
    exit 2
}

case ${1-} in
-h | --help)
    sed -n '2,/^set /{/^#/s/^# \{0,1\}//p}' tests/refuse.sh
    exit 0
    ;;
esac
after=
if [ "${1-}" = --after-ci ]; then
    after=$1
    shift
fi
[ $# -eq 2 ] || fail "CRATE and FILE.edit are asked for; --help says more"
crate=$1
edit=$2
[[ $edit = /* ]] || edit=$cd_from/$edit
[ -f "$edit" ] || fail "there is no file $2"
# shellcheck source=packaging/below.sh
. packaging/below.sh
[ -d "crates/$crate" ] && crates | grep -qx "$crate" || fail "there is no crate '$crate'; crates.txt lists them"
command -v rt >/dev/null || fail "the command rt is not on the path"

work=$(mktemp -d) || fail "no temporary folder"
trap 'rm -rf "$work"' EXIT
log=$work/log

echo "The crate $crate with the edit $2; proving takes seconds to minutes."
what=$(tests/edits.py ${after:+"$after"} "$crate" "$edit" "$log" 2>"$work/why") || fail "$(tail -n 5 "$work/why")"
case $what in
refused) ;;
proved)
    echo "NOT REFUSED: with this edit the crate is still proved. Either the edit changes nothing that a contract speaks of, or a"
    echo "contract says too little: the latter is a fault, and SECURITY.md says how to report it."
    exit 1
    ;;
"does not fit") fail "$(head -n 5 "$log" | cut -c 1-600)" ;;
*)
    tail -n 8 "$log" | cut -c 1-600
    fail "the prover gave no verdict"
    ;;
esac

# The first error, or else the first note of what is not proved, and the lines that belong to it; long lines are cut. That a proof file
# names what the edit took away, as a goal that is called after a condition, is only said where there is nothing else.
first() { awk -v mark="$1" 'on && !/^ / { exit } $0 ~ mark { on = 1 } on { print }' "$2" >"$work/first" && [ -s "$work/first" ]; }
grep -vE '^(\./)?proofs/.*(has no field|is not in scope|has no `|was not admitted)' "$log" >"$work/rest"
first ': error' "$work/rest" || first '^note: .*it is not proved that' "$work/rest" || first ': error' "$log"
wanted=$(grep -m 1 -oE '`[^`]*` *\(expected\)' "$work/first" | sed 's/ *(expected)$//')
has=$(grep -m 1 -oE '`[^`]*` *\(found\)' "$work/first" | sed 's/ *(found)$//')
echo "REFUSED. Not proved: $(sed -nE 's/^fn (\S+): (not proved|no proof).*/\1/p' "$log" | paste -sd ' ')"
if [ -n "$wanted" ] && [ -n "$has" ]; then
    echo "In words: ${wanted:0:200} is needed there, and with the edit it is ${has:0:200}."
fi
echo "The first error:"
head -n 12 "$work/first" | sed -E "s#^(note: )?(\./)?(src|specs|proofs)/#\1crates/$crate/\3/#; s#^#    #" | cut -c 1-900
case $(tests/refused.py --log "$crate" "$log") in
*": is refused for its form: "*)
    echo "An error is of the edit's form: a name, a type or a number of arguments that does not fit. It says nothing of the contract."
    echo "Exchange a constant, an argument or a comparison instead."
    ;;
*": is refused first for "*)
    echo "This error is of what a callee asks for, and not of what the edited function promises. Exchange something behind that call."
    ;;
esac
exit 0
