#!/usr/bin/env bash
# The tests of the example terminal have teeth: each wrong terminal of tests/wrong-terminals.txt turns the part of tests/terminal.sh
# that it names red. Not in the gate: a few seconds to two minutes for each.
#
#     tests/wrong-terminals.sh            all
#     tests/wrong-terminals.sh NAME..     some of them
#
# The terminal without an edit goes first, in each part that is named: it must pass.
# ARCHIVE is as in tests/terminal.sh. Each has LIMIT seconds. Exit status 1: a wrong terminal passes, or its edit does not fit any more.
set -uo pipefail
cd "$(dirname "$0")/.." || exit 2

list=tests/wrong-terminals.txt
export ARCHIVE=${ARCHIVE:-$PWD/target/staticlib/libterminal.a} LIMIT=${LIMIT:-600} FIRST=yes LENIENT=yes
# Without warnings: a wrong program may have a variable that nobody reads.
export CFLAGS="-O1 -g -w"
work=$(mktemp -d) || exit 2
trap 'rm -rf "$work"' EXIT
copy=$work/copy
red=0 survivors=0

# edit FILE OLD NEW: replaces the words where they come first
edit() {
    local path=$copy/examples/terminal/$1 text
    text=$(<"$path")
    [[ $text == *"$2"* ]] || { echo "$name: $1 has no '$2'" && return 1; }
    printf '%s\n' "${text/"$2"/"$3"}" >"$path"
}

# fresh: a copy of the project in which the terminal is built, so that an edit builds again what it touches
fresh() { rm -rf "$copy" && cp -a "$work/base" "$copy"; }

# run PART: this part of the tests of the copy, into the log
run() { (cd "$copy" && BUILT=$copy/built tests/terminal.sh "$1") >"$work/log" 2>&1; }

# try NAME PART: the copy, with its edits in it, must fail
try() {
    local name=$1 begun=$SECONDS status
    shift
    run "$1"
    status=$?
    if [ $status -eq 0 ]; then
        echo "$name: PASSES $1, $((SECONDS - begun)) s" && survivors=$((survivors + 1))
    elif grep -aq "^terminal: " "$work/log"; then
        echo "$name: red after $((SECONDS - begun)) s, $(grep -am 1 '^terminal: ' "$work/log" | tr -d '\0' | cut -c 1-120)" && red=$((red + 1))
    elif [ $status -eq 124 ] || [ $status -eq 137 ]; then
        echo "$name: red, not over after $LIMIT s" && red=$((red + 1))
    else
        echo "$name: not built: $(tail -n 1 "$work/log")" && survivors=$((survivors + 1))
    fi
}

# each NAME PART EDITS: edits are triples of file, old words and new words
each() {
    local name=$1 part=$2 i
    shift 2
    fresh
    for ((i = 1; i < $#; i += 3)); do
        edit "${!i}" "${@:i+1:1}" "${@:i+2:1}" || { survivors=$((survivors + 1)) && return; }
    done
    try "$name" "$part"
}

# passes PART: the terminal without an edit passes the part, which else says nothing about an edited one
passed=' '
passes() {
    local begun=$SECONDS
    [[ $passed != *" $1 "* ]] || return 0
    fresh
    run "$1" || { echo "the terminal without an edit fails: $(tail -n 3 "$work/log")" && return 1; }
    passed="$passed$1 "
    echo "the terminal without an edit: $1 passed, $((SECONDS - begun)) s"
}

# What every copy begins with is built at the same path, so that make takes what is there.
mkdir -p "$copy/target" "$copy/built" && cp -r examples include tests docs README.md "$copy" || exit 2
run build || { tail -n 5 "$work/log" && exit 1; }
mv "$copy" "$work/base"

name='' edits=()
flush() {
    if [ -n "$name" ] && [[ $wanted == ' ' || $wanted == *" $name "* ]]; then
        passes "$part" || exit 1
        each "$name" "$part" "${edits[@]}"
    fi
}
wanted=" $* "
[ $# -gt 0 ] || wanted=' '
while IFS= read -r line <&9; do
    case $line in
    '#'* | '') ;;
    '- '*) edits+=("${line#- }") ;;
    +*) line=${line#+} && edits+=("${line# }") ;;
    *': '*)
        flush
        name=${line%%:*} part=${line#*: } edits=()
        ;;
    *) edits+=("$line") ;;
    esac
done 9<"$list"
flush
echo "wrong terminals: $red red, $survivors not, $SECONDS s"
[ $survivors -eq 0 ]
