#!/usr/bin/env bash
# Tests of the command tillerclover as people use it: the documents' lines, each subcommand, locks, bad input, a full disk, kills.
#
#     tests/tool.sh PROGRAM             all parts
#     tests/tool.sh PROGRAM PART..      some: see ALL below
#
# Exit status 1: a part failed.
# shellcheck disable=SC2015
set -uo pipefail
cd "$(dirname "$0")/.." || exit 2
unset TZ TILLERCLOVER_TZ
root=$PWD
program=$(realpath "$1") || exit 2
shift

ALL=(documents keys tables store images records faults silences names boxing many locks backups questions yards page enclosed lists office runs lines expectations journal everyday habits bad hostile crowd disk kills)
work=$(mktemp -d) || exit 2
small=$work/small
trap 'umount "$small" 2>/dev/null; rm -rf "$work"' EXIT
# The command under its own name.
mkdir "$work/bin" "$small" && cp "$program" "$work/bin/tillerclover" && PATH=$work/bin:$PATH
cd "$work" || exit 2

faults=0
fault() {
    echo "tool: $*"
    faults=$((faults + 1))
}

# gives STATUS TEXT ARGUMENT..: the command ends so, and says that on its output, or from status 2 on among its errors
gives() {
    local status=$1 text=$2 file=$work/out other=$work/errors
    shift 2
    tillerclover "$@" >"$work/out" 2>"$work/errors" </dev/null
    local found=$?
    [ "$status" -lt 2 ] || { file=$work/errors && other=$work/out; }
    [ "$found" -eq "$status" ] || fault "$*: status $found and not $status: $(head -n 2 "$work/out" "$work/errors")"
    grep -qF -- "$text" "$file" || fault "$*: not said: '$text', but: $(head -n 2 "$file")"
    [ ! -s "$other" ] || fault "$*: also said: $(head -n 2 "$other")"
}

# bytes HEX: writes them
# shellcheck disable=SC2059
bytes() { printf "$(sed 's/ //g; s/../\\x&/g' <<<"$1")"; }

owner=11111111-1111-1111-1111-111111111111
haulier=22222222-2222-2222-2222-222222222222
foreman=33333333-3333-3333-3333-333333333333

# a yard in service: owner 5, haulier 7 who may tare in the season, weight for all
yard() {
    rm -f "$1" && tillerclover new "$1" >/dev/null &&
        tillerclover judge "$1" UPDATE /oic/sec/cred number=5 "subject=$owner" \
            UPDATE /oic/sec/cred number=7 "subject=$haulier" role=7@2 \
            UPDATE /oic/sec/acl2 number=1 "subject=$haulier" permission=RU resources=/tare \
            first=2026-07-01 last=2026-09-30 \
            UPDATE /oic/sec/acl2 number=2 subject=anon-clear permission=R resources=- \
            UPDATE /oic/sec/doxm "owner=$owner" \
            UPDATE /oic/sec/pstat as 5 state=RFPRO UPDATE /oic/sec/pstat as 5 state=RFNOP >"$work/out" ||
        fault "no yard: $(cat "$work/out")"
}

# ---- the parts

# The commands that the documents show, run as they are, and the packages that they name.
part_documents() {
    sed -s -n '/^\[dependencies\]/,/^\[dev-/s/^\([a-z0-9_-]*\) = .*/\1/p' "$root"/{answers,tool}/Cargo.toml |
        grep -vx 'tillerclover\|answers' | tr _ - | sort -u >needed
    sed -n 's/.*librust-{\(.*\)}-dev.*/\1/p' "$root/docs/TOOL.md" | tr , '\n' | sort >named
    cmp -s needed named || fault "docs/TOOL.md names other packages than the tool needs: $(diff needed named | head -n 5)"
    sed -n 's/^CRATES=(\(.*\))/\1/p' "$root/tests/needs.sh" | tr ' _' '\n-' | sort >installed
    cmp -s needed installed || fault "tests/needs.sh installs other packages than the tool needs: $(diff needed installed | head -n 5)"
    ! grep -n 'std::\(env\|fs\|net\|os\|process\|thread\|time\)\b' -r "$root/answers/src" || fault "the answers need more than they are given"
    "$root/tests/shown.py" "$program" "$root/README.md" "$root/docs/TOOL.md+$root/docs/TOOL-QUESTIONS.md+$root/docs/TOOL-FORMATS.md" "$root/docs/BOXING.md" || fault "the documents show something else"
    local form length
    while IFS='|' read -r _ form length _; do
        gives 0 "written, $(tr -d ' ,' <<<"$length") bytes" new --force --form "$(tr -d ' `' <<<"$form")" made
    done < <(sed -n '/^| form | bytes/,/^$/{/^| `/p}' "$root/docs/TOOL-FORMATS.md")
}

part_tables() {
    gives 0 "8688 bytes" new made
    gives 2 "made: is there already, and stays as it is; --force replaces it" new made
    gives 0 "2172 bytes" new --force --form tables made
    gives 0 "made: sound" show made
    yard a
    gives 0 "RFNOP, ready for normal operation" show a
    gives 0 "2026-07-01 to 2026-09-30" show a
    gives 0 '"name": "RFNOP"' show --json a
    [ "$(stat -c %s a)" -eq 8688 ] || fault "the form changed"
    # a worn byte: the number of the second credential row becomes that of the first
    for form in tables memory; do
        tillerclover new --force --form $form b >/dev/null
        head -c "$(stat -c %s b)" <(tail -c +9 a) >b
        bytes 0005 | dd of=b bs=1 seek=$((84 + 39)) conv=notrunc status=none
        gives 1 "credential row 2 (number 5), at byte 123: repeats the number of credential row 1" show b
        gives 1 "refused, 1 tables not sound" why b RETRIEVE /weight
        gives 1 "refused    1 " judge b RETRIEVE /weight
    done
    # the same in the terminal's form is found by the checksum before that
    bytes 0005 | dd of=a bs=1 seek=$((8 + 84 + 39)) conv=notrunc status=none
    gives 1 "a: damaged: the checksum at byte 8684 does not fit" show a
    gives 2 "a: damaged: the checksum at byte 8684 does not fit" judge a RETRIEVE /weight
    # default rows
    bytes "0009 $(tr -d - <<<$owner) 0000 0000 04" >creds
    gives 0 "new terminal" new --force --default-creds creds c
    gives 0 "Credentials, 1 of 24" show c
    gives 2 "creds: no list of default rows" new --force --default-aces creds c
}

# The example terminal's own code reads the file, and writes a file that the command reads.
part_store() {
    cat >main.c <<'END'
#include "store.h"
int main(int count, char **files)
{
    static tillerclover_terminal state, none;
    struct file from, to;
    if (count != 3 || store_open(&from, files[1], &state) != FOUND_WHOLE || store_open(&to, files[2], &none) != FOUND_NOTHING) {
        return 1;
    }
    store_write(&to, &state);
    return 0;
}
END
    local code=$root/examples/terminal
    cc -std=c11 -D_GNU_SOURCE -I"$code" -I"$root/include" main.c "$code"/{store,file,fail}.c -o again || fault "the terminal's store is not built"
    yard a
    rm -f b
    ./again a b || fault "the terminal does not read the file"
    cmp -s a b || fault "the terminal writes another file"
    gives 0 "b: sound" show b
}

# Images of a store, as read out of a device: with images padded to pages, and with what follows the store.
part_images() {
    # image FILE N: the current image of a store of images of N bytes, by docs/STORE.md
    image() { python3 -c '
import sys
store, n = open(sys.argv[1], "rb").read(), int(sys.argv[2])
place = n * (sum(store[2 * n:2 * n + 8]) % 2)
sys.stdout.buffer.write(store[place:place + n])' "$1" "$2"; }
    local form plain n records
    for form in "store tables 2172" "store-memory memory 8676"; do
        read -r form plain n <<<"$form"
        rm -f a b && tillerclover new --form "$form" a >/dev/null && tillerclover new --form "$plain" b >/dev/null
        gives 0 "a: sound" show a
        gives 0 "a and b hold the same" diff a b
        printf '%s\n' "UPDATE /oic/sec/cred number=5 subject=$owner" "UPDATE /oic/sec/doxm owner=$owner" >setup
        echo "UPDATE /oic/sec/pstat as 5 state=RFPRO" >move
        for records in setup move; do
            gives 0 "a: written" judge a "@$records"
            tillerclover judge b "@$records" >/dev/null
            image a "$n" | cmp -s - b || fault "$form: the current image is not the tables: $records"
        done
        gives 0 "\"form\": \"$form\"" show a --json
        # the image before is the spare one: the mark decides
        cmp -s <(tail -c +$((2 * n + 1)) a) <(tail -c +$((2 * n + 1)) a~) && fault "$form: no mark was raised"
        [ "$(cmp -l a a~ | wc -l)" -lt 80 ] || fault "$form: more was written than differs: $(cmp -l a a~ | wc -l)"
        # the whole device
        { cat a && head -c $((32768 - 2 * n - 8)) /dev/zero | tr '\0' '\377'; } >dump
        gives 0 "dump and a hold the same" diff dump a
        gives 0 "dump: written" judge dump UPDATE /oic/sec/pstat as 5 state=RFNOP
        [ "$(stat -c %s dump)" -eq 32768 ] || fault "$form: the dump is another length"
        gives 0 "RFNOP" show dump
        # images padded to pages of 64 bytes
        python3 - a padded "$n" <<'END'
import sys
store, n = open(sys.argv[1], "rb").read(), int(sys.argv[3])
page = bytes(-n % 64)
open(sys.argv[2], "wb").write(store[:n] + page + store[n:2 * n] + page + store[2 * n:])
END
        gives 0 "padded and a hold the same" diff padded a
        gives 0 "{\"aclist2\":[]}" list text padded
        gives 1 "is the length of tables" list check padded
        printf 'x' | dd of=dump bs=1 seek=32000 conv=notrunc status=none
        gives 2 "dump: ends at byte 32768; a file of tables has" show dump
    done
    tillerclover new --force --form store a >/dev/null
    gives 2 "a: has no room for records that wait, by its form; nothing was changed" hand-in a RETRIEVE /weight
    tillerclover new --force --form store-memory a >/dev/null
    gives 0 "kept" hand-in a RETRIEVE /weight
    gives 0 "Waiting, 1 of 25" show a
}

part_records() {
    yard a
    cp a before
    gives 0 "permitted  -RU--  UPDATE /tare as 7 text:lorry" judge a --clock 2026-08-01 UPDATE /tare as 7 text:lorry
    gives 1 "refused    8      UPDATE /tare as 7" judge a --clock 2026-10-01 "UPDATE /tare as 7" "RETRIEVE /display"
    gives 1 "access row 1 would do but for its season" why a --clock 2026-10-01 UPDATE /tare as 7
    gives 1 "the same record would be permitted in RFOTM, RFPRO, SRESET" why a DELETE /oic/sec/cred as 5 all
    gives 0 '"letters": "-RU--"' why a --json --clock 2026-08-01 UPDATE /tare as 7
    gives 0 "number=7 subject=$haulier role=7@2" judge a RETRIEVE /oic/sec/cred as 5
    gives 0 "dry run" judge a --dry-run UPDATE /oic/sec/pstat as 5 state=RFPRO
    cmp -s a before || fault "records that change nothing, or a dry run, changed the file"
    # hexadecimal digits, through a link, and the file's mode stays
    ln -s a link && chmod 640 a
    gives 0 "state RFNOP -> RFPRO" judge link "50 40 00 05 40"
    gives 0 "RFPRO" show a
    [ -L link ] && [ "$(stat -c %a a)" = 640 ] || fault "the link or the mode of the file is gone"
    gives 0 '"written": true' judge --json a UPDATE /oic/sec/pstat as 5 state=RFNOP
    # RESET gives the fresh tables
    gives 0 "owner $owner -> none" judge a UPDATE /oic/sec/pstat as 5 state=RESET
    tillerclover new --force fresh >/dev/null && cmp -s a fresh || fault "after a RESET the tables are not fresh"
}

# What once was reported wrongly, or not at all.
part_faults() {
    local place
    yard a
    # a damaged file is not the same as a whole one: checksum, mark, version of the format
    for place in 8687 0 7; do
        cp a b && bytes 7e | dd of=b bs=1 seek=$place conv=notrunc status=none
        gives 1 "b: damaged" diff a b
        gives 1 "b: damaged" diff b a
        gives 1 "a and b hold the same tables and waiting records" diff a b
        gives 1 '"same": false' diff --json a b
    done
    # a season that is renewed: the next one shows next to the last one
    tillerclover judge a UPDATE /oic/sec/pstat as 5 state=RFPRO UPDATE /oic/sec/acl2 as 5 number=3 "subject=$haulier" permission=U resources=/tare \
        first=2027-07-01 last=2027-09-30 UPDATE /oic/sec/pstat as 5 state=RFNOP >/dev/null || fault "no renewed season"
    gives 0 "ru<u>" rights a --clock 2026-12-01
    tillerclover rights a --clock 2026-12-01 --html - | grep -q 'RU over</span><span class="come">U to come' || fault "the page hides a renewed season"
    # what is no text is no record
    for place in judge why; do
        gives 2 "is no text, since it is not UTF-8; hex:.. takes any bytes" $place a $'UPDATE /tare as 7 text:\xff'
        gives 2 "is no text, since it is not UTF-8; hex:.. takes any bytes" $place a UPDATE /tare as 7 $'text:\xff'
    done
    # how many rows, and which
    tillerclover list text a >out 2>errors
    grep -qx "tillerclover: a: 2 rows with a season are left out, numbers 1, 3; --seasons writes them too" errors || fault "left out: $(cat errors)"
    # the number that occurs twice, and not the row before that gives too much
    printf '%s\n' "number=1 subject=auth-crypt permission=U resources=/oic/sec/acl2" "number=2 subject=auth-crypt permission=R resources=/weight" \
        "number=2 subject=auth-crypt permission=R resources=/tare" >rows
    gives 1 "rows: not made, 20: row 3: repeats number 2 of row 2; no file was written" list make rows gone
    # a report of a change that nobody can read
    yard a
    cp a before
    tillerclover judge a UPDATE /oic/sec/pstat as 5 state=RFPRO >&- 2>errors
    [ $? -eq 4 ] && grep -q "a: WAS changed, but the output cannot be written: broken pipe" errors || fault "a closed output: $(cat errors)"
    ! cmp -s a before || fault "the closed output kept the change"
    tillerclover judge a RETRIEVE /oic/sec/doxm as 5 >&- 2>errors || fault "a closed output without a change: $? $(cat errors)"
    (sleep 0.3; tillerclover judge a UPDATE /oic/sec/pstat as 5 state=RFNOP 2>errors; echo $? >status) | true
    [ "$(cat status)" -eq 4 ] || fault "a reader that left before the report of a change: $(cat status errors)"
    gives 0 "RFNOP" show a
}

# What costs a day where it is not said: locked out, a plate that does not weigh, rows worth a second look, half of the records.
part_silences() {
    # an owner without a credential row
    tillerclover new a >/dev/null && cp a before
    gives 2 "a: after this nobody can change an owner, the state or a row any more" judge a UPDATE /oic/sec/doxm "owner=$owner"
    gives 2 "nothing was changed; --force does it" judge a UPDATE /oic/sec/doxm "owner=$owner"
    cmp -s a before || fault "a change that locks out was written"
    gives 0 "a: from now on nobody can change an owner" judge a --dry-run UPDATE /oic/sec/doxm "owner=$owner"
    gives 0 "a: from now on nobody can change an owner" judge a --force UPDATE /oic/sec/doxm "owner=$owner"
    gives 0 "note        nobody can change an owner, the state or a row any more" show a
    gives 0 '"locked_out": true' show a --json
    gives 1 "note    nobody can change an owner, the state or a row any more" why a UPDATE /oic/sec/pstat state=RFPRO
    # the owner's own row deleted; and what was locked before is no new fault
    yard a
    gives 0 '"locked_out": false' show a --json
    gives 0 "a: the state is RFPRO: nothing is weighed until it is RFNOP" judge a UPDATE /oic/sec/pstat as 5 state=RFPRO
    gives 2 "nothing was changed; --force does it" judge a DELETE /oic/sec/cred as 5 number=5
    gives 0 "credential row 5 removed" judge a --force DELETE /oic/sec/cred as 5 number=5
    gives 1 "refused" judge a UPDATE /oic/sec/pstat as 7 state=RFNOP
    # a list that takes the last right away
    yard a
    tillerclover judge a UPDATE /oic/sec/pstat as 5 state=RFPRO UPDATE /oic/sec/acl2 as 5 number=9 "subject=$haulier" permission=CRUD \
        resources=/oic/sec/acl2,/oic/sec/cred,/oic/sec/pstat DELETE /oic/sec/cred as 7 number=5 >/dev/null || fault "no terminal of a partner's"
    printf 'number=9 subject=auth-crypt permission=R resources=/weight\n' >rows && tillerclover list make rows list >/dev/null
    cp a before
    gives 2 "nothing was changed; --force does it" list load list a as 7
    cmp -s a before || fault "a list that locks out was loaded"
    gives 0 "a: from now on nobody can change an owner" list load list a as 7 --force
    # nothing is weighed
    yard a
    gives 0 "a: the state is RFPRO: nothing is weighed until it is RFNOP" judge a UPDATE /oic/sec/pstat as 5 state=RFPRO
    gives 0 "a: the state is RFPRO: nothing is weighed until it is RFNOP" list load list a as 5
    tillerclover judge a UPDATE /oic/sec/pstat as 5 state=RFNOP >out && ! grep -q "nothing is weighed" out || fault "a plate that weighs: $(cat out)"
    gives 0 "a: the state is RFPRO: nothing is weighed until it is RFNOP" undo a
    # marks
    yard a
    tillerclover judge a UPDATE /oic/sec/pstat as 5 state=RFPRO UPDATE /oic/sec/acl2 as 5 number=3 subject=auth-crypt permission=U resources=/oic/sec/acl2 \
        UPDATE /oic/sec/acl2 as 5 number=4 "subject=$haulier" permission=N resources=/zero \
        UPDATE /oic/sec/acl2 as 5 number=5 "subject=$haulier" permission=D resources=/oic/sec/doxm \
        UPDATE /oic/sec/acl2 as 5 number=6 "subject=$haulier" permission=U resources=/tare first=2026-08-01 last=2026-08-31 >/dev/null || fault "no rows"
    gives 0 "'list check' refuses such a row, 21" show a --clock 2026-08-01
    [ "$(tillerclover show a | grep -c "gives nothing that its resources offer")" -eq 2 ] || fault "rows that give nothing: $(tillerclover show a)"
    gives 0 "season ends in 29 days; row 1 gives all of it too" show a --clock 2026-08-02
    gives 0 "2026-07-01 to 2026-09-30  season ends within a day" show a --clock 2026-09-30
    # all or none
    yard a
    cp a before
    gives 1 "a: unchanged, since all of 3 are to be permitted; 1 after the refusal were not judged" judge a --all \
        UPDATE /oic/sec/pstat as 5 state=RFPRO UPDATE /tare as 8 UPDATE /oic/sec/pstat as 5 state=SRESET
    gives 1 '"written": false' judge a --all --json UPDATE /oic/sec/pstat as 5 state=RFPRO UPDATE /tare as 8
    cmp -s a before || fault "a part of all records was written"
    gives 0 "a: written" judge a --all UPDATE /oic/sec/pstat as 5 state=RFPRO UPDATE /oic/sec/pstat as 5 state=RFNOP \
        UPDATE /oic/sec/pstat as 5 state=RFPRO
}

# Names are printed next to numbers and UUIDs, and taken wherever these are.
part_names() {
    printf '%s\n' "# the yard" "5 $owner Yard Office" "7 $haulier Northfield Haulage" "8 North Gravel   # no UUID" "role 7@2 foreman" >a.names
    tillerclover new a.tables >/dev/null
    tillerclover judge a.tables --all UPDATE /oic/sec/cred number=office-yard subject=yard >/dev/null 2>errors
    [ $? -eq 2 ] && grep -q "'office-yard' is no name" errors || fault "an unknown name: $(cat errors)"
    tillerclover judge a.tables --all UPDATE /oic/sec/cred number=yard-office subject=yard UPDATE /oic/sec/cred number=northfield subject=northfield role=foreman \
        UPDATE /oic/sec/cred number=8 "subject=$foreman" UPDATE /oic/sec/acl2 number=1 subject=northfield permission=RU resources=/tare \
        UPDATE /oic/sec/acl2 number=2 subject=foreman permission=U resources=/ticket UPDATE /oic/sec/doxm owner=yard \
        UPDATE /oic/sec/pstat as yard state=RFPRO UPDATE /oic/sec/pstat as yard state=RFNOP >out || fault "no yard by names: $(cat out)"
    grep -q "UPDATE /oic/sec/pstat as 5 state=RFPRO  # Yard Office" out || fault "no name in: $(cat out)"
    # the same tables as without names
    mkdir -p plain && cp a.tables plain/b
    gives 0 "a.tables and plain/b hold the same" diff a.tables plain/b
    gives 0 "owner       $owner (Yard Office)" show a.tables
    gives 0 "8       $foreman (North Gravel)" show a.tables
    gives 0 "2       role:7@2 (foreman)" show a.tables
    gives 0 "owner       $owner" show plain/b
    ! grep -q "Yard Office" out.plain 2>/dev/null || fault "names of another file"
    gives 0 "7 (Northfield Haulage), 8 (North Gravel) in a.tables: isolated" isolated a.tables northfield,north-gravel
    gives 0 "7 (Northfield Haulage), 8 (North Gravel) in a.tables: isolated" isolated a.tables 6-9
    gives 0 "7 (Northfield Haulage), 8 (North Gravel) in a.tables: isolated" isolated a.tables "all-but yard"
    gives 2 "'north' may be Northfield Haulage or North Gravel" isolated a.tables north
    gives 2 "'foreman' is the name of role 7@2, and of no partner" isolated a.tables foreman
    gives 2 "no credential row has a number of 20-30" isolated a.tables 20-30
    gives 0 "  south  8 (North Gravel)        isolated" yards a.tables north=northfield south=north-gravel
    gives 1 "credential 8 (North Gravel) of $foreman" why a.tables UPDATE /tare as north-gravel
    gives 0 "credential 8 (North Gravel) of $foreman on /tare: - -> RU" why a.tables --with "UPDATE /oic/sec/pstat as yard state=SRESET" \
        --with "UPDATE /oic/sec/acl2 as yard number=9 subject=north-gravel permission=RU resources=/tare" RETRIEVE /oic/sec/doxm as yard
    gives 0 '"name": "Northfield Haulage"' who UPDATE /tare a.tables --json
    gives 0 "7       $haulier (Northfield Haulage)" rights a.tables
    tillerclover rights a.tables --html - | grep -q "Credential 7 <b>Northfield Haulage</b>" || fault "no name on the page"
    # other files of names
    printf '7 Seven & <Sons>\n' >other
    gives 0 "7       $haulier (Seven & <Sons>)" show plain/b --names other
    tillerclover rights plain/b --names other --html - | grep -q "<b>Seven &amp; &lt;Sons&gt;</b>" || fault "a name is not escaped"
    gives 0 "credential 7 (Seven & <Sons>)" why plain/b --names other --clock 0 UPDATE /tare as seven
    gives 2 "missing: cannot be read" show plain/b --names missing
    printf '7 %s Northfield\n' "$owner" >other
    gives 2 "other: 7 Northfield is $owner, and credential row 7 is $haulier" show plain/b --names other
    printf '7 Northfield\n7 Again\n' >other
    gives 2 "other: line 2: credential 7 has a name already" show plain/b --names other
    printf '9 Nobody\n' >other
    gives 2 "the UUID of Nobody is not known: there is no credential row 9" judge plain/b --names other UPDATE /oic/sec/doxm owner=nobody
    # a list, and expectations
    tillerclover judge a.tables UPDATE /oic/sec/pstat as yard state=RFPRO >/dev/null
    printf 'number=3 subject=northfield permission=U resources=/zero\n' >rows
    gives 0 "1 row made" list make rows rows.list --names a.names
    gives 0 "3       $haulier (Northfield Haulage)" list check rows.list --names a.names
    gives 0 "access row 3 added" list load rows.list a.tables as yard
    gives 2 "subject=northfield: a subject is a UUID" list make rows gone
    printf 'tables = "a.tables"\n[[expect]]\nrecord = "UPDATE /tare as northfield"\nanswer = 11\n' >t.toml
    gives 0 "1 expectation, 1 met, 0 not" test t.toml
}

# The maker's line: fresh or what is left over, cleared without a trace, and a record for the box.
part_boxing() {
    local form
    bytes "0009 $(tr -d - <<<$owner) 0000 0000 04" >creds
    printf '# the service tool\nnumber=9 subject=%s type=1\n' "$owner" >creds.txt
    printf 'number=1 subject=auth-crypt permission=R resources=/weight\n' >aces.txt
    gives 0 "new terminal" new a --default-creds creds
    gives 0 "new terminal" new b --default-creds creds.txt
    cmp -s a b || fault "default rows in words are other rows"
    gives 0 "new terminal" new --force b --default-creds creds.txt --default-aces aces.txt
    gives 0 "Access control entries, 1 of 32" show b
    printf 'number=9\n' >bad.txt
    gives 2 "bad.txt: line 1: subject= is missing" new --force b --default-creds bad.txt
    for form in tables memory terminal store store-memory; do
        rm -f a a~
        tillerclover new --form $form a --default-creds creds >/dev/null
        gives 0 "fresh  a   $form" fresh a --default-creds creds.txt
        gives 1 "credential row 9 added" fresh a
        tillerclover judge a UPDATE /oic/sec/cred number=7 "subject=$haulier" >/dev/null
        gives 1 "NOT FRESH  a   $form" fresh a --default-creds creds
        gives 1 "credential row 7 added: number=7 subject=$haulier" fresh a --default-creds creds
        [ -e a~ ] || fault "$form: no file is kept"
        # a RESET gives the fresh tables, and in a store the image before stays: that is seen
        tillerclover judge a UPDATE /oic/sec/cred number=5 "subject=$foreman" UPDATE /oic/sec/doxm "owner=$foreman" >/dev/null
        tillerclover judge a UPDATE /oic/sec/pstat as 5 state=RESET --default-creds creds >/dev/null || fault "$form: no RESET"
        case $form in
        store*) gives 1 "the spare image of the store: " fresh a --default-creds creds ;;
        *) gives 0 "fresh  a   $form" fresh a --default-creds creds ;;
        esac
        gives 0 "1 file, 1 cleared, 0 not" clear a --default-creds creds
        gives 0 "fresh  a   $form" fresh a --default-creds creds
        [ ! -e a~ ] && ! grep -qaF 2222222 <(xxd -p a | tr -d '\n') || fault "$form: something of the last customer is left"
    done
    local gone="cannot be read: no such file or directory" held
    gives 1 "missing: $gone" clear a missing
    gives 1 "2 files, 1 cleared, 1 not" clear a missing
    gives 1 "other: $gone" clear missing other a
    gives 1 "2 files, 1 fresh, 1 not" fresh missing a
    # a folder, with a file that a terminal holds
    mkdir -p back && cp a back/1 && cp a back/2 && cp a back/1~ && echo "9 Nine" >back/1.names
    gives 0 "2 files, 2 cleared, 0 not" clear back
    [ ! -e back/1~ ] && [ -e back/1.names ] || fault "a cleared folder: $(ls back)"
    gives 0 "2 files, 2 fresh, 0 not" fresh back
    holder posix back/2
    gives 1 "back/2: in use by process $held; nothing was changed; 'tillerclover record' writes what can be sent to it instead" clear back
    gives 1 "back/1: cleared" clear back
    kill "$held" && wait "$held" 2>/dev/null
    # default rows as bytes: what the library begins with
    gives 0 "creds.bin: written, 1 default credential row, 23 bytes, sha256 $(sha256sum <creds | cut -d ' ' -f 1)" defaults creds creds.txt creds.bin
    cmp -s creds.bin creds || fault "default credential rows as bytes"
    gives 0 "aces.bin: written, 1 default access row, 36 bytes" defaults aces aces.txt aces.bin
    gives 0 "new terminal" new --force d --default-creds creds.bin --default-aces aces.bin
    gives 0 "fresh  d   terminal" fresh d --default-creds creds.txt --default-aces aces.txt
    gives 2 "aces.txt: line 1: " defaults creds aces.txt gone
    gives 2 "creds.bin: is there already" defaults creds creds.txt creds.bin
    gives 2 "creds.txt: is what the list is made of" defaults creds creds.txt creds.txt --force
    cat creds.txt creds.txt >twice.txt
    gives 2 "twice.txt: no list of default rows" defaults creds twice.txt gone
    [ ! -e gone ] || fault "bad default rows left a file behind"
    # records
    tillerclover new --force a >/dev/null && tillerclover new --force b >/dev/null && tillerclover new --force --form store c >/dev/null
    tillerclover judge b UPDATE /oic/sec/cred number=7 "subject=$haulier" >/dev/null
    gives 1 "box.csv: 3 records added" fresh a b c --record box.csv
    gives 0 "box.csv: 1 record added" fresh a --record box.csv --serial 'T-1, "north"'
    [ "$(head -n 1 box.csv)" = "serial,date,file,form,library,archive,defaults,image,verdict" ] && [ "$(wc -l <box.csv)" -eq 5 ] || fault "$(cat box.csv)"
    python3 - box.csv "$(sha256sum a | cut -d ' ' -f 1)" "$(sha256sum "$root/target/staticlib/libterminal.a" | cut -d ' ' -f 1)" <<'END' || fault "the records: $(cat box.csv)"
import csv, sys
rows = list(csv.DictReader(open(sys.argv[1], newline="")))
sys.exit(not ([row["serial"] for row in rows] == ["a", "b", "c", 'T-1, "north"'] and rows[0]["image"] == sys.argv[2]
              and all(row["archive"] == sys.argv[3] for row in rows) and rows[1]["verdict"].startswith("NOT FRESH: credential row 7 added")
              and rows[3]["verdict"] == "fresh"))
END
    gives 1 "box.jsonl: 2 records added" fresh a b --record box.jsonl
    printf '{"torn' >>box.jsonl
    gives 0 "box.jsonl: 1 record added" fresh a --record box.jsonl
    [ "$(grep -c '"verdict":' box.jsonl)" -eq 3 ] && tail -n 1 box.jsonl | python3 -m json.tool >/dev/null || fault "a torn line: $(cat box.jsonl)"
    gives 2 "box.txt: is neither .csv nor .jsonl" fresh a --record box.txt
    gives 2 "--serial names one terminal, and there are 2 files" fresh a c --record box.csv --serial 7
    # many together: no line is lost or torn
    local i pids=()
    rm -f box.csv
    for ((i = 0; i < 12; i++)); do tillerclover fresh a c --record box.csv >/dev/null & pids+=($!); done
    for i in "${pids[@]}"; do wait "$i" || fault "a record of many"; done
    [ "$(wc -l <box.csv)" -eq 25 ] && [ "$(grep -c ',fresh$' box.csv)" -eq 24 ] || fault "records of many: $(wc -l <box.csv)"
    # a disk that is full
    if mount -t tmpfs -o size=8k none "$small" 2>/dev/null; then
        for ((i = 0; i < 40; i++)); do
            tillerclover fresh a c --record "$small/box.csv" >out 2>errors || break
            cp "$small/box.csv" short.csv
        done
        grep -q "box.csv: cannot be written: no space left on device; no record was added" errors && cmp -s short.csv "$small/box.csv" ||
            fault "a full disk: $(cat out errors)"
        umount "$small"
    fi
    # a whole year's
    mkdir -p year && for ((i = 0; i < 640; i++)); do cp a "year/$i"; done
    gives 0 "640 files, 640 fresh, 0 not" fresh year
    cp b year/333
    gives 1 "NOT FRESH  year/333" fresh year
}

# Many files and folders in one command.
part_many() {
    mkdir -p one two
    busy_yard one/a
    cp one/a one/b && rm -f one/*~ && cp one/a one/b two/ && : >one/.hidden && cp one/a one/c~ && echo "7 Northfield" >one/a.names
    gives 0 "2 files, 2 sound, 0 not" show one
    gives 0 "3 files, 3 sound, 0 not" show one two/a
    gives 0 "2 pairs, 2 the same, 0 not" diff one two
    gives 0 "2 pairs, 2 the same, 0 not" diff one/a two
    tillerclover judge two/b UPDATE /oic/sec/pstat as 5 state=RFPRO --no-backup >/dev/null
    gives 1 "from one/b to two/b: 1 difference" diff one two
    gives 1 "2 pairs, 1 the same, 1 not" diff one two
    bytes 00 | dd of=two/a bs=1 seek=8686 conv=notrunc status=none
    gives 1 "two/a: damaged: the checksum at byte 8684" diff one two
    gives 1 "two/a: damaged: the checksum at byte 8684" show one two
    gives 1 "4 files, 3 sound, 1 not" show one two
    gives 1 '"well": 3' show one two --json
    rm two/a && : >two/c
    gives 1 "two/a: cannot be read: no such file or directory" diff one two
    gives 1 "3 pairs, 0 the same, 3 not" diff one two
    gives 1 "two/c: ends at byte 0" show two
    tillerclover show two --json >out 2>errors
    [ $? -eq 1 ] && [ ! -s errors ] && grep -q '"status": 2' out || fault "a file of many that is no tables, as JSON: $(cat errors)"
    # how far it is, on a screen and after a second
    mkfifo slow
    (sleep 1.3 && cat one/a >slow) &
    script -qec "tillerclover show one/a slow one/a one/b" /dev/null </dev/null >out
    grep -q " of 4, " out && grep -q "4 files, 4 sound, 0 not" out || fault "no bar over many files: $(cat -v out)"
    wait
    (sleep 1.3 && cat one/a >slow) &
    gives 0 "4 files, 4 sound, 0 not" show one/a slow one/a one/b
    wait
    script -qec "tillerclover show one/a one/b" /dev/null </dev/null >out
    ! grep -q " of 2, " out || fault "a bar for a moment"
    gives 2 "one: is a folder, which is compared with one other folder" diff one two/b
    mkdir -p empty && gives 2 "empty: is a folder without files" show empty
    bytes "0001 8400 0080000000000000 000000000000000000000000 0000 0001 00000000 ffffffff" >good
    head -c 20 good >bad
    gives 1 "2 lists, 1 accepted, 1 not" list check good bad
    gives 1 "bad: not accepted, 19" list check good bad
    printf 'tables = "one/a"\n[[expect]]\nrecord = "RETRIEVE /weight"\nanswer = 0\n' >t.toml
    sed 's/answer = 0/answer = 8/' t.toml >u.toml
    gives 1 "u.toml: 1 expectation, 0 met, 1 not" test t.toml u.toml
    gives 1 "2 files, 1 met, 1 not" test t.toml u.toml
    gives 0 "2 files, 2 met, 0 not" test t.toml t.toml
}

# holder KIND FILE: a process that holds a lock on the file; its number in $held. A record lock (posix) is a running
# terminal's, the other one (flock) another tillerclover's.
holder() {
    rm -f ready
    python3 -c '
import fcntl, struct, sys, time
file = open(sys.argv[2], "r+b")
if sys.argv[1] == "posix":
    fcntl.fcntl(file, fcntl.F_SETLK, struct.pack("hhqqi", fcntl.F_WRLCK, 0, 0, 0, 0))
else:
    fcntl.flock(file, fcntl.LOCK_EX)
print("held", flush=True)
time.sleep(60)' "$1" "$2" >ready &
    held=$!
    local i
    for ((i = 0; i < 200; i++)); do
        [ ! -s ready ] || return 0
        sleep 0.02
    done
    fault "no lock could be held"
}

# The file of a running terminal is not changed, and another run of the command is waited for.
part_locks() {
    yard a
    cp a before && rm -f a~
    local held i move=(UPDATE /oic/sec/pstat as 5 state=RFPRO)
    holder posix a
    gives 3 "a: in use by process $held; nothing was changed" judge a "${move[@]}"
    gives 3 "a: in use by process $held; nothing was changed" judge a RETRIEVE /weight
    gives 3 "in use by process $held" hand-in a RETRIEVE /weight
    gives 3 "in use by process $held" take a
    gives 3 "in use by process $held" undo a
    gives 3 "in use by process $held" new --force a
    gives 3 '"kind":"in-use"' judge --json a "${move[@]}"
    grep -q "\"process\":$held" "$work/errors" || fault "no process in: $(cat "$work/errors")"
    # what writes nothing needs no lock
    gives 0 "dry run" judge a --dry-run "${move[@]}"
    gives 0 "RFNOP" show a
    gives 1 "not permitted" why a UPDATE /zero as 7
    cmp -s a before && [ ! -e a~ ] || fault "a file in use was changed"
    kill "$held" && wait "$held" 2>/dev/null
    gives 0 "a: written" judge a "${move[@]}"

    # one that stores all the time: a new file, locked, then renamed
    cp before a && rm -f ready
    python3 -c '
import fcntl, os, struct
lock = struct.pack("hhqqi", fcntl.F_WRLCK, 0, 0, 0, 0)
bytes = open("before", "rb").read()
held = None
while not os.path.exists("stop"):
    new = open("a.new", "w+b")
    new.write(bytes)
    new.flush()
    fcntl.fcntl(new, fcntl.F_SETLK, lock)
    os.rename("a.new", "a")
    open("ready", "w").close()
    held = new
' &
    local busy=$!
    while [ ! -e ready ]; do sleep 0.02; done
    for ((i = 0; i < 25; i++)); do
        gives 3 "a: in use by process $busy; nothing was changed" judge a --no-backup "${move[@]}"
    done
    touch stop && wait "$busy"
    cmp -s a before || fault "a busy terminal's file was changed"

    # another tillerclover
    cp before a
    holder flock a
    gives 3 "another tillerclover (process $held) is changing it; waited 0 s; nothing was changed" judge a --wait 0 "${move[@]}"
    gives 0 "dry run" judge a --dry-run "${move[@]}"
    tillerclover judge a --wait 1 "${move[@]}" >out 2>errors
    [ $? -eq 3 ] && grep -q "a: waiting for process $held" errors && grep -q "waited 1 s" errors || fault "not waited: $(cat errors)"
    cmp -s a before || fault "a file that another one changes was changed"
    (sleep 0.6 && kill "$held") &
    tillerclover judge a "${move[@]}" >out 2>errors || fault "not done after waiting: $(cat errors)"
    [ "$(grep -c "a: waiting for process $held" errors)" -eq 1 ] || fault "waited without a word, or with many: $(cat errors)"
    wait 2>/dev/null
}

# The old file is kept, and comes back; what deletes all rows must be reported; a list does not eat its source.
part_backups() {
    yard a
    cp a before && rm -f a~
    gives 0 "state RFNOP -> RFPRO" judge a UPDATE /oic/sec/pstat as 5 state=RFPRO
    cmp -s a~ before || fault "the old file is not kept"
    cp a after
    gives 2 "which rows of /oic/sec/acl2? write number=.. or all" judge a DELETE /oic/sec/acl2 as 5
    gives 2 "which rows of /oic/sec/cred? write number=.., subject=.. or all" judge a DELETE /oic/sec/cred as 5
    cmp -s a after || fault "rows went without 'all'"
    gives 0 "access row 1 removed: number=1 subject=$haulier" judge a DELETE /oic/sec/acl2 as 5 all
    gives 0 "access row 1 added: number=1 subject=$haulier" undo a
    cmp -s a after || fault "undo did not put the file back"
    gives 0 "access row 2 removed" undo a
    gives 0 "access row 2 added" undo a
    cmp -s a after || fault "undo, again and again, is not the file"
    gives 0 '"what": "access row"' undo --json a
    gives 0 "a: written" judge --no-backup a UPDATE /oic/sec/pstat as 5 state=RFNOP
    cmp -s a~ after || fault "--no-backup kept a file"
    # a link: the file itself is kept, next to itself
    mkdir -p elsewhere && cp before elsewhere/b && ln -s elsewhere/b link
    gives 0 "link: written" judge link UPDATE /oic/sec/pstat as 5 state=RFPRO
    cmp -s elsewhere/b~ before && [ ! -e link~ ] || fault "the old file of a link is not kept"
    gives 0 "state RFPRO -> RFNOP" undo link
    cp before alone
    gives 2 "alone: $PWD/alone~ is not there: no earlier file is kept" undo alone
    # new --force keeps the old file too
    gives 0 "written" new --force a
    gives 0 "credential row 5 added" undo a
    # the old file cannot be kept: nothing is changed
    cp before b && rm -rf b~ && mkdir -p b~/in
    gives 2 "b: cannot be written: the old file cannot be kept as $PWD/b~: is a directory; it is as it was" \
        judge b UPDATE /oic/sec/pstat as 5 state=RFPRO
    cmp -s b before && [ -z "$(find . -maxdepth 1 -name '.tillerclover-*')" ] || fault "an old file that could not be kept"
    # a file system without links: a copy is kept
    echo '#include <errno.h>
int linkat(int a, const char *b, int c, const char *d, int e) { (void)a, (void)b, (void)c, (void)d, (void)e; errno = EPERM; return -1; }' >nolink.c
    cc -shared -fPIC nolink.c -o nolink.so && cp before c && chmod 640 c
    LD_PRELOAD=$PWD/nolink.so tillerclover judge c UPDATE /oic/sec/pstat as 5 state=RFPRO >out 2>errors ||
        fault "without links: $(cat errors)"
    cmp -s c~ before && [ "$(stat -c %a c~)" = 640 ] && ! cmp -s c before || fault "without links no copy is kept"
    # a disk that does not confirm: before the change nothing is changed, after it that is reported
    echo '#include <errno.h>
#include <sys/stat.h>
#include <sys/syscall.h>
#include <unistd.h>
int fsync(int file)
{
    struct stat data;
    if (fstat(file, &data) == 0 && S_ISDIR(data.st_mode)) {
        errno = EIO;
        return -1;
    }
    return (int)syscall(SYS_fsync, file);
}' >nosync.c
    cc -shared -fPIC nosync.c -o nosync.so && cp before d
    LD_PRELOAD=$PWD/nosync.so tillerclover judge d UPDATE /oic/sec/pstat as 5 state=RFPRO >out 2>errors
    [ $? -eq 2 ] && grep -q "it is as it was" errors && cmp -s d before || fault "a disk that does not confirm: $(cat errors)"
    LD_PRELOAD=$PWD/nosync.so tillerclover judge d --no-backup UPDATE /oic/sec/pstat as 5 state=RFPRO >out 2>errors
    [ $? -eq 4 ] && grep -q "d: WAS changed, but a power cut may take it back: input/output error" errors && ! cmp -s d before ||
        fault "a disk that does not confirm the change: $(cat errors)"
    # two names of one file: the old file is kept under the second
    cp before e && rm -f e~ && ln e e~
    gives 0 "e: written" judge e UPDATE /oic/sec/pstat as 5 state=RFPRO
    cmp -s e~ before && [ -z "$(find . -maxdepth 1 -name '.tillerclover-*')" ] || fault "two names of one file"
    # never over what is no regular file
    mkfifo pipe && gives 2 "cannot be written: it is no regular file" new --force --wait 0 pipe
    [ -p pipe ] || fault "a pipe was replaced"
    # a list that is converted into itself
    bytes "00000000000000000000000000000000 10 0080000000000000" >old
    cp old copy && ln -s old other
    gives 2 "old: is what the list is made of, and stays as it is" list convert old old --force
    gives 2 "other: is what the list is made of" list convert old other --force
    cmp -s old copy || fault "a list was converted into itself"
    # a full output after a change
    cp before a
    tillerclover judge a UPDATE /oic/sec/pstat as 5 state=RFPRO >/dev/full 2>errors
    [ $? -eq 4 ] && grep -q "a: WAS changed, but the output cannot be written: no space left on device" errors ||
        fault "a full output after a change: $(cat errors)"
    tillerclover judge a RETRIEVE /weight >/dev/full 2>errors
    [ $? -eq 2 ] || fault "a full output without a change ends with another status"
}

# a yard with rows worth a second look: a foreman 8, a role row, seasons, rows of nobody
busy_yard() {
    rm -f "$1" && tillerclover new "$1" >/dev/null &&
        tillerclover judge "$1" UPDATE /oic/sec/cred number=5 "subject=$owner" \
            UPDATE /oic/sec/cred number=7 "subject=$haulier" role=7@2 UPDATE /oic/sec/cred number=8 "subject=$foreman" \
            UPDATE /oic/sec/acl2 number=1 "subject=$haulier" permission=RU resources=/tare first=2026-07-01 last=2026-09-30 \
            UPDATE /oic/sec/acl2 number=2 subject=anon-clear permission=R resources=- \
            UPDATE /oic/sec/acl2 number=3 subject=role:7@2 permission=RU resources=/ticket,/lamp \
            UPDATE /oic/sec/acl2 number=4 subject=44444444-4444-4444-4444-444444444444 permission=R resources=+ \
            UPDATE /oic/sec/acl2 number=5 "subject=$foreman" permission=CRUDN resources=/calib first=2027-01-01 \
            UPDATE /oic/sec/acl2 number=6 subject=anon-clear permission=R resources=/tare \
            UPDATE /oic/sec/doxm "owner=$owner" \
            UPDATE /oic/sec/pstat as 5 state=RFPRO UPDATE /oic/sec/pstat as 5 state=RFNOP >"$work/out" ||
        fault "no yard: $(cat "$work/out")"
}

# The JSON has the keys that the document names.
part_keys() {
    busy_yard a
    "$root/tests/keys.py" tillerclover "$root/docs/TOOL-FORMATS.md" || fault "the keys of the JSON are others than docs/TOOL-FORMATS.md says"
}

part_questions() {
    busy_yard a
    local at=(--clock 2026-10-05)
    gives 0 "  7  $haulier  access row 3" who UPDATE /ticket a "${at[@]}"
    gives 0 "  8  $foreman  role 7@2, access row 3" who UPDATE /ticket a "${at[@]}"
    gives 0 "any holder may assert any role" who UPDATE /ticket a "${at[@]}"
    gives 0 "clear  anybody  access row 2" who retrieve /weight a "${at[@]}"
    gives 1 "may, by: nobody" who UPDATE /tare a "${at[@]}"
    gives 0 "7  $haulier  access row 1" who UPDATE /tare a --clock 2026-08-05
    gives 0 "the sender is the device owner" who UPDATE /oic/sec/pstat a
    gives 1 "nobody while the state is RFNOP, 11" who DELETE /oic/sec/acl2 a
    gives 1 "nobody: /oic/sec/doxm does not offer DELETE, 9" who DELETE /oic/sec/doxm a
    gives 2 "unknown resource '/tara'; did you mean /tare?" who UPDATE /tara a
    gives 2 "unknown verb 'FETCH'" who FETCH /tare a
    gives 0 "7       $haulier  -      -      -      -      RU     -       ru<   -     RU      RU    -       x        -" rights a "${at[@]}"
    gives 0 "any     whoever asserts role 7@2" rights a "${at[@]}"
    gives 0 '"kind": "asserting"' rights a --json "${at[@]}"
    gives 0 "season over" show a "${at[@]}"
    gives 0 "season to come" show a "${at[@]}"
    gives 0 "no sender fits" show a "${at[@]}"
    gives 0 "its senders reach none of its resources" show a "${at[@]}"
    gives 0 "any credential may assert this role" show a "${at[@]}"
    # what would change
    gives 1 "the record: permitted -RU-- -> refused, 8 not permitted" why a --clock 2026-08-05 --without 1 UPDATE /tare as 7
    gives 1 "credential 7 of $haulier on /tare: RU -> -" why a --clock 2026-08-05 --without 1 UPDATE /tare as 7
    gives 1 "there is no access row 9" why a --without 9 UPDATE /tare as 7
    gives 1 "is refused itself, 11: not in this device state" why a --with "DELETE /oic/sec/acl2 as 5 all" UPDATE /tare as 7
    gives 0 "no sender's rights change" why a --without 4 RETRIEVE /weight
    gives 0 "the record: refused, 11 not in this device state -> permitted CRUDN" \
        why a --with "UPDATE /oic/sec/pstat as 5 state=RFPRO" DELETE /oic/sec/acl2 as 5 number=1
    gives 2 "--with 'DELETE': which resource?" why a --with DELETE UPDATE /tare as 7
    # two files
    cp a b
    gives 0 "a and b hold the same" diff a b
    tillerclover judge b --clock 2026-10-05 UPDATE /oic/sec/roles as 8 role=9 last=2026-12-31 UPDATE /oic/sec/pstat as 5 state=SRESET \
        UPDATE /oic/sec/acl2 as 5 number=1 "subject=$haulier" permission=R resources=/tare,/zero \
        DELETE /oic/sec/acl2 as 5 number=6 UPDATE /oic/sec/cred as 5 "row-owner=$foreman" >/dev/null || fault "no second yard"
    tillerclover hand-in b RETRIEVE /weight >/dev/null
    gives 1 "from a to b: 6 differences" diff a b
    gives 1 "state RFNOP -> SRESET" diff a b
    gives 1 "access row 1: permission -RU-- -> -R---; resources /tare -> /tare /zero; season 2026-07-01 to 2026-09-30 -> always" diff a b
    gives 1 "access row 6 removed: number=6 subject=anon-clear" diff a b
    gives 1 "credential row 8: asserted roles none -> 9@0 to 2026-12-31T23:59:59" diff a b
    gives 1 "row owner of /oic/sec/cred none -> $foreman" diff a b
    gives 1 "waiting record of anybody in clear added: RETRIEVE /weight" diff a b
    gives 1 '"field": "permission"' diff --json a b
    # tables that are not sound
    tillerclover new --form tables c >/dev/null && bytes 09 | dd of=c bs=1 conv=notrunc status=none
    gives 1 "c: NOT SOUND" rights c
    gives 1 "c: NOT SOUND" who UPDATE /tare c
}

# Partners and yards: yes and no in words, and bad lists.
part_yards() {
    yard a
    tillerclover judge a UPDATE /oic/sec/pstat as 5 state=RFPRO UPDATE /oic/sec/cred as 5 number=8 "subject=$foreman" \
        UPDATE /oic/sec/pstat as 5 state=RFNOP >/dev/null || fault "no third partner"
    cp a before
    gives 0 "7, 8 in a: isolated" isolated a 7,8
    gives 0 "clear in a: isolated" isolated a clear
    gives 1 "7, 5 in a: not isolated: credential 5 of $owner is the device owner" isolated a 7,5
    gives 2 "a: no credential row has the number 77; --absent asks of it all the same" isolated a 7,77
    gives 0 "7, 77 in a: isolated" isolated a 7,77 --absent
    gives 2 "8 stands twice" isolated a 8,7,8
    gives 2 "credential numbers between commas, such as 7,8,9" isolated a ''
    gives 2 "0 is no credential number; anybody in clear is the word clear" isolated a 0
    gives 2 "'x' is no credential number" isolated a 7,x
    gives 0 "  south  8   isolated" yards a north=7 south=8
    gives 0 "  5  $owner  is the device owner" yards a north=7 south=8
    gives 0 "Ask again after that." yards a north=7 south=8
    gives 1 "Whoever is not isolated could disturb every yard." yards a north=5 south=8
    gives 2 "credential 7 is of yard north and of yard south; nobody may be of two" yards a north=7 south=8,7
    gives 2 "yard north stands twice" yards a north=7 north=8
    gives 2 "'7,8': a yard is its name and its credential numbers, such as north=7,8,9" yards a 7,8
    gives 2 "yard north: '7,': credential numbers between commas" yards a north=7,
    gives 2 "no credential row has the number 9" yards a north=7 south=9
    cmp -s a before || fault "a question changed the tables"
    # a row for a role, of a season that is over; a row owner; no owner
    tillerclover judge a UPDATE /oic/sec/pstat as 5 state=SRESET UPDATE /oic/sec/acl2 as 5 number=9 subject=role:3 permission=CRU \
        resources=/oic/sec/pstat,/weight last=2020-01-01 UPDATE /oic/sec/cred as 5 "row-owner=$foreman" >/dev/null || fault "no loose row"
    gives 1 "credential 7 of $haulier may be given C-U-- on /oic/sec/pstat by access row 9, which is for role:3@0" isolated a 7
    gives 1 "any holder may assert any role" isolated a 7
    gives 1 "credential 8 of $foreman is the row owner of /oic/sec/cred" isolated a 8
    gives 0 "clear in a: isolated" isolated a clear
    gives 1 "  8  $foreman  is the row owner of /oic/sec/cred" yards a north=7
    gives 1 '"number": 5' isolated --json a 7
    tillerclover new b >/dev/null
    gives 1 "nobody owns the terminal, so that anybody may write" isolated b clear
    tillerclover new --form tables c >/dev/null && bytes 09 | dd of=c bs=1 conv=notrunc status=none
    gives 1 "c: NOT SOUND" isolated c 7
    gives 1 "c: NOT SOUND" yards c a=7
}

# The release's page with tables in it: the bytes come back, and whatever is no page, no tables or there already is refused.
part_enclosed() {
    local room='<script type="text/plain" id="tables">'
    tillerclover new e.tables >/dev/null && echo "<p>$room</script></p>" >release.html || return
    gives 0 "e.html: written, with e.tables in it; it is a copy" page e.tables -o e.html --page release.html
    sed -n '2s/<.*//p' e.html | base64 -d | cmp -s - e.tables || fault "the tables in the page are others"
    [ "$(head -n 1 e.html)" = "<p>${room}e.tables" ] || fault "the name in the page is another"
    gives 2 "is there already" page e.tables -o e.html --page release.html
    gives 2 "is no page of this release" page e.tables -o f.html --page e.html
    gives 2 "is not beside the command" page e.tables -o f.html
    mkdir -p "$work/share/tillerclover" && cp release.html "$work/share/tillerclover/tillerclover.html"
    gives 0 "written" page e.tables -o f.html
    cmp -s e.html f.html || fault "the page beside the command gives another"
    echo "7 Northfield Haulage" >e.names
    gives 0 "written" page e.tables -o h.html
    sed -n '3s/<.*//p' h.html | base64 -d | cmp -s - e.names || fault "the names in the page are others"
    rm e.names && head -c 100 e.tables >cut.tables
    gives 2 "ends at byte 100" page cut.tables -o g.html
    [ ! -e g.html ] || fault "a page of no tables was written"
    rm -r "$work/share"
}

# The page says what the table says, needs nothing else, and stays within its rules.
part_page() {
    busy_yard "a<b>&c"
    gives 0 "p.html: written" rights "a<b>&c" --clock 2026-10-05 --html p.html
    gives 2 "p.html: is there already" rights "a<b>&c" --html p.html
    gives 0 "p.html: written" rights "a<b>&c" --clock 2026-10-05 --html p.html --force
    tillerclover rights "a<b>&c" --clock 2026-10-05 --html - | cmp -s - p.html || fault "the page on standard output is another"
    tillerclover rights "a<b>&c" --clock 2026-10-05 --json >rights.json
    "$root/tests/page.py" p.html rights.json "a<b>&c" || fault "the page is not as it should be"
    grep -q "Isolation of yards" p.html && fault "yards that nobody named"
    gives 0 "q.html: written" rights "a<b>&c" --clock 2026-10-05 --html q.html --yard "<n>=7" --yard south=8
    tillerclover yards "a<b>&c" "<n>=7" south=8 --json >yards.json
    "$root/tests/page.py" q.html rights.json "a<b>&c" yards.json || fault "the page with yards is not as it should be"
    gives 2 "no credential row has the number 9" rights "a<b>&c" --html r.html --yard north=9
    gives 2 "credential 7 is of yard north and of yard south" rights "a<b>&c" --html r.html --yard north=7 --yard south=7
    gives 2 "--html" rights "a<b>&c" --yard north=7
    [ ! -e r.html ] || fault "a page of bad yards was written"
}

part_office() {
    busy_yard a
    tillerclover judge a UPDATE /oic/sec/pstat as 5 state=RFPRO >/dev/null
    tillerclover list text a --seasons >a.json || fault "no text with seasons"
    gives 0 "a.list: 6 rows made" list make a.json a.list
    gives 0 "note: 2 seasons by first and last, which are no part of the office's own form" list make a.json a.list --force
    gives 0 "a.list: accepted, 6 rows" list check a.list
    gives 0 "note: A role row is open to every credential: any holder may assert any role. Rows for roles: 3" list check a.list
    gives 0 "a: unchanged" list load a.list a as 5
    # the office's own text of the terminal comes back as its rows without a season
    tillerclover list text a >own.json 2>/dev/null
    python3 -m json.tool own.json >pretty.json
    gives 0 "4 rows made" list make pretty.json own.list
    tillerclover list make - own.list --force <own.json >/dev/null || fault "no list of standard input"
    gives 0 "accepted, 4 rows" list check own.list
    # words
    printf '%s\n' "# the harvest" "number=1 subject=role:7@2 permission=RU resources=/tare last=2026-09-30" "" \
        "number=2 subject=auth-crypt permission=R resources=/weight # all" >rows
    gives 0 "2 rows made" list make rows words.list
    gives 2 "rows: is what the list is made of" list make rows rows --force
    echo "number=3 subject=me" >>rows
    gives 2 "rows: line 5: subject=me: a subject is" list make rows words.list --force
    printf '%s\n' "number=1 subject=auth-crypt permission=R resources=/weight" \
        "number=1 subject=auth-crypt permission=R resources=/tare" >rows
    gives 1 "rows: not made, 20: row 2: repeats number 1 of row 1; no file was written" list make rows gone
    [ ! -e gone ] || fault "a bad list left a file behind"
    echo "number=1 subject=auth-crypt permission=U resources=/oic/sec/acl2" >rows
    gives 0 "warning: 'list check' does not accept it, 21: row 1 gives auth-crypt --U-- on /oic/sec/acl2" list make rows much.list
    # what the library would write otherwise
    sed 's/"href":"\/ticket"/"href":"\/TICKET"/' a.json >bad.json
    gives 2 "bad.json: aclist2[2].resources[0].href is \"/TICKET\", and the library writes \"/ticket\"" list make bad.json gone
    sed 's/"aceid":2,/"aceid":2,"aceid":2,/' a.json >bad.json
    gives 2 'the key "aceid" stands twice' list make bad.json gone
    sed 's/"authority":"2",//' a.json >bad.json
    gives 2 "aclist2[2].subject.authority is missing, and the library writes \"0\"" list make bad.json gone
    echo '{"aclist2":[' >bad.json
    gives 2 "bad.json: no JSON: EOF while parsing" list make bad.json gone
    # loaded: all or nothing
    cp a before
    gives 0 "access row 1: subject $haulier -> role:7@2" list load words.list a as 5
    gives 0 "access row 3 removed" list load words.list a as 5 --replace
    gives 0 "Access control entries, 2 of 32" show a
    cp before a
    gives 0 "6 rows loaded" list load a.json a as 5
    gives 1 "much.list: not accepted, 21" list load much.list a as 5
    gives 1 "refused, 8 not permitted: UPDATE /oic/sec/acl2 as 8 number=1" list load words.list a as 8
    gives 1 "refused, 7 no such credential" list load words.list a as 99
    gives 0 "not written, since this is a dry run" list load words.list a as 5 --dry-run
    cmp -s a before || fault "a list that was not loaded changed the tables"
    # the thirty-third row does not fit: none is stored
    local i held
    for ((i = 10; i < 40; i++)); do echo "number=$i subject=auth-crypt permission=R resources=/weight"; done >rows
    tillerclover list make rows many.list >/dev/null
    gives 1 "refused, 14 table full" list load many.list a as 5
    cmp -s a before || fault "a part of a list was loaded"
    gives 0 "30 rows loaded" list load many.list a as 5 --replace
    holder posix a
    gives 3 "a: in use by process $held" list load words.list a as 5
    kill "$held" && wait "$held" 2>/dev/null
}

part_lines() {
    busy_yard a
    cp a before
    printf '%s\n' "# a morning" "at 2026-08-01T06:00 RETRIEVE /weight" "UPDATE /tare as 7 text:lorry   # in the season" \
        "hand-in UPDATE /ticket as 7" "hand-in RETRIEVE /weight" "hand-in UPDATE /lamp as 7" "take" "take" "take" >lines
    gives 1 "permitted  -RU--  take: UPDATE /ticket as 7" judge a @lines --dry-run
    gives 1 "refused    26     hand-in UPDATE /lamp as 7" judge a @lines --dry-run
    tillerclover judge a - --dry-run <lines >piped
    tillerclover judge a @lines --dry-run >filed
    cmp -s filed piped || fault "a pipe and a file of lines differ"
    tillerclover run --tables a --lines lines >found || fault "a run of lines ends with $?"
    printf '%s\n' "n answer perm state" "1 0 2 3" "2 0 6 3" "3 0 0 3" "4 0 0 3" "5 26 0 3" "6 0 2 3" "7 0 6 3" "8 27 0 3" >expected
    cut -d ' ' -f 1-4 found | cmp -s - expected || fault "a run of lines: $(cat found)"
    tillerclover run --tables a "$root/crates/run/stdin" >found && grep -q "RFNOP" found || fault "a run on tables: $(cat found)"
    cmp -s a before || fault "a run changed its tables"
    echo "give /tare" >>lines
    gives 2 "lines: line 10: unknown word 'give'" judge a @lines
    gives 2 "lines: line 10: unknown word 'give'" run --lines lines
    cmp -s a before || fault "lines with a mistake changed the tables"
    # one at a time, over several commands
    gives 0 "kept       -----  hand-in RETRIEVE /weight" hand-in a RETRIEVE /weight
    gives 0 "kept" hand-in a UPDATE /ticket as 7
    gives 1 "refused    26" hand-in a UPDATE /lamp as 7
    gives 1 "nothing    27     take" take a 3
    gives 1 "nothing waits" take a
    # a form without room for the queue
    tillerclover new --form tables small >/dev/null && cp small before
    gives 2 "small: has no room for records that wait, by its form; nothing was changed" hand-in small RETRIEVE /weight
    gives 0 "kept" hand-in small --dry-run RETRIEVE /weight
    cmp -s small before || fault "a form without room was changed"
}

part_expectations() {
    busy_yard a
    cat >yard.toml <<'END'
tables = "a"
clock = 2026-08-01T06:00:00Z
[[expect]]
name = "the haulier tares in the season"
record = "UPDATE /tare as 7"
answer = 0
permission = "RU"
[[expect]]
name = "and not after it"
record = "UPDATE /tare as 7"
clock = "2026-10-01"
answer = "not permitted"
[[expect]]
record = "UPDATE /zero as 7"
answer = "refused"
[[expect]]
hand-in = "RETRIEVE /weight"
answer = 0
[[expect]]
take = true
answer = "nothing waits"
END
    gives 0 "yard.toml: 5 expectations, 5 met, 0 not" test yard.toml
    mkdir -p sub && cd sub && gives 0 "../yard.toml: 5 expectations, 5 met, 0 not" test ../yard.toml
    cd ..
    sed 's/^clock = 2026-08.*/&\nsequence = true/' yard.toml >sequence.toml
    gives 1 "expected 27 nothing waits; found 0 permitted, -R---" test sequence.toml
    sed 's/answer = 0/answer = 8/' yard.toml >bad.toml
    gives 1 "expected 8 not permitted, -RU--; found 0 permitted, -RU--, at 2026-08-01T06:00:00" test bad.toml
    gives 1 '"not_met": 2' test --json bad.toml
    sed 's/^record = "UPDATE \/zero.*/recrod = "UPDATE \/zero"/' yard.toml >bad.toml
    gives 2 "bad.toml: expectation 3: unknown key 'recrod'; did you mean record?" test bad.toml
    sed 's/"not permitted"/"not permited"/' yard.toml >bad.toml
    gives 2 'answer "not permited" is no number of an answer, its words, or "refused"; did you mean not permitted?' test bad.toml
    echo "tables" >bad.toml
    gives 2 "bad.toml: no TOML" test bad.toml
}

# A journal: judged again, shown, asked about; changed anywhere, with and without a good chain; bytes of any kind.
part_journal() {
    local write=$root/tests/write_journal.py place kind line
    cp "$root"/examples/tool/weston* . && tillerclover new weston.tables >/dev/null && tillerclover judge weston.tables --all @weston.txt >/dev/null
    "$write" write "$program" weston-day.txt weston.tables >made && cmp -s made weston.journal || fault "weston.journal is not made of weston-day.txt"
    sed -n 's/^    \([0-9]* 2026.* [0-9a-f]\{64\}\)$/\1/p' "$root/docs/JOURNAL.md" >page.journal
    gives 0 "5 answers judged again: the chain fits and all are the same" journal check page.journal
    gives 0 "17 answers judged again: the chain fits and all are the same" journal check weston.journal
    gives 0 "the last chain: $(tail -n 1 weston.journal | grep -o '[0-9a-f]*$')" journal check weston.journal
    # each line changed, left out, twice, and after the next one
    for ((place = 1; place <= 25; place++)); do
        for kind in "s/[0-9] /x /" d p "{h;d};$((place + 1))G"; do
            sed "$place$kind" weston.journal >bad.journal
            tillerclover journal check bad.journal >out 2>errors
            [ $? -eq 1 ] && [ ! -s errors ] && grep -q "^bad.journal line \($place\|$((place + 1))\): " out || fault "line $place $kind: $(cat out errors)"
        done
    done
    gives 0 "26 lines" journal check weston.journal
    head -n 25 weston.journal >cut.journal
    gives 0 "entries 1 to 25" journal check cut.journal
    # lies with a good chain
    while IFS='|' read -r kind line; do
        sed "$kind" weston.journal | "$write" chain >lie.journal
        gives 1 "$line" journal check lie.journal
    done <<'END'
12s/ 8 0 / 0 6 /|lie.journal line 12: the journal says 0 permitted, -RU--, and the library answers 8 not permitted
5s/ 0 6 / 0 2 /|lie.journal line 5: the journal says 0 permitted, -R---, and the library answers 0 permitted, -RU--
10s/ 26 / 0 /|lie.journal line 10: the journal says 0 permitted, and the library answers 26 another record of this sender waits
12s/ 5240000a/ 5340000a/|lie.journal line 12: the journal says that UPDATE /calib as 10 text:lorry was taken, and the library takes UPDATE /tare as 10 text:lorry
18d|lie.journal line 18: other tables are stored than the lines before give
24s/ 1790[0-9]* / 1890000000 /|lie.journal line 24: the journal says 0 permitted, -RU--, and the library answers 8 not permitted
13s/ 3 00/ 3 01/|lie.journal line 13: records wait here: 1, and none should
3s/ first 03/ first 02/|the library answers
2d|no 'library' follows the 'begin'
3s/ first / new /|lie.journal line 3: the tables are not a new terminal's: state RFOTM -> RFNOP
3s/ first / other /|lie.journal line 3: the terminal was started with other tables than the journal ended with
END
    # what is no difference
    sed '2s/library [0-9]*/library 7/' weston.journal | "$write" chain >other.journal
    gives 0 "note: other.journal line 2: the journal is of library 7, and this one is " journal check other.journal
    sed '3s/ first / same /' weston.journal | "$write" chain >other.journal
    gives 0 "the chain fits" journal check other.journal
    # a start after a power cut: 'torn' stands between its 'library' and its 'started'
    { cat weston-day.txt && echo "2026-10-02T06:00:00.000Z started same"; } >again.txt
    "$write" write "$program" again.txt weston.tables | sed '/ started same /i0 2026-10-02T06:00:00.000Z - torn 19' | "$write" chain >again.journal
    gives 0 "note: again.journal line 28: a line was torn, and 19 bytes were cut off" journal check again.journal
    # entries, by sender, time and change
    gives 0 "    12  2026-10-01T06:12:07.501  refused    8      take: UPDATE /tare as 10 text:lorry  # Northfield Haulage" journal show weston.journal
    gives 0 "    12  2026-10-01T08:12:07.501+02:00  refused    8 " journal show weston.journal --tz Europe/Berlin
    gives 0 "access row 1: season 2026-07-01 to 2026-09-30 -> 2026-10-01 to 2026-12-31" journal show weston.journal --changes
    shows() { [ "$(tillerclover journal show weston.journal "${@:2}" 2>/dev/null | wc -l)" -eq "$1" ] || fault "journal show ${*:2}: not $1 lines"; }
    shows 9 --sender northfield
    shows 2 --sender clear
    shows 1 --sender 11
    shows 6 --changes
    shows 0 --changes --sender northfield
    shows 3 --from 2026-10-01T07:05 --to 2026-10-01T07:06
    shows 5 --to 2026-09-30
    gives 2 "--sender: " journal show weston.journal --sender nobody-here
    gives 2 "--from: 'dawn' is no time" journal show weston.journal --from dawn
    tillerclover journal show weston.journal --json | python3 -c 'import json, sys
lines = [json.loads(line) for line in sys.stdin]
sys.exit(not (lines[9]["line"] == 12 and lines[9]["answer"]["number"] == 8 and lines[9]["file"] == "weston.journal"))' || fault "the entries as JSON"
    tillerclover journal show weston.journal | head -n 1 >/dev/null || fault "a reader that leaves ends the command with ${PIPESTATUS[0]}"
    tillerclover journal show weston.journal >/dev/full 2>errors
    [ $? -eq 2 ] && grep -q "the output cannot be written" errors || fault "a full output: $(cat errors)"
    # why, and the tables of a moment
    gives 1 "note    access row 1 would do but for its season" journal why weston.journal 12
    gives 1 "weston.journal line 12, 2026-10-01T06:12:07.501" journal why weston.journal 8
    gives 1 "refused, 26 another record of this sender waits: UPDATE /tare as 10 text:lorry waits" journal why weston.journal 10
    gives 0 "there   -RU-- by access row 1" journal why weston.journal 24
    gives 1 "the program did not ask the library: its session was opened under another row or key" journal why weston.journal 25
    gives 2 "weston.journal: line 26: is no record: stopped" journal why weston.journal 26
    gives 2 "weston.journal: has 26 lines, and no line 27" journal why weston.journal 27
    gives 2 "LINE" journal why weston.journal 0
    tillerclover journal why weston.journal 12 --json >out
    python3 -c 'import json, sys
sys.exit(json.load(sys.stdin)["why"]["answer"]["number"] != 8)' <out || fault "why as JSON"
    gives 0 "then.tables: written" journal tables weston.journal --at 2026-10-01T07:00 -o then.tables
    gives 1 "from weston.tables to then.tables: 1 difference" diff weston.tables then.tables
    gives 0 "later.tables: written" journal tables weston.journal --at 2026-10-02 -o later.tables --form tables
    gives 1 "access row 1: season 2026-07-01 to 2026-09-30 -> 2026-10-01 to 2026-12-31" diff then.tables later.tables
    gives 2 "weston.journal: begins later, at 2026-09-30T16:40:00.000" journal tables weston.journal --at 2026-09-01 -o gone
    gives 2 "then.tables: is there already" journal tables weston.journal --at 2026-10-01 -o then.tables
    sed '12s/ 8 0 / 0 6 /' weston.journal >changed.journal
    gives 1 "the journal does not fit up to there: 2 differences, the first in line 12" journal tables changed.journal --at 2026-10-02 -o gone.tables
    # a journal of three files, in any order, and without one
    mkdir -p three && sed -e '/07:04:00.000/i2026-10-01T07:00:00.000Z next' -e '/07:06:00/i2026-10-01T07:05:59.000Z next' weston-day.txt >three.txt
    "$write" write "$program" three.txt weston.tables >all
    csplit -sz -f three/part all '/ begin /' '{*}' && mv three/part00 three/yard.journal.000001 && mv three/part01 three/yard.journal.000002 && mv three/part02 three/yard.journal
    gives 0 "17 answers judged again: the chain fits and all are the same" journal check three/yard.journal three/yard.journal.000002 three/yard.journal.000001
    gives 0 "17 answers judged again" journal check three
    gives 0 "the chain fits" journal check three/yard.journal.000002
    gives 1 "three/yard.journal line 1: it is file 3, after file 1" journal check three/yard.journal three/yard.journal.000001
    # a folder with other files, keys among them: they are left alone, and no key is printed
    echo "5 248119d03a460b031eba007e73bbf11c" >three/keys && cp weston.tables three/
    gives 0 "17 answers judged again" journal check three
    gives 1 "three/keys line 1: the chain is no sum" journal check three/keys
    ! grep -q 2481 "$work/out" || fault "a key is printed: $(cat "$work/out")"
    mkdir -p none && cp three/keys none/ && gives 2 "none: is a folder without a journal" journal check none
    cp weston.names three/yard.names
    gives 0 "# Northfield Haulage" journal show three/yard.journal.000001
    gives 0 "three/yard.journal.000002:" journal show three
    # bytes of any kind
    printf 'half a li' >>cut.journal
    gives 1 "cut.journal line 26: is torn: the file ends after 9 bytes of it" journal check cut.journal
    { head -n 3 weston.journal; head -c 100000 /dev/zero | tr '\0' 7; echo; tail -n +4 weston.journal; } >long.journal
    gives 1 "long.journal line 4: has more than the 32768 bytes that a line has" journal check long.journal
    { head -n 3 weston.journal; printf '\xff\xfe\n'; tail -n +4 weston.journal; } >odd.journal
    gives 1 "odd.journal line 4: byte 0 is 255, which is no letter of a journal" journal check odd.journal
    gives 2 "odd.journal: line 4: byte 0 is 255" journal why odd.journal 4
    gives 1 "the journal does not fit here: 1 differences, the first in line 4" journal why odd.journal 13
    sed '12s/ taken 10 / taken 99999 /' weston.journal >range.journal
    gives 1 "range.journal line 12: SENDER '99999' is no number that it may be" journal check range.journal
    sed '5s/Z 179/Z 99999179/' weston.journal >range.journal
    gives 1 "range.journal line 5: CLOCK '99999179" journal check range.journal
    : >empty.journal
    gives 1 "empty.journal line 1: the file is empty" journal check empty.journal
    head -c 100000 /dev/urandom >random.journal
    tillerclover journal check random.journal >out 2>errors
    [ $? -eq 1 ] && [ ! -s errors ] && [ "$(wc -l <out)" -le 110 ] || fault "bytes at random: $(head -n 2 out errors)"
    gives 2 "missing: cannot be read: no such file or directory" journal check missing
    tillerclover journal check - <weston.journal | grep -q "the chain fits" || fault "a journal on standard input"
    # how far it is, on a screen
    { head -n 3 weston.journal; yes "0 2026-10-01T00:00:00.000Z - turned-away 11 5240000b occupied" | head -n 600000; } | "$write" chain >many.journal
    script -qec "tillerclover journal check many.journal" /dev/null </dev/null >out
    grep -q "MiB of " out && grep -q "600003 lines" out || fault "no bar over a long journal: $(head -c 300 out | cat -v)"
    gives 0 "not judged: 600000 that the program turned away" journal check many.journal
}

# in_shell SHELL: whether it is there
in_shell() { command -v "$1" >/dev/null || { fault "$1 is not there"; false; }; }

# Seasons, records on the wire, tables for spreadsheets, help where somebody would be at a loss.
part_everyday() {
    yard a
    tillerclover judge a UPDATE /oic/sec/pstat as 5 state=RFPRO UPDATE /oic/sec/acl2 as 5 number=3 "subject=$haulier" permission=RU resources=/tare \
        first=2027-07-01 last=2027-09-30 UPDATE /oic/sec/acl2 as 5 number=4 "subject=$haulier" permission=U resources=/zero last=2026-09-15 \
        UPDATE /oic/sec/pstat as 5 state=RFNOP >/dev/null || fault "no seasons"
    cp a before
    gives 0 "ends in 61 days; row 3 gives it later" seasons a --clock 2026-07-31T12:00
    gives 0 "begins in 334 days" seasons a --clock 2026-07-31T12:00
    gives 0 "over since 14 days" seasons a --clock 2026-10-15T12:00
    gives 0 "no seasons that end soon in a at" seasons a --within 30d --clock 2026-07-31
    gives 1 "ends in 14 days" seasons a --within 30d --clock 2026-09-01
    gives 0 "ends in 10 days; row 3 gives it later" seasons a --within 2w --clock 2026-09-20T12:00
    gives 2 "--within: '30x' is no time: write seconds, or 12h, 30d or 4w" seasons a --within 30x
    gives 0 '"place": "to come"' seasons a --clock 2026-09-20 --json
    tillerclover rights a --clock 2026-09-20 --html p.html >/dev/null
    [ "$(grep -c '<rect class="bar-' p.html)" -eq 3 ] && grep -q 'bar-over.*to 2026-09-15; over since 4 days' p.html && grep -q '>2026-10<' p.html ||
        fault "the seasons of the page: $(grep bar- p.html)"
    # records, there and back
    gives 0 "524000076c6f727279" record UPDATE /tare as 7 text:lorry
    gives 0 "UPDATE /tare as 7 text:lorry" decode 524000076c6f727279
    tillerclover record --bytes UPDATE /tare as 7 text:lorry RETRIEVE /weight | xxd -p | grep -qx 524000076c6f72727922000000 || fault "a record's bytes"
    gives 0 'coap-client-openssl -m post -e %40 -u 5 -k "$KEY" coaps://10.0.0.5/oic/sec/pstat' record --coap 10.0.0.5 UPDATE /oic/sec/pstat as 5 state=RFPRO
    gives 0 "coap-client-openssl -m get coap://'a b;c'/weight" record --coap 'a b;c' RETRIEVE /weight
    gives 2 "has no request of CoAP" record --coap x hex:ffff
    gives 2 "record '5g': digit 2 is 'g'" decode 5g
    # tables for spreadsheets
    tillerclover list text a --csv >rows.csv && gives 0 "rows.list: 4 rows made" list make rows.csv rows.list
    tillerclover judge a UPDATE /oic/sec/pstat as 5 state=RFPRO >/dev/null
    gives 0 "a: unchanged" list load rows.list a as 5
    gives 0 "a: unchanged" list load rows.csv a as 5
    printf 'Number;Subject;Resources;Permission;Last\r\n9;%s;/tare /zero;U;2026-12-31\r\n' "$haulier" >office.csv
    gives 0 "access row 9 added: number=9 subject=$haulier permission=--U-- resources=/tare,/zero last=2026-12-31T23:59:59" list load office.csv a as 5 --dry-run
    printf 'number,subject,resources,permision\n' >bad.csv
    gives 2 "bad.csv: unknown column 'permision'; did you mean permission?" list make bad.csv gone
    tillerclover list text a >own.json 2>/dev/null
    gives 2 "own.json: is the office's JSON, and no list of bytes: 'list make' makes one" list check own.json
    gives 2 "own.json: is the office's JSON, and no list of bytes: 'list make' makes one" list text own.json
    gives 2 "rows.csv: is a table of CSV, and no list of bytes" list check rows.csv
    # what somebody may try
    cp before a
    printf 'RETRIEVE /weight\nRETRIEVE /lamp\n' >lines
    gives 2 "lines: is a text, and no run of clocks, lengths and records; --lines reads one" run lines
    head -c 40000 /dev/zero >long
    tillerclover run long >out 2>errors
    grep -q "long: has 40000 bytes; the first 32768 are read, as the run program does; --whole reads all" errors || fault "a long run: $(cat errors)"
    gives 2 "unknown word 'GET', which of CoAP is RETRIEVE here" judge a "GET /weight"
    gives 2 "permision= is no part of such a body; did you mean permission?" judge a UPDATE /oic/sec/acl2 as 5 permision=R
    gives 2 "--clock" hand-in a --clock 2026-08-01 RETRIEVE /weight
    local held
    holder posix a
    gives 3 "nothing was changed; 'tillerclover record' writes what can be sent to it instead" judge a UPDATE /tare as 7
    kill "$held" && wait "$held" 2>/dev/null
    # the zone of the surroundings
    TZ=Europe/Berlin tillerclover show a | grep -q "season (Europe/Berlin)" || fault "TZ is not heard"
    TZ=:Asia/Tokyo TILLERCLOVER_TZ=+02:00 tillerclover show a | grep -q "season (+02:00)" || fault "TILLERCLOVER_TZ is not heard"
    TZ=CET-1CEST tillerclover show a | grep -q "season (UTC)" || fault "a zone of the system's own form is a mistake"
    TZ=Asia/Tokyo tillerclover show a --tz UTC | grep -q "season (UTC)" || fault "--tz is not heard"
    TILLERCLOVER_TZ=Berlin gives 2 "TILLERCLOVER_TZ: 'Berlin' is no time zone" show a
    # the width of a screen
    script -qec "stty cols 60; tillerclover rights a; tillerclover judge --help" /dev/null </dev/null | tr -d '\r' >out
    [ "$(sed 's/\x1b\[[0-9;]*m//g' out | awk '{ if (length($0) > 60) n++ } END { print n + 0 }')" -eq 0 ] || fault "wider than the screen: $(awk 'length($0) > 60' out | head -n 3)"
    # a table that is wider has the heads beside its cells
    script -qec "stty cols 60; tillerclover show a; tillerclover rights a" /dev/null </dev/null | tr -d '\r' | sed 's/\x1b\[[0-9;]*m//g' >out
    grep -qx "number 1; subject $haulier;" out && grep -qx "    permission -RU--; resources /tare;" out && grep -q "tare ru" out ||
        fault "a table on a narrow screen: $(grep -n number out)"
    script -qec "stty cols 200; tillerclover show a" /dev/null </dev/null | grep -q "^number  subject " || fault "a table on a wide screen"
    # watched
    cp before b
    printf 'tables = "b"\n[[expect]]\nname = "one"\nrecord = "RETRIEVE /weight"\nanswer = 0\n' >w.toml
    timeout 20 tillerclover test --watch w.toml >watched &
    local watcher=$! i
    for ((i = 0; i < 100; i++)); do grep -q watching watched && break || sleep 0.1; done
    sleep 0.5
    tillerclover judge b --no-backup UPDATE /oic/sec/pstat as 5 state=RFPRO >/dev/null
    for ((i = 0; i < 100; i++)); do grep -q "0 met" watched && break || sleep 0.1; done
    kill "$watcher" && wait "$watcher" 2>/dev/null
    grep -q "1 met, 0 not" watched && grep -q "0 met, 1 not" watched && [ "$(grep -c watching watched)" -eq 2 ] || fault "not watched: $(cat watched)"
    # versions for programs, completions, pages
    gives 0 '"interface": "' --version --json
    printf '7 Northfield Haulage\nrole 7@2 foreman\n' >a.names
    tillerclover completions bash >script
    # shellcheck disable=SC2016
    completes() { bash -c '. ./script; COMP_WORDS=(tillerclover "$@"); COMP_CWORD=$#; _tillerclover_and_names tillerclover "${!#}" "$1"; echo "${COMPREPLY[*]}"' x "$@"; }
    [ "$(completes isolated a gravel,north)" = gravel,Northfield-Haulage ] || fault "a name in a list: $(completes isolated a gravel,north)"
    [ "$(completes who UP)" = UPDATE ] && [ "$(completes who UPDATE /ta)" = /tare ] && [ "$(completes judge a UPDATE /oic/sec/pstat state=RFN)" = state=RFNOP ] &&
        [ "$(completes judge a UPDATE /tare as north)" = Northfield-Haulage ] || fault "words are not completed: $(completes who UP) $(completes judge a as north)"
    "$root/packaging/install-tool.sh" "$program" "$PWD/installed" && [ -e installed/share/man/man1/tillerclover-list-make.1.gz ] && [ -e installed/share/man/man1/tillerclover-defaults-creds.1.gz ] ||
        fault "no page of list make or defaults creds"
    local line word
    while IFS='|' read -r line word; do
        in_shell fish && { fish -c "source installed/share/fish/vendor_completions.d/tillerclover.fish; complete -C 'tillerclover $line'" </dev/null |
            cut -f 1 | grep -qxF -- "$word" || fault "fish does not complete '$line' to $word"; }
        in_shell zsh && { "$root/tests/zsh.py" installed/share/zsh/vendor-completions "tillerclover $line" </dev/null |
            grep -qxF -- "tillerclover ${line% *} $word" || fault "zsh does not complete '$line' to $word"; }
    done <<'END'
who UP|UPDATE
judge a UPDATE /tare as north|Northfield-Haulage
judge a UPDATE /oic/sec/cred role=for|role=foreman
isolated a foreman,nor|foreman,Northfield-Haulage
judge a UPDATE /oic/sec/pstat state=RFN|state=RFNOP
END
    tillerclover judge --help | sed -n 's/^ *--\([a-z-]*\).*/\1/p' | tr '\n' ' ' |
        grep -qx "clock all default-creds default-aces no-backup wait dry-run force json tz names color " || fault "options out of order"
}

part_habits() {
    busy_yard a
    # the yard's midnight
    gives 0 "season (Europe/Berlin)" show a --tz Europe/Berlin
    local move=(UPDATE /oic/sec/pstat as 5 state=RFPRO) row=(UPDATE /oic/sec/acl2 as 5 number=9 "subject=$haulier" permission=U resources=/zero)
    gives 0 "last=2026-09-30T23:59:59+02:00" judge a --dry-run --tz Europe/Berlin "${move[@]}" "${row[@]}" last=2026-09-30
    gives 0 "last=2026-09-30T21:59:59" judge a --dry-run "${move[@]}" "${row[@]}" last=2026-09-30T23:59:59+02:00
    gives 0 "permitted" why a --clock 2026-09-30T23:59:59Z UPDATE /tare as 7
    gives 1 "refused, 8" why a --clock 2026-09-30T23:59:59-01:00 UPDATE /tare as 7
    gives 2 "--tz: 'Berlin' is no time zone: write a name such as Europe/Berlin" show a --tz Berlin
    # standard input
    tillerclover show a | sed 's/^a:/-:/' >shown
    tillerclover show - <a | cmp -s - shown || fault "standard input is shown as something else"
    tillerclover diff - a <a >/dev/null || fault "standard input differs from its file"
    tillerclover who RETRIEVE /weight - <a | grep -q "access row 2" || fault "who may in standard input?"
    tillerclover why - RETRIEVE /weight <a | grep -q ": permitted" || fault "why in standard input?"
    tillerclover list text - --seasons <a >text && tillerclover list text a --seasons | cmp -s - text || fault "the text of standard input"
    tillerclover judge - --dry-run RETRIEVE /weight <a | grep -q "^permitted" || fault "a dry run on standard input"
    gives 2 "-: is standard input, and cannot be written; name a file" new -
    gives 2 "-: is standard input, and cannot be written; name a file" judge - RETRIEVE /weight
    # names that are not UTF-8
    local odd=$'yard-\xff.tables'
    cp a "$odd"
    gives 0 ": sound" show "$odd"
    gives 0 ": written" judge "$odd" UPDATE /oic/sec/pstat as 5 state=RFPRO
    [ -e "$odd~" ] || fault "the old file of an odd name is not kept"
    gives 0 "state RFPRO -> RFNOP" undo "$odd"
    printf 'RETRIEVE /weight\n' >"$odd.txt"
    gives 0 "permitted  -R---  RETRIEVE /weight" judge a "@$odd.txt"
    gives 2 "record 'RETRIEVE /w" judge a $'RETRIEVE /w\xff'
    # colours
    gives 0 $'\e[32mpermitted\e[0m  -R---  RETRIEVE /weight' judge a --color always RETRIEVE /weight
    tillerclover judge a RETRIEVE /weight | grep -q $'\e' && fault "colours in a pipe"
    script -qec "env -u NO_COLOR TERM=xterm tillerclover show a" /dev/null </dev/null | grep -q $'\e' || fault "no colours on a terminal"
    script -qec "env NO_COLOR=1 TERM=xterm tillerclover show a" /dev/null </dev/null | grep -q $'\e' && fault "colours in spite of NO_COLOR"
    script -qec "env TERM=xterm tillerclover show a --color never" /dev/null </dev/null | grep -q $'\e' && fault "colours in spite of --color never"
    # scripts and pages, from the definition
    local shell name
    for shell in bash zsh fish elvish powershell; do
        gives 0 "tillerclover" completions $shell
    done
    tillerclover completions bash >script && bash -n script || fault "bash does not take its script"
    # shellcheck disable=SC2016
    bash -c '. ./script; COMP_WORDS=(tillerclover ri); COMP_CWORD=1; _tillerclover tillerclover ri tillerclover; [ "${COMPREPLY[*]}" = rights ]' ||
        fault "bash does not complete 'ri'"
    gives 0 '.TH TILLERCLOVER-LIST-MAKE 1' man list make
    gives 0 '\fB\-\-no\-backup\fR' man judge
    gives 2 "no command 'shw'; did you mean show?" man shw
    for name in $(tillerclover --help | sed -n '/^Commands:/,/^$/s/^  \([a-z-]*\) .*/\1/p'); do
        [ "$name" = help ] || gives 0 ".SH NAME" man "$name"
    done
    # versions
    local sum
    sum=$(sha256sum "$root/target/staticlib/libterminal.a" | cut -d ' ' -f 1)
    gives 0 "libterminal.a      sha256 $sum" --version
    gives 0 "libterminal.a      sha256 $sum" list make --version
    gives 0 "library interface  $(sed -n 's/^#define TILLERCLOVER_INTERFACE_MAJOR //p' "$root/include/tillerclover.h")." show --version
    gives 0 "toolchain          $(rt version | head -n 1)" judge --version
    # errors for programs
    gives 2 '{"error":{"file":"missing","kind":"failed","message":"cannot be read: no such file or directory","process":null,"status":2}}' show missing --json
    gives 2 '"kind":"failed"' shw --json
    gives 2 '"kind":"failed"' judge a --json FETCH
}

part_lists() {
    local role_row="0001 4400 1000000000000000 000000000000000000000000 0002 0007 00000000 ffffffff"
    local good_row="0001 8400 0080000000000000 000000000000000000000000 0000 0001 00000000 ffffffff"
    bytes "$good_row ${good_row/0001/0002}" >good
    gives 0 "good: accepted, 2 rows" list check good
    gives 0 '{"aclist2":[{"aceid":1,"subject":{"conntype":"auth-crypt"}' list text good
    bytes "$good_row $good_row" >twice
    gives 1 "twice: not accepted, 20: row 2, at byte 36: repeats number 1 of row 1" list check twice
    bytes "$good_row ${role_row/0001 4400/0003 4800}" >much
    gives 1 "much: not accepted, 21: row 2, at byte 36: gives role:7@2 --U-- on /oic/sec/acl2" list check much
    bytes "$good_row ${good_row/0080/0480}" >unknown
    gives 1 "row 2, at byte 36: its set names unknown resources: 5" list check unknown
    head -c 40 good >short
    gives 1 "short: not accepted, 19: it ends at byte 40, 4 bytes into row 2; a row has 36" list check short
    for ((i = 0; i < 33; i++)); do bytes "$good_row"; done >many
    gives 1 "many: not accepted, 19: 33 rows, and a terminal holds 32" list check many
    : >none
    gives 0 "none: accepted, 0 rows" list check none

    local anybody="00000000000000000000000000000000 10 0080000000000000"
    bytes "$anybody" >old
    gives 0 "new: 2 rows made of 1 row" list convert old new
    gives 0 "auth-crypt  -R---       /weight    always" list check new
    cp new before
    gives 2 "new: is there already, and stays as it is" list convert old new
    cmp -s new before || fault "a list that was there is not as it was"
    bytes "$anybody ${anybody/ 10 / 11 }" >bad
    gives 1 "bad: not converted, 23: row 2, at byte 25: a zero bit is set; no file was written" list convert bad gone
    bytes "${anybody/0080/0480}" >bad
    gives 1 "row 1, at byte 0: its set names unknown resources: 5" list convert bad gone
    bytes "$anybody 00" >bad
    gives 1 "it ends at byte 26, 1 bytes into row 2; a row has 25" list convert bad gone
    for ((i = 0; i < 17; i++)); do bytes "$anybody"; done >bad
    gives 1 "bad: not converted, 24: it becomes more than the 32 rows" list convert bad gone
    [ ! -e gone ] || fault "a bad list left a file behind"
    bytes "${anybody/ 10 0080/ 20 1000}" >old
    gives 0 "warning: 'list check' does not accept it, 21: row 1 gives auth-crypt --U-- on /oic/sec/acl2" list convert --force old new
}

part_runs() {
    tillerclover run "$root/crates/run/stdin" >found || fault "the sample ends with $?"
    cut -d ' ' -f 1-4 found | cmp -s - "$root/crates/run/stdout" || fault "the sample's numbers: $(head -n 3 found)"
    gives 0 "UPDATE /oic/sec/pstat as 5 state=RFPRO" run "$root/crates/run/stdin"
    head -c 60 "$root/crates/run/stdin" >short
    gives 1 "the run ends at byte 60, within a record that begins at byte 58" run short
    gives 1 '{"cut":{"begin":58,"end":60}}' run --json short
    # more than the run program reads
    for ((i = 0; i < 900; i++)); do cat "$root/crates/run/stdin"; done >long
    tillerclover run long >found 2>/dev/null
    local numbers=$(($(wc -l <found) - 2))
    tail -n 1 found | grep -q '^cut  .* ends at byte 32768,' || fault "a long run ends so: $(tail -n 1 found)"
    tillerclover run --whole long >found || fault "a whole run ends with $?"
    [ $(($(wc -l <found) - 1)) -eq 4500 ] && [ "$numbers" -lt 4500 ] || fault "a whole run has $(wc -l <found) lines"
    tillerclover run --whole long | head -n 1 >/dev/null || fault "a reader that leaves ends the command with ${PIPESTATUS[0]}"
    # on a terminal a bar where it takes longer than a second, and none elsewhere
    script -qec "sh -c '(cat short; sleep 1.2; cat short) | tillerclover run --whole -'" /dev/null </dev/null >found
    grep -q $'\e' found || fault "no bar on a terminal"
    script -qec "tillerclover run $root/crates/run/stdin" /dev/null </dev/null >found
    grep -q $'\e' found && fault "a bar for a short run"
    { cat short && sleep 1.2 && cat short; } | tillerclover run --whole - >found 2>&1
    grep -q $'\e' found && fault "a bar where there is no terminal"
}

part_bad() {
    yard a
    cp a before
    head -c 100 a >short
    mkdir -p folder
    local on
    for on in show "judge %s RETRIEVE /weight" "why %s RETRIEVE /weight" "list text"; do
        # shellcheck disable=SC2059
        on_file() { local words="$on" && [[ $on == *%s* ]] || words="$on %s"; printf "$words" "$1"; }
        # shellcheck disable=SC2046
        gives 2 "missing: cannot be read: no such file or directory" $(on_file missing)
        # shellcheck disable=SC2046
        [ "$on" = show ] || gives 2 "folder: cannot be read: is a directory" $(on_file folder)
        [[ $on == list* ]] && continue
        # shellcheck disable=SC2046
        gives 2 "short: ends at byte 100; a file of tables has 2172 bytes" $(on_file short)
    done
    gives 1 "it ends at byte 100, 28 bytes into row 3" list text short
    gives 2 "/dev/zero: has more than 65536 bytes" show /dev/zero
    gives 1 "8688 bytes is the length of tables" list check a
    gives 2 "missing: cannot be read" list check missing
    gives 2 "folder: cannot be read" list convert folder new
    gives 2 "folder: cannot be read: is a directory" run folder
    gives 2 "folder: is there already" new folder
    gives 2 "folder: cannot be written: it is a directory" new --force folder
    gives 2 "nowhere/a: cannot be written: no such file or directory" new nowhere/a
    gives 2 "'shw'" shw a
    gives 2 "unknown word 'FETCH'; a record is hexadecimal digits, or begins with CREATE" judge a FETCH /tare
    gives 2 "unknown resource '/tara'; did you mean /tare?; there are /oic/sec/doxm" judge a UPDATE /tara
    gives 2 "record '5040000': 7 hexadecimal digits: byte 3 lacks its second" judge a 22000000 5040000
    gives 2 "record '50xx': digit 3 is 'x', which is not hexadecimal" judge a 50xx
    gives 2 "record 'UPDATE /tare as 7 hex:abc': 3 hexadecimal digits" judge a UPDATE /tare as 7 hex:abc
    gives 2 "2 records; 'why' explains one" why a RETRIEVE /weight RETRIEVE /tare
    gives 2 "--clock: 'tomorrow' is no time" judge a --clock tomorrow RETRIEVE /weight
    # the first record is good, and the second keeps it from being judged
    gives 2 "unknown state 'READY'" judge a UPDATE /oic/sec/pstat as 5 state=RFPRO UPDATE /oic/sec/pstat as 5 state=READY
    cmp -s a before || fault "bad input changed the file"
    tillerclover show a >/dev/full 2>errors
    [ $? -eq 2 ] && grep -q "the output cannot be written: no space left on device" errors || fault "a full output: $(cat errors)"
    [ "$(id -u)" -eq 0 ] || return
    # a file of somebody else, in a folder of one's own
    mkdir -p own && cp a own/ && chmod 755 "$work" own && chmod 644 own/a && chown 65534 own
    setpriv --reuid=65534 --clear-groups tillerclover judge own/a UPDATE /oic/sec/pstat as 5 state=RFPRO >out 2>errors
    [ $? -eq 2 ] && grep -q "own/a: cannot be written: permission denied; it is as it was" errors || fault "own/a: $(cat errors)"
    cmp -s own/a before || fault "a file that may not be written is not as it was"
}

# Names and files that are made to mislead or to break the command.
part_hostile() {
    yard a
    # a name is no line of its own, and no order to the terminal
    local odd=$'a\n8 in a: isolated\e[2J' words line
    cp a "$odd"
    for line in "show @" "isolated @ 7" "yards @ x=7" "rights @" "who RETRIEVE /weight @" "judge @ RETRIEVE /weight" "diff @ @"; do
        read -ra words <<<"$line"
        gives 0 'a\n8 in a: isolated\u{1b}[2J' "${words[@]/#@/"$odd"}"
        ! grep -q $'^8 in a\\|\e' "$work/out" || fault "$line: a name is obeyed: $(head -n 3 "$work/out")"
    done
    gives 0 '  north\n  south  8  isolated  7   isolated' yards a $'north\n  south  8  isolated=7'
    gives 0 '  a\tb\u{202e}  7   isolated' yards a $'a\tb\u202e=7'
    # texts
    printf 'RETRIEVE /weight\t# the plate # again\n' >lines
    gives 0 "permitted  -R---  RETRIEVE /weight" judge a --dry-run @lines
    printf '\xef\xbb\xbfRETRIEVE /weight\r\n' >lines
    gives 0 "permitted  -R---  RETRIEVE /weight" judge a --dry-run @lines
    printf '\xef\xbb\xbf{"aclist2":[{"aceid":1,"subject":{"conntype":"anon-clear"},"resources":[],"permission":2}]}\r\n' >marked.json
    gives 0 "marked.list: 1 row made" list make marked.json marked.list
    gives 1 "refused, 11 not in this device state" list load marked.json a as 5
    for ((i = 1; i < 40; i++)); do echo "number=$i subject=auth-crypt permission=R resources=/weight"; done >rows
    gives 1 "rows: not made, 19: 39 rows, and a terminal holds 32; no file was written" list make rows gone
    # nested without end
    printf 'tables = "a"\nx = %s\n' "$(head -c 300000 /dev/zero | tr '\0' '[')" >deep.toml
    gives 2 "deep.toml: line 2 is nested deeper than any expectation" test deep.toml
    printf 'tables = "a"\n%sb = 1\n' "$(printf 'a.%.0s' {1..100000})" >deep.toml
    gives 2 "deep.toml: line 2 is nested deeper than any expectation" test deep.toml
    printf '{"aclist2":%s' "$(head -c 300000 /dev/zero | tr '\0' '[')" >deep.json
    gives 2 "deep.json: no JSON: recursion limit exceeded" list make deep.json gone
    printf 'tables = "a"\nexpect = []\n' >none.toml
    gives 2 "none.toml: there is no [[expect]]" test none.toml
    # standard input is there once
    for line in "a diff - -" "lines judge - --dry-run -" "a run --tables - -"; do
        read -ra words <<<"$line"
        tillerclover "${words[@]:1}" <"${words[0]}" >out 2>errors
        [ $? -eq 2 ] && grep -qx "tillerclover: -: is standard input, and was read before; name a file" errors || fault "$line: $(cat out errors)"
    done
    # a full output is not the input's fault
    tillerclover run "$root/crates/run/stdin" >/dev/full 2>errors
    [ $? -eq 2 ] && grep -qx "tillerclover: the output cannot be written: no space left on device" errors || fault "a full output: $(cat errors)"
    [ ! -e gone ] || fault "a hostile file left a list behind"
}

# Many together: each change is kept.
part_crowd() {
    tillerclover new a >/dev/null
    local pids=() pid
    for ((i = 1; i <= 20; i++)); do
        tillerclover judge a --wait 60 UPDATE /oic/sec/cred "number=$i" "subject=$owner" >/dev/null 2>"errors$i" &
        pids+=($!)
    done
    for pid in "${pids[@]}"; do
        wait "$pid" || fault "one of many ended with $?"
    done
    gives 0 "Credentials, 20 of 24" show a
}

# A disk with room for one file, and then one that takes no writes.
part_disk() {
    if ! mount -t tmpfs -o size=16k none "$small" 2>/dev/null; then
        echo "tool: no small disk can be mounted here: not tried"
        return
    fi
    yard a
    cp a "$small/a"
    gives 2 "small/a: cannot be written: no space left on device; it is as it was" \
        judge "$small/a" UPDATE /oic/sec/pstat as 5 state=RFPRO
    gives 2 "small/b: cannot be written: no space left on device; no file is left behind" new "$small/b"
    [ "$(ls -A "$small")" = a ] && cmp -s a "$small/a" || fault "a full disk: $(ls -lA "$small")"
    mount -o remount,ro "$small"
    gives 2 "small/a: cannot be written: read-only file system; it is as it was" \
        judge "$small/a" UPDATE /oic/sec/pstat as 5 state=RFPRO
    cmp -s a "$small/a" || fault "a disk that takes no writes: the file is not as it was"
    gives 0 "RFNOP" show "$small/a"
    umount "$small"
}

# The command is killed while it stores: the file is the old one or the new one.
part_kills() {
    yard old
    cp old new && tillerclover judge new UPDATE /oic/sec/pstat as 5 state=RFPRO >/dev/null
    local old=0 new=0
    for ((i = 0; i < 60; i++)); do
        rm -f a~ && cp old a
        tillerclover judge a UPDATE /oic/sec/pstat as 5 state=RFPRO >/dev/null 2>&1 &
        sleep "0.00$((i % 10))"
        kill -KILL $! 2>/dev/null
        wait $! 2>/dev/null
        if cmp -s a old; then
            old=$((old + 1))
        elif cmp -s a new; then
            new=$((new + 1))
        else
            fault "after a kill the file is neither the old one nor the new one"
        fi
        [ ! -e a~ ] || cmp -s a~ old || fault "after a kill the old file is not the one that was"
    done
    [ "$old" -gt 0 ] && [ "$new" -gt 0 ] || echo "tool: kills left $old old and $new new files"
    rm -f .tillerclover-*
}

# ---- the list

[ $# -gt 0 ] || set -- "${ALL[@]}"
for name in "$@"; do
    if [[ " ${ALL[*]} " != *" $name "* ]]; then
        echo "no part '$name'; the parts are: ${ALL[*]}" >&2
        exit 2
    fi
    mkdir -p "$work/$name" && cd "$work/$name" || exit 2
    "part_$name"
done
[ "$faults" -eq 0 ]
