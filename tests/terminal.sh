#!/usr/bin/env bash
# Tests of the example terminal (examples/terminal) with libcoap's coap-client.
#
#     tests/terminal.sh             all parts
#     tests/terminal.sh PART..      some: starts, setup, yard, requests, turns, damage, noise, partners, kills, readme, and
#                                   those of tests/attacks.sh: options, signals, sessions, subjects, spoofs, bursts, addresses, stores, keys,
#                                   locks, logs, clock, fronts, faults, fuzz, floods; and those of tests/device.sh and tests/journal.sh: device, journal
#
# INCLUDE and ARCHIVE name another header and archive of the library than the Makefile's, BUILT a folder for the programs that is
# kept. FIRST=yes ends at the first fault. What is waited for has a minute, and all of it LIMIT seconds. Exit status 1: a part failed;
# 124 or 137: LIMIT was over.
set -uo pipefail
cd "$(dirname "$0")/.." || exit 2
[ -n "${LIMITED-}" ] || LIMITED=yes exec timeout -k 10 "${LIMIT:-3600}" tests/terminal.sh "$@"

ALL=(starts setup yard requests turns damage noise partners kills readme
    options signals sessions subjects spoofs bursts addresses stores keys locks logs clock fronts faults fuzz floods device journal)
# parts that are run by their names only
LONG=(valgrind build)
work=$(mktemp -d) || exit 2
# The disk, and not memory, for the file of the part that kills the terminal while it stores.
disk=$(mkdir -p target && mktemp -d target/terminal-test.XXXXXX) || exit 2
built=${BUILT:-$work}
export OUT=$built
export KEYS=$work/keys HOST=127.0.0.1 PATIENCE=20
# Ports that are not the registered ones, so that a terminal on this machine is left alone, and not those of clients.
export PORT=$((20000 + $$ % 3000 * 4)) SECURE_PORT=$((20001 + $$ % 3000 * 4))
. examples/terminal/client.sh

# confirmed writes among the kills
WRITES=${WRITES:-500}

faults=0
fault() {
    echo "terminal: $*"
    faults=$((faults + 1))
    [ -z "${FIRST-}" ] || exit 1
}

# until_true COMMAND..: waits until the command succeeds, for a minute at most
until_true() {
    local over=$((SECONDS + 60))
    until "$@"; do
        [ $SECONDS -lt $over ] || { fault "waited in vain: $*" && return 1; }
        sleep 0.02
    done
}

pid=
# has_ended: whether the terminal has, and only waits to be asked for its status
has_ended() { [ "$(cut -d ' ' -f 3 "/proc/$pid/stat" 2>/dev/null || echo Z)" = Z ]; }

# await_end: gives the status that the terminal ends with; one that does not end is killed
await_end() {
    until_true has_ended || kill -KILL "$pid"
    wait "$pid" 2>/dev/null
    local status=$?
    pid=
    return $status
}

# end SIGNAL: the terminal is ended by its process id, and waited for
end() {
    [ -n "$pid" ] || return 0
    # bash has a line for a process that was killed
    {
        kill "-$1" "$pid"
        await_end
    } 2>/dev/null
}
trap 'end KILL; rm -rf "$work" "$disk"' EXIT

# ---- the terminal

file=$work/tables
# -f for a file, -e for a device
option=-f
program=
# what goes before the program: settings for its environment; and more options
settings=()
more=()

# launch: starts the terminal and waits until it listens
launch() {
    local new=()
    [ -e "$file" ] || new=(--new)
    : >"$work/log"
    env "${settings[@]}" "$program" "$option" "$file" -k "$KEYS" -p "$PORT" -s "$SECURE_PORT" -c "$work/clock" -v "${new[@]}" "${more[@]}" \
        >>"$work/log" 2>"$work/errors" &
    pid=$!
    until_true starts_or_ends
    grep -q "^terminal: .* port" "$work/log" || { fault "did not start: $(cat "$work/errors")" && return 1; }
}

# starts_or_ends: whether the terminal listens, or is over already
starts_or_ends() { grep -q "^terminal: .* port" "$work/log" || has_ended; }

# without_notes FILE: leaves out the line by which the leak check says that it could not read the registers of a thread;
# that is no finding
without_notes() { sed -i '/^==[0-9]*==Unable to get registers from thread [0-9]*\.$/d' "$1"; }

# finish: ends the terminal; it must have run without an error, a leak or another report of the sanitizers
finish() {
    end TERM || fault "ended with status $?: $(tail -n 3 "$work/errors")"
    without_notes "$work/errors"
    [ ! -s "$work/errors" ] || fault "wrote: $(head -n 3 "$work/errors")"
}

# at SECONDS: sets the terminal's clock
at() { echo "$1" >"$work/clock.new" && mv "$work/clock.new" "$work/clock"; }

# expect ANSWER SENDER METHOD PATH [BODY [OPTION..]]
expect() {
    local expected=$1 answer
    shift
    answer=$(request "$@")
    [ "$answer" = "$expected" ] || fault "$*: '$answer' and not '$expected'"
}

# new_yard: a terminal that setup.sh has set up, with its clock at NOW
NOW=1785000630
new_yard() {
    rm -f "$file"
    at $NOW
    launch && timeout 300 examples/terminal/setup.sh >"$work/setup" 2>&1 || fault "setup.sh: $(cat "$work/setup")"
}

# ---- the parts

# What is wrong at the start is reported in one line, with exit status 1.
refuses() {
    local words=$1 status
    shift
    timeout -k 1 60 "$program" "$@" >"$work/out" 2>"$work/line"
    status=$?
    without_notes "$work/line"
    [ $status -eq 1 ] && [ "$(wc -l <"$work/line")" -eq 1 ] && grep -q "$words" "$work/line" && [ ! -s "$work/out" ] ||
        fault "start with $*: status $status, '$(cat "$work/line")'"
}

part_starts() {
    local good=(-k "$KEYS" -p "$PORT" -s "$SECURE_PORT" --new) keys=$work/other-keys
    rm -f "$file"
    echo none >"$work/clock"
    refuses "usage" -k "$KEYS"
    refuses "usage" -f "$file" "${good[@]}" more
    refuses "usage" -f "$file" "${good[@]}" -x
    refuses "no number of seconds" -f "$file" "${good[@]}" -c "$work/clock"
    refuses "no-clock cannot be read" -f "$file" "${good[@]}" -c "$work/no-clock"
    refuses "no-keys cannot be read" -f "$file" -k "$work/no-keys"
    (umask 077 && echo "7 long-enough-for-a-key" >"$keys")
    chmod 640 "$keys"
    refuses "can be read by others" -f "$file" -k "$keys"
    chmod 600 "$keys"
    refuses "is no file" -f "$file" -k "$work"
    head -c 65537 /dev/zero >"$keys"
    refuses "is too long" -f "$file" -k "$keys"
    local line
    for line in "7" "0 long-enough-for-a-key" "65536 long-enough-for-a-key" "7 short" "x long-enough-for-a-key" \
        "7 long-enough-for-a-key and more" "7 $(printf 'x%.0s' {1..65})" "+7 long-enough-for-a-key" \
        " 7 long-enough-for-a-key" "07 long-enough-for-a-key" "7long-enough-for-a-key" "7  long-enough-for-a-key" \
        $'7\tlong-enough-for-a-key' "7 long-enough-for-a-key " $'7 long-enough-for-a-key\r'; do
        echo "$line" >"$keys"
        refuses "line 1" -f "$file" "${good[@]}" -k "$keys"
    done
    # Nothing hides after a zero byte, and a comment ends with its line.
    printf '7 long-enough-for-a-key\0\n' >"$keys"
    refuses "line 1" -f "$file" "${good[@]}" -k "$keys"
    printf '#%254s7 long-enough-for-a-key\n7 long-enough-for-a-key\n7\n' "" >"$keys"
    refuses "line 3: not a credential" -f "$file" "${good[@]}" -k "$keys"
    printf '# two keys\n7 long-enough-for-a-key\n7 long-enough-for-a-key\n' >"$keys"
    refuses "line 3: credential 7 has a key already" -f "$file" "${good[@]}" -k "$keys"
    refuses "cannot be written" -f "$work/no-folder/tables" "${good[@]}"
    refuses "cannot be read" -f "$work" "${good[@]}"
    refuses "port 99999" -f "$file" -k "$KEYS" -p 99999 -s "$SECURE_PORT" --new
    refuses "nowhere port" -f "$file" -k "$KEYS" -a nowhere --new
    # libcoap must read through the guard, which rests on how the program is linked.
    program=$built/unread
    refuses "does not read through the guard" -f "$file" "${good[@]}"
    program=$built/terminal-sanitized
    # A file is made by --new, and by nothing else: a terminal without an owner is the first comer's.
    refuses "tables: there is no such file" -f "$file" -k "$KEYS" -p "$PORT" -s "$SECURE_PORT"
    [ ! -e "$file" ] || fault "a start that failed left a file"
    at $NOW
    launch || return
    refuses "Address already in use" -f "$work/other" "${good[@]}"
    refuses "Address already in use" -f "$work/other" -k "$KEYS" -p $((PORT + 2)) -s "$SECURE_PORT" --new
    [ ! -e "$work/other" ] || fault "a start on a port in use left a file"
    expect "2.05 20$(uuid 00)" 0 get /oic/sec/pstat
    finish
    # A terminal that cannot store does not answer.
    mkdir "$work/gone"
    file=$work/gone/tables
    launch || return
    rm -r "$work/gone"
    expect "2.05 20$(uuid 00)" 0 get /oic/sec/pstat
    PATIENCE=1 expect none 0 post /oic/sec/cred "$(cred 7 "$(uuid 07)")"
    await_end
    local status=$?
    without_notes "$work/errors"
    [ $status -eq 1 ] && [ "$(wc -l <"$work/errors")" -eq 1 ] && grep -q "cannot be written" "$work/errors" ||
        fault "a store that failed: $(cat "$work/errors")"
    file=$work/tables
}

# A new terminal is set up: in clear, then by its owner; each record that comes too early or too late is refused.
part_setup() {
    rm -f "$file"
    at $NOW
    launch || return
    local nil owner
    nil=$(uuid 00) owner=$(uuid 05)
    expect "2.05 00$nil$nil" 0 get /oic/sec/doxm
    expect "2.05 20$nil" 0 get /oic/sec/pstat
    expect "4.01 7 no such credential" 5 get /oic/sec/pstat
    expect "4.09 12 target state not on the list" 0 post /oic/sec/pstat "$(state 2)"
    expect "2.04 " 0 post /oic/sec/cred "$(cred 5 "$owner")"
    expect "2.04 " 0 post /oic/sec/doxm "80$owner"
    expect "4.03 8 not permitted" 0 post /oic/sec/pstat "$(state 2)"
    expect "2.04 " 5 post /oic/sec/pstat "$(state 2)"
    expect "4.09 12 target state not on the list" 5 post /oic/sec/pstat "$(state 2)"
    expect "4.09 11 not in this device state" 5 post /oic/sec/doxm "80$owner"
    expect "2.04 " 5 post /oic/sec/cred "$(cred 7 "$(uuid 07)")"
    expect "2.04 " 5 post /oic/sec/acl2 "$(row 1 0 15 "$(uuid 07)" 9)"
    expect "4.09 11 not in this device state" 7 post /tare
    expect "2.04 " 5 post /oic/sec/pstat "$(state 3)"
    expect "4.09 11 not in this device state" 5 post /oic/sec/cred "$(cred 7 "$(uuid 07)")"
    expect "2.04 tare 14000 kg" 7 post /tare
    expect "2.05 60$nil" 5 get /oic/sec/pstat
    # A start from the file goes on where the terminal stopped.
    finish
    launch || return
    expect "2.05 60$nil" 5 get /oic/sec/pstat
    expect "2.05 $nil$(cred 5 "$owner")$(cred 7 "$(uuid 07)")" 5 get /oic/sec/cred
    expect "2.04 " 5 post /oic/sec/pstat "$(state 0)"
    expect "2.05 20$nil" 0 get /oic/sec/pstat
    finish
}

# The day of a yard: kiosk, haulier, foreman, harvest contractor and office.
part_yard() {
    local july=1782864000 last=1790812799
    new_yard || return
    # The kiosk reads in clear and writes on its display, and no more.
    expect "2.05 net 14000 kg, tare 0 kg" 0 get /weight
    expect "2.04 Drive on" 0 post /display "$(printf 'Drive on' | od -An -tx1 | tr -d ' \n')"
    expect "4.03 8 not permitted" 0 post /weight
    expect "4.03 16 no endpoint for the connection" 7 get /display
    # The haulier tares over DTLS. The same in clear is refused, and a wrong key gets no session.
    expect "2.04 tare 14000 kg" 7 post /tare
    expect "4.03 16 no endpoint for the connection" 0 post /tare
    KEY=0123456789abcdef0123456789abcdef PATIENCE=1 expect none 7 post /tare
    KEY=0123456789abcdef0123456789abcdef PATIENCE=1 expect none 9 post /tare
    KEY=0123456789abcdef0123456789abcdef PATIENCE=1 expect none 99 post /tare
    expect "4.01 7 no such credential" 50 post /tare
    expect "2.05 net 0 kg, tare 14000 kg" 7 get /weight
    expect "2.02 tare 0 kg" 7 delete /tare
    expect "2.04 tare 12000 kg" 7 post /tare 3132303030
    expect "2.01 ticket 1: net 2000 kg" 7 put /ticket
    expect "4.03 8 not permitted" 7 post /zero
    # A foreman shows a role for the day.
    expect "4.03 8 not permitted" 20 post /lamp 726564
    expect "2.04 " 20 post /oic/sec/roles "$(role 3 7 $((NOW + 86400)))"
    expect "4.03 8 not permitted" 20 post /lamp 726564
    expect "2.04 " 20 post /oic/sec/roles "$(role 2 7 $((NOW + 3600)))"
    expect "2.04 red" 20 post /lamp 726564
    expect "4.09 permitted, but not with a load on the plate" 20 post /zero
    expect "5.03 22 both places for asserted roles are taken" 20 post /oic/sec/roles "$(role 2 8 $((NOW + 3600)))"
    expect "2.05 $(role 3 7 $((NOW + 86400)))$(role 2 7 $((NOW + 3600)))" 20 get /oic/sec/roles
    expect "2.05 </zero>,</lamp>" 20 get /yard
    expect "2.05 " 7 get /oic/sec/roles
    expect "4.03 8 not permitted" 0 post /oic/sec/roles "$(role 2 7 $((NOW + 3600)))"
    at $((NOW + 3600))
    expect "2.04 green" 20 post /lamp 677265656e
    at $((NOW + 3601))
    expect "4.03 8 not permitted" 20 post /lamp 726564
    expect "2.05 green" 0 get /lamp
    # The contractor's rows hold for a season.
    at $((july - 1)) && expect "4.03 8 not permitted" 30 post /ticket
    at $july && expect "2.04 ticket 2: net -11940 kg" 30 post /ticket
    expect "2.05 </ticket>" 30 get /yard
    at $last && expect "2.05 </ticket>" 30 get /yard
    at $((last + 1)) && expect "4.03 8 not permitted" 30 get /yard
    # The office polls the yard.
    expect "2.05 </weight>,</tare>,</zero>,</ticket>,</lamp>,</calib>" 40 get /yard
    expect "2.05 span 1000/1000" 40 get /calib
    expect "4.03 8 not permitted" 40 post /tare
    expect "2.05 </weight>,</tare>,</ticket>" 7 get /yard
    # The wrong key and the unknown identity have a line in the log.
    until_true grep -q "secure: a wrong key for credential 7, from $HOST" "$work/log"
    grep -q "secure: an identity without a key" "$work/log" || fault "an unknown identity has no line"
    finish
}

# Every method, path and body becomes a record; what is none is refused with its number.
part_requests() {
    new_yard || return
    expect "4.05 3 no such verb" 7 fetch /tare
    expect "4.05 3 no such verb" 0 patch /tare
    expect "4.05 3 no such verb" 0 ipatch /nothing
    local method
    for method in get put post delete; do
        expect "4.04 6 unknown resource" 0 $method /nothing
        expect "4.04 6 unknown resource" 7 $method /oic/sec
    done
    expect "4.04 6 unknown resource" 0 get /.well-known/core
    expect "4.04 6 unknown resource" 0 get /
    expect "4.05 9 verb not offered" 5 put /oic/sec/acl2
    expect "4.00 10 body malformed" 5 post /oic/sec/acl2 00
    expect "4.00 10 body malformed" 5 get /oic/sec/acl2 00
    expect "4.05 permitted, but the plate does not do this" 7 put /tare
    expect "4.00 permitted, but the plate does not understand the body" 7 post /tare 78
    # Observing is a verb of its own: security resources have no contents for it. Nobody is notified.
    expect "2.05 " 5 get /oic/sec/acl2 "" -s 1
    expect "2.05 net 14000 kg, tare 0 kg" 0 get /weight "" -s 1
    # A record has at most 256 bytes.
    local long
    long=$(printf '41%.0s' {1..252})
    expect "4.00 permitted, but the plate does not understand the body" 7 post /tare "$long"
    expect "4.13 2 record too short or too long" 7 post /tare "${long}41"
    expect "4.13 2 record too short or too long" 0 post /tare "$long$long$long$long"
    expect "4.02 an option that the terminal does not serve" 0 post /tare "$long$long$long$long$long"
    expect "4.02 an option that the terminal does not serve" 7 put /tare "" -O 5,
    # Contents come in one format.
    expect "2.05 net 14000 kg, tare 0 kg" 0 get /weight "" -A 0
    expect "4.06" 0 get /weight "" -A 60
    # A request that asks for no receipt is answered too.
    expect "2.05 net 14000 kg, tare 0 kg" 0 get /weight "" -N
    expect "2.05 net 14000 kg, tare 0 kg" 7 get /weight "" -N
    # The longest reply comes in blocks.
    expect "2.04 " 5 post /oic/sec/pstat "$(state 2)"
    local i expected
    for ((i = 7; i <= 32; i++)); do
        expect "2.04 " 5 post /oic/sec/acl2 "$(row $i 0 2 "$(uuid 07)" 8)"
    done
    expect "5.03 14 table full" 5 post /oic/sec/acl2 "$(row 33 0 2 "$(uuid 07)" 8)"
    expected=$(request 5 get /oic/sec/acl2)
    [ ${#expected} -eq $((5 + 2 * 1168)) ] || fault "the longest reply has $(((${#expected} - 5) / 2)) bytes"
    expect "$expected" 5 get /oic/sec/acl2 "" -b 64
    expect "2.02 " 5 delete /oic/sec/acl2 "$(number 32)"
    expect "4.04 13 no such row" 5 delete /oic/sec/acl2 "$(number 32)"
    finish
}

# lines MANY PATTERN FILE: whether that many lines match
lines() { [ "$(grep -ac "$2" "$3")" -ge "$1" ]; }

# again: the haulier asks for the device state twice in one session, a second apart. The terminal is halted in between, and
# when this returns the second request lies before it.
again() {
    local to
    : >"$work/log"
    : >"$work/again"
    address 7 /oic/sec/pstat "$work/key.7"
    stdbuf -oL "$CLIENT" -v 6 -B 60 -G 2 "${to[@]}" >"$work/again" 2>&1 &
    client=$!
    until_true lines 1 " 7 RETRIEVE" "$work/log"
    kill -STOP "$pid"
    until_true lines 2 " c:GET " "$work/again"
    # no other user of the machine sees the key
    ! tr '\0' ' ' <"/proc/$client/cmdline" | grep -qF "$(key 7)" || fault "the key is on the client's command line"
}

# send SENDER METHOD PATH FILE [OPTION..]: one request, which is on its way when this returns; what the client says is in the file, its
# process in `client`
send() {
    local to said=$4
    : >"$said"
    address "$1" "$3" "$said.key"
    stdbuf -oL "$CLIENT" -v 6 -B 60 -m "$2" "${@:5}" "${to[@]}" >"$said" 2>&1 &
    client=$!
    until_true lines 1 " c:${2^^} " "$said"
}

# Records that come together are taken in turn. The terminal is halted meanwhile, so that they do.
part_turns() {
    rm -f "$file"
    at $NOW
    launch || return
    local client clients=() i many
    # One unauthenticated client waits; the others may try again.
    kill -STOP "$pid"
    for i in 1 2 3 4 5; do
        send 0 get /oic/sec/pstat "$work/clear.$i" -o "$work/state.$i"
        clients[i]=$client
    done
    # time for the front, which is not halted
    sleep 1
    kill -CONT "$pid"
    wait "${clients[@]}"
    many="$(grep -al " c:2.05 " "$work"/clear.? | wc -l) $(cat "$work"/state.? | od -An -v -tx1 | tr -d ' \n') "
    many+=$(grep -al "^5.03 26 another record of this sender waits" "$work"/clear.? | wc -l)
    [ "$many" = "1 20$(uuid 00) 4" ] || fault "five in clear: permitted, the state, and how many have to wait: $many"
    # A row that is deleted takes its record with it, and the client gets an answer.
    expect "2.04 " 0 post /oic/sec/cred "$(cred 7 "$(uuid 07)")"
    again
    i=$client
    send 0 delete /oic/sec/cred "$work/deleted" -e "$(percent "$(number 7)")" -o "$work/nothing"
    sleep 1
    kill -CONT "$pid"
    wait "$i" "$client"
    grep -aq " c:2.02 " "$work/deleted" && [ ! -s "$work/nothing" ] && grep -aq "5.03 27 the record was dropped with its row" "$work/again" ||
        fault "a record of a deleted row: $(cat "$work/deleted" "$work/again")"
    # A client that closes its session before its turn takes nobody's answer.
    expect "2.04 " 0 post /oic/sec/cred "$(cred 7 "$(uuid 07)")"
    again
    kill -INT "$client"
    wait "$client"
    kill -CONT "$pid"
    expect "2.05 20$(uuid 00)" 7 get /oic/sec/pstat
    lines 3 " 7 RETRIEVE" "$work/log" || fault "a closed session: $(cat "$work/log")"
    finish
}

# make_waiting DIGIT: the whole file, with an order of this credential to go to RFPRO waiting in it. A slot is filled: count 1, no
# round; seat, length 5, the record. gzip ends with the checksum and the length.
make_waiting() {
    {
        head -c $((size - 4 - 6504)) "$work/whole"
        printf '%b' "\\x01\\0\\0\\0\\0\\x0$1\\0\\x05\\x50\\x40\\0\\x0$1\\x40"
        head -c $((6504 - 13)) /dev/zero
    } >"$work/filled"
    gzip -c "$work/filled" | tail -c 8 | head -c 4 | cat "$work/filled" - >"$file"
}

# launch_damaged WHAT: starts the terminal on tables that are damaged, which it says, and every record gets 1
launch_damaged() {
    launch || return
    grep -q "is damaged" "$work/errors" && [ "$(wc -l <"$work/errors")" -eq 1 ] || fault "$1: $(cat "$work/errors")"
    : >"$work/errors"
    expect "5.00 1 tables not sound: the terminal must be cleared" 0 get /weight
}

# mend: the button gives fresh tables, which are there after a start too
mend() {
    kill -USR1 "$pid"
    expect "2.05 20$(uuid 00)" 0 get /oic/sec/pstat
    finish
    launch || return
    expect "2.05 20$(uuid 00)" 0 get /oic/sec/pstat
    finish
}

# A damaged file is reported to be so, every record gets 1, and the button mends it.
part_damage() {
    new_yard || return
    finish
    cp "$file" "$work/whole"
    local i size
    size=$(stat -c %s "$file")
    for i in flipped cut empty longer other; do
        cp "$work/whole" "$file"
        case $i in
        # a byte of a UUID, in tables that stay sound
        flipped) printf '\x77' | dd of="$file" bs=1 seek=14 conv=notrunc status=none ;;
        cut) truncate -s $((size - 1)) "$file" ;;
        empty) : >"$file" ;;
        longer) echo >>"$file" ;;
        other) head -c "$size" /dev/urandom >"$file" ;;
        esac
        cp "$file" "$work/damaged"
        launch_damaged "$i" || return
        expect "5.00 1 tables not sound: the terminal must be cleared" 7 get /nothing
        cmp -s "$file" "$work/damaged" || fault "$i: the damaged file was changed"
        mend || return
    done
    # A record that waits in the file is judged at the start: here the owner's order to go to RFPRO.
    make_waiting 5
    launch || return
    expect "2.05 40$(uuid 00)" 5 get /oic/sec/pstat
    finish
    # One that is refused does not wait any longer either: here the same of credential 7, which is not the owner.
    make_waiting 7
    launch || return
    expect "2.05 60$(uuid 00)" 5 get /oic/sec/pstat
    finish
    [ "$(od -An -tu1 -j $((size - 4 - 6504)) -N 1 "$file" | tr -d ' ')" = 0 ] ||
        fault "what was refused at the start still waits in the file"
    # The button works at any time.
    cp "$work/whole" "$file"
    launch || return
    expect "2.05 60$(uuid 00)" 5 get /oic/sec/pstat
    kill -USR1 "$pid"
    expect "2.05 20$(uuid 00)" 0 get /oic/sec/pstat
    expect "4.01 7 no such credential" 5 get /oic/sec/pstat
    finish
}

# datagrams PORT: sends each line of standard input, bytes in hexadecimal, as one datagram
datagrams() {
    local bytes many=0
    exec 9>"/dev/udp/$HOST/$1" || return
    sed 's/../\\x&/g' | while read -r bytes; do
        printf '%b' "$bytes" >&9
        # time to read them
        ((++many % 25)) || sleep 0.03
    done
    exec 9>&-
}

# cuts BYTES: each beginning of the bytes, the whole too
cuts() {
    local i
    for ((i = 2; i <= ${#1}; i += 2)); do
        echo "${1:0:i}"
    done
}

# Datagrams of random bytes, and requests and handshakes that are cut, leave the terminal running.
part_noise() {
    new_yard || return
    local i get post hello
    # GET /weight; POST /display with a body; a ClientHello of DTLS 1.2
    get=4401f00d01020304b6776569676874
    post=4402f00e05060708b7646973706c6179ff4f6e
    hello=16feff000000000000000000360100002a000000000000002afefd
    hello+=00000000000000000000000000000000000000000000000000000000000000000000000400a8c0a80100
    for i in "$PORT" "$SECURE_PORT"; do
        { cuts $get && cuts $post && cuts $hello; } | datagrams "$i"
        # lines of 1 to 64 random bytes
        od -An -v -w64 -tx1 -N 25600 /dev/urandom | tr -d ' ' | awk '{ print substr($0, 1, 2 * (1 + NR % 64)) }' |
            datagrams "$i"
        # random bytes after a head that passes for a message of the protocol
        od -An -v -w40 -tx1 -N 8000 /dev/urandom | tr -d ' ' | sed 's/^..../4402/' | datagrams "$i"
        od -An -v -w40 -tx1 -N 4000 /dev/urandom | tr -d ' ' | sed 's/^......../16fefd00/' | datagrams "$i"
    done
    expect "2.05 net 14000 kg, tare 0 kg" 0 get /weight
    expect "2.05 net 14000 kg, tare 0 kg" 7 get /weight
    finish
}

# partner N PLACE: asks for the access list again and again, in blocks of 16 bytes, each a record of its own; writes the
# a line for each whole list, and 'wrong' where one is not what it should be. Two clients can get the same port of an address,
# and then one the other's answers; so each has an address.
partner() {
    local to
    address "$1" /oic/sec/acl2 "$work/key.$2"
    : >"$work/many.$2"
    while [ ! -e "$work/over" ]; do
        "$CLIENT" -a "127.0.1.$2" -N -B 30 -b 16 -o "$work/list.$2" "${to[@]}" 2>/dev/null
        if cmp -s "$work/list.$2" "$work/list"; then
            echo list >>"$work/many.$2"
        else
            echo wrong >"$work/wrong.$2"
        fi
        rm -f "$work/list.$2"
    done
}

# lists: how many each of 23 partners has got, the least first
lists() { for i in {2..24}; do wc -l <"$work/many.$i"; done | sort -n; }

# have_enough: whether the 23 have ten lists each, on the average
have_enough() { [ "$(lists | awk '{ all += $1 } END { print(all >= 230) }')" = 1 ]; }

# 24 partners together, one of them with three clients more: none is starved, and nothing is lost.
part_partners() {
    local i jobs=() least most
    program=$built/terminal
    rm -f "$file"
    at $NOW
    launch || return
    for i in {1..24}; do
        expect "2.04 " 0 post /oic/sec/cred "$(cred "$i" "$(uuid 05)")"
    done
    for i in {1..31}; do
        expect "2.04 " 0 post /oic/sec/acl2 "$(row "$i" 2 2 "$(by_connection 1)" '3 8')"
    done
    local to
    address 0 /oic/sec/acl2
    "$CLIENT" -B 20 -o "$work/list" "${to[@]}"
    rm -f "$work"/over "$work"/many.* "$work"/wrong.*
    local start records
    start=$(date +%s%N)
    for i in {1..24}; do
        partner "$i" "$i" &
        jobs+=($!)
    done
    for i in 25 26 27; do
        partner 1 $i &
        jobs+=($!)
    done
    sleep 4
    until_true have_enough
    : >"$work/over"
    wait "${jobs[@]}"
    start=$(($(date +%s%N) - start))
    # Partner 1 is in its own way: its clients share one place.
    least=$(lists | head -n 1)
    most=$(lists | tail -n 1)
    echo "24 partners: each of 23 got $least to $most lists of 71 requests"
    [ "$least" -gt 0 ] && [ "$most" -le $((4 * least)) ] || fault "a partner is starved: $least lists, another got $most"
    for i in {2..24}; do
        [ ! -e "$work/wrong.$i" ] || fault "partner $i lost a part of a list"
    done
    finish
    records=$(sed -nE 's/^terminal: ([0-9]+) records in .*/\1/p' "$work/log")
    echo "24 partners: $((records * 1000000000 / start)) requests a second"
}

# writer N START: stores its six access rows over and over, with a counter from START as their first second; notes what it
# tries, and what the terminal has confirmed. Ended by KILL, with its client: both are in a process group of their own.
writer() {
    local to i row count
    address "$1" /oic/sec/acl2 "$work/key.$1"
    for ((i = $2; ; i++)); do
        row=$((6 * $1 + i % 6))
        printf -v count '%%%02x' $((i >> 24)) $((i >> 16 & 255)) $((i >> 8 & 255)) $((i & 255))
        echo "$row $i" >>"$work/tried.$1"
        "$CLIENT" -a "127.0.1.$1" -v 6 -B 5 -m post -e "${rows[row]}$count%ff%ff%ff%ff" "${to[@]}" \
            >"$work/answer.$1" 2>&1
        [[ $(<"$work/answer.$1") != *" c:2.04 "* ]] || echo "$row $i" >>"$work/confirmed.$1"
    done
}

# latest FILE..: for each row the last counter, as 'ROW COUNTER', in the order that join asks for
latest() { cat "$@" 2>/dev/null | awk '{ last[$1] = $2 } END { for (row in last) print row, last[row] }' | sort -k 1b,1; }

# Confirmed writes of five partners, and kill -9 again and again meanwhile. After each, every row is at least as new
# as was confirmed, and not newer than was tried.
part_kills() {
    program=$built/terminal
    file=$disk/tables
    kill_again "$WRITES" 8
    file=$work/tables
}

# kill_again WRITES KILLS: until that many writes are confirmed, and that many kills done
kill_again() {
    local i jobs rows=() kills=0 confirmed=0 before=$faults
    rm -f "$file" "$work"/tried.* "$work"/confirmed.*
    # the rows of writer N are 6 N to 6 N + 5, here without their period
    for ((i = 6; i < 36; i++)); do
        rows[i]=$(percent "$(row $i 0 2 "$(uuid 07)" 8)")
    done
    at $NOW
    launch || return
    for i in 0 1 2 3 4; do
        expect "2.04 " 0 post /oic/sec/cred "$(cred $((i + 1)) "$(uuid 05)")"
    done
    expect "2.04 " 0 post /oic/sec/doxm "80$(uuid 05)"
    expect "2.04 " 1 post /oic/sec/pstat "$(state 2)"
    while { [ "$confirmed" -lt "$1" ] || [ $kills -lt "$2" ]; } && [ $kills -lt 200 ] && [ $faults -eq "$before" ]; do
        jobs=()
        set -m
        for i in 1 2 3 4 5; do
            writer $i $((1000000 * (kills + 1))) &
            jobs+=($!)
        done
        set +m
        # after 0.3 to 1.8 seconds
        printf -v i '%04d' $((300 + RANDOM % 1500))
        sleep "${i:0:1}.${i:1}"
        end KILL
        kills=$((kills + 1))
        kill -KILL -- "${jobs[@]/#/-}"
        wait "${jobs[@]}" 2>/dev/null
        launch || return
        check_rows
        confirmed=$(cat "$work"/confirmed.* | wc -l)
    done
    echo "kill -9: $kills times in $confirmed confirmed writes"
    [ "$confirmed" -ge "$1" ] || fault "only $confirmed writes were confirmed"
    finish
}

check_rows() {
    request 1 get /oic/sec/acl2 | sed 's/^2.05 //' | cut -c 33- | fold -w 72 |
        while read -r row; do
            [ -n "$row" ] && echo "$((16#${row:0:4})) $((16#${row:56:8}))"
        done | sort -k 1b,1 >"$work/rows"
    latest "$work"/confirmed.* >"$work/confirmed"
    latest "$work"/tried.* >"$work/tried"
    # join has the row, what was confirmed or stored, and the other
    join "$work/confirmed" "$work/rows" | awk '$3 < $2 { print; bad = 1 } END { exit bad }' >"$work/lost" &&
        [ "$(join "$work/confirmed" "$work/rows" | wc -l)" -eq "$(wc -l <"$work/confirmed")" ] ||
        fault "a confirmed write is lost: $(cat "$work/lost")"
    join "$work/tried" "$work/rows" | awk '$3 > $2 { bad = 1 } END { exit bad }' ||
        fault "a row is newer than any that was sent"
}

# README's three commands as they are there, in a copy of the project that has no tables yet.
part_readme() {
    local commands root=$work/root group
    commands=$(sed -nE '/^    make -C examples\/terminal run/,/^$/s/^    //p' README.md)
    [ "$(wc -l <<<"$commands")" -eq 3 ] || fault "README has not three commands for the terminal"
    mkdir -p "$root/target" && cp -r examples include "$root" && : >"$work/readme"
    (
        cd "$root" && unset OUT KEYS PORT SECURE_PORT && export INCLUDE=${INCLUDE:-$root/include} ARCHIVE
        exec setsid bash -c "$commands" >"$work/readme" 2>&1
    ) &
    group=$!
    for ((i = 0; i < 600; i++)); do
        grep -q "tare [0-9]* kg" "$work/readme" && break
        sleep 0.1
    done
    kill -- "-$group"
    wait $group
    grep -q "tare [0-9]* kg" "$work/readme" || fault "README's commands: $(tail -n 5 "$work/readme")"
}

# Nothing more than the programs.
part_build() { :; }

. tests/attacks.sh
. tests/device.sh
. tests/journal.sh

# ---- the list

[ $# -gt 0 ] || set -- "${ALL[@]}"
for part in "$@"; do
    [[ " ${ALL[*]} ${LONG[*]} " == *" $part "* ]] || { echo "no part '$part'; the parts are: ${ALL[*]}" >&2 && exit 2; }
done

export ARCHIVE=${ARCHIVE:-$PWD/target/staticlib/libterminal.a}
make -s -C examples/terminal &
make -s -C examples/terminal SANITIZE=1 && wait $! && make -s -f tests/terminal.mk || exit 1
(umask 077 && for n in {1..24} 30 40 50; do echo "$n $(od -An -N16 -tx1 /dev/urandom | tr -d ' \n')"; done >"$KEYS")
for part in "$@"; do
    begun=$SECONDS
    before=$faults
    program=$built/terminal-sanitized
    "part_$part"
    [ -z "$pid" ] || end KILL
    echo "terminal: $part $([ $faults -eq $before ] && echo passed || echo FAILED), $((SECONDS - begun)) s"
done
[ $faults -eq 0 ]
