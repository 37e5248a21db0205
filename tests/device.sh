# A part of tests/terminal.sh: the terminal on a device that is written byte by byte (-e). To be sourced by it.
# shellcheck shell=bash disable=SC2154,SC2034

# bytes of a device for the tables
DEVICE=4352

part_device() {
    option=-e
    file=$work/eeprom
    device_starts && device_yard && device_gone && device_memory
    device_cuts
    rm -f "$work/lives"
    "$built/device" "$work/lives" || fault "lives of a terminal on a device"
    program=$built/terminal
    file=$disk/eeprom
    kill_again 10 3
    option=-f
    file=$work/tables
}

# What is wrong with a device is reported in one line, with exit status 1, and the device stays as it is.
device_starts() {
    local rest=(-k "$KEYS" -p "$PORT" -s "$SECURE_PORT") length
    rm -f "$file"
    refuses "usage" -e "$file" -f "$file" "${rest[@]}" --new
    refuses "eeprom: there is no such file" -e "$file" "${rest[@]}"
    refuses "cannot be written" -e "$work/no-folder/eeprom" "${rest[@]}" --new
    refuses "cannot be read" -e "$work" "${rest[@]}"
    for length in 0 1 $((DEVICE - 1)) $((DEVICE + 1)) 8688; do
        head -c "$length" /dev/urandom >"$file"
        cp "$file" "$work/other-length"
        refuses "eeprom has $length bytes, and a device for the tables $DEVICE" -e "$file" "${rest[@]}" --new
        cmp -s "$file" "$work/other-length" || fault "a device of $length bytes was changed"
    done
}

# A yard is set up, and is there after a start; what changes no table writes nothing.
device_yard() {
    new_yard || return
    local rows before
    [ "$(stat -c '%s %a' "$file")" = "$DEVICE 600" ] || fault "a new device: $(stat -c '%s %a' "$file")"
    refuses "eeprom: in use by process $pid" -e "$file" -k "$KEYS" -p $((PORT + 2)) -s $((PORT + 3))
    refuses "eeprom: in use by process $pid" -f "$file" -k "$KEYS" -p $((PORT + 2)) -s $((PORT + 3))
    rows=$(request 5 get /oic/sec/cred && request 5 get /oic/sec/acl2)
    [ ${#rows} -gt 400 ] || fault "the rows of the yard: $rows"
    finish
    # as docs/TERMINAL.md has it: 14 changes, and the start
    grep -q "stored 15 times, by 446 bytes$" "$work/log" || fault "the set-up: $(tail -n 1 "$work/log")"
    before=$(cksum <"$file")
    launch || return
    expect "2.04 tare 14000 kg" 7 post /tare
    expect "4.03 8 not permitted" 0 post /weight
    [ "$(request 5 get /oic/sec/cred && request 5 get /oic/sec/acl2)" = "$rows" ] || fault "rows are lost by a start"
    finish
    grep -q "stored 1 times, by 0 bytes$" "$work/log" || fault "a tare: $(tail -n 1 "$work/log")"
    [ "$(cksum <"$file")" = "$before" ] || fault "what changes no table has written"
}

# A device whose file is removed, or replaced, while the terminal runs is no device any more: no answer rests on it.
device_gone() {
    local way
    program=$built/terminal
    for way in removed replaced; do
        rm -f "$file"
        launch || return
        cp "$file" "$work/another"
        [ $way = removed ] && rm "$file" || mv "$work/another" "$file"
        PATIENCE=1 expect none 0 post /oic/sec/cred "$(cred 7 "$(uuid 07)")"
        await_end
        same "a device that is $way" "1 1" "$? $(grep -c "eeprom cannot be written: it was removed" "$work/errors")"
    done
    program=$built/terminal-sanitized
}

# New memory holds tables that are not sound; the button gives fresh ones.
device_memory() {
    local byte
    for byte in 0 377; do
        head -c "$DEVICE" /dev/zero | tr '\0' "\\$byte" >"$file"
        launch_damaged "new memory of bytes $byte" && mend || return
    done
}

# The power is cut at a write, or the write fails, in one of three stores: each row that was confirmed is there.
device_cuts() {
    local kind write runs=0 confirmed=0 answers rows=()
    program=$built/terminal
    for kind in before torn after torn 5 28 4 short; do
        # the three stores have 122 writes
        write=$((1 + RANDOM % 122))
        faulty_rows "DEVICE_FAULT=$write $kind" || return
        case $kind in
        # interrupted, or nothing written: tried again
        4 | short) [ "$answers" = "44 44 44 " ] && finish || fault "write $write, $kind: $answers" ;;
        *) finish_faulty "$kind" 1 ;;
        esac
        launch || return
        check_confirmed "$answers" "write $write, $kind"
        end KILL
        runs=$((runs + 1))
    done
    echo "device: $runs stores with a fault, $confirmed confirmed rows"
}
