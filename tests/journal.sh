# A part of tests/terminal.sh: the terminal with a journal (-j). tests/journal.py reads it without the terminal's code: the chain,
# and each answer by the library again. To be sourced by tests/terminal.sh.
# shellcheck shell=bash disable=SC2154,SC2034

part_journal() {
    journal=$work/journal
    "$built/sha256" || fault "SHA-256"
    # the example of the format's page
    sed -nE 's/^    ([0-9]+ 2026-.* [0-9a-f]{64})$/\1/p' docs/JOURNAL.md >"$work/example"
    python3 tests/journal.py "$built/library.so" "$work/example" >"$work/said" || fault "docs/JOURNAL.md: $(cat "$work/said")"
    journal_starts
    more=(-j "$journal")
    journal_yard
    journal_torn
    journal_files
    journal_crashes
    journal_disk
    journal_flood
    journal_kills
    more=()
}

# journal_new: the yard that setup.sh has set up, with a new journal
journal_new() {
    rm -f "$journal" "$journal".*
    cp "$work/yard" "$file"
    at "$NOW"
    launch
}

# journal_names: the journal's files in order
journal_names() { find "${journal%/*}" -name 'journal.0*' | sort && echo "$journal"; }

# journal_lines KIND [WORDS]: how many lines of the kind are in the journal's last file, with these words next
journal_lines() { cut -d ' ' -f 4- "$journal" | grep -c "^$1 ${2:-}"; }

# journal_replays: the terminal has ended; the journal's files fit each other, every answer is the library's, and the tables that
# follow are those that are stored
journal_replays() {
    local said tables names
    mapfile -t names < <(journal_names)
    said=$(python3 tests/journal.py "$built/library.so" "${names[@]}" 2>&1) || fault "the journal: $(tail -n 1 <<<"$said")"
    tables=$(tail -c +9 "$file" | head -c 2172 | sha256sum)
    same "the tables at the journal's end" "${tables%% *}" "$(tail -n 1 <<<"$said")"
}

# What is no journal is refused in one line, and stays as it is.
journal_starts() {
    local rest=(-f "$file" -k "$KEYS" -p "$PORT" -s "$SECURE_PORT" -c "$work/clock" --new) before
    rm -f "$file" "$journal" "$work/target"
    at "$NOW"
    refuses "usage" "${rest[@]}" -j "$journal" -J 0
    refuses "usage" "${rest[@]}" -j "$journal" -J 9x
    refuses "cannot be read: Is a directory" "${rest[@]}" -j "$work"
    refuses "cannot be written: No such file" "${rest[@]}" -j "$work/no-folder/journal"
    refuses "/dev/null is no file" "${rest[@]}" -j /dev/null
    ln -s "$work/target" "$journal"
    refuses "symbolic links" "${rest[@]}" -j "$journal"
    [ ! -e "$work/target" ] || fault "a journal was made where a link led"
    rm "$journal" && mkfifo -m 600 "$journal"
    refuses "journal is no file" "${rest[@]}" -j "$journal"
    rm "$journal" && : >"$journal" && chmod 640 "$journal"
    refuses "can be read by others" "${rest[@]}" -j "$journal"
    chmod 600 "$journal"
    if [ "$(id -u)" -eq 0 ]; then
        chown 65534 "$journal"
        refuses "belongs to another user" "${rest[@]}" -j "$journal"
    fi
    rm -f "$journal" && : >"$journal.000001"
    refuses "journal.000001 is there" "${rest[@]}" -j "$journal"
    rm "$journal.000001"
    [ ! -e "$file" ] || fault "a start that failed left a file"
    # A journal with a changed line, without a line, with one put elsewhere, with one that is no line
    more=(-j "$journal")
    new_yard || return
    refuses "journal: in use by process $pid" -f "$work/other" -k "$KEYS" -p $((PORT + 2)) -s $((PORT + 3)) --new -j "$journal"
    finish
    more=()
    cp "$file" "$work/yard"
    cp "$journal" "$work/right"
    for before in '12s/ handed-in 5 / handed-in 7 /' 12d '12h;12d;14G' '1s/^1 /2 /' '$s/.$/x/' '12s/$/\r/' '12s/ 0 / 0\x00/' 1d '$G' '$p'; do
        sed "$before" "$work/right" >"$journal"
        cp "$journal" "$work/wrong"
        refuses "line [0-9]*: does not fit the chain" "${rest[@]}" -j "$journal"
        cmp -s "$journal" "$work/wrong" || fault "a journal that does not fit was changed ($before)"
    done
    rm -f "$file"
}

# The day of a yard replays; so do the button, a start, and a record that the program refuses by itself. A killed program leaves no
# 'stopped', and loses no change.
journal_yard() {
    rm -f "$journal"
    new_yard || return
    same "the mode of a journal" 600 "$(stat -c %a "$journal")"
    expect "2.04 tare 14000 kg" 7 post /tare
    expect "4.03 8 not permitted" 7 post /zero
    expect "4.01 7 no such credential" 50 post /tare
    expect "4.04 6 unknown resource" 0 get /nothing
    expect "4.13 2 record too short or too long" 7 post /tare "$(printf '41%.0s' {1..253})"
    expect "2.04 " 20 post /oic/sec/roles "$(role 2 7 $((NOW + 3600)))"
    # A change that changes nothing is not stored, and is in the journal all the same.
    expect "2.04 " 20 post /oic/sec/roles "$(role 2 7 $((NOW + 3600)))"
    finish
    same "what the journal has" "1 15 1 1 2 2 1" "$(journal_lines 'started new') $(journal_lines stores) $(journal_lines stopped) \
$(journal_lines 'handed-in 50' "[0-9a-f]* 7 ") $(journal_lines 'taken 20') $(journal_lines 'taken 7') $(journal_lines 'handed-in 7' '[0-9a-f]* 2 ')"
    journal_replays
    launch || return
    expect "2.04 " 5 post /oic/sec/pstat "$(state 2)"
    end KILL
    launch || return
    same "a start after a kill" "2 1" "$(journal_lines 'started same') $(journal_lines stopped)"
    kill -USR1 "$pid"
    until_true grep -q "^terminal: cleared" "$work/log"
    expect "2.05 20$(uuid 00)" 0 get /oic/sec/pstat
    finish
    same "the button" 1 "$(journal_lines cleared)"
    journal_replays
    # The tables were changed by somebody else.
    cp "$work/yard" "$file"
    launch && finish
    journal_replays
    same "another store" 1 "$(journal_lines 'started other')"
    grep -q "journal ends with other tables than those that are stored" "$work/log" || fault "another store is not in the log"
    head -c 100 /dev/urandom >"$file"
    launch 2>/dev/null
    end TERM
    : >"$work/errors"
    same "a damaged store" 1 "$(journal_lines 'started damaged')"
}

# A last line without its end is cut off, and that is said.
journal_torn() {
    local cut
    for cut in 1 70 200; do
        journal_new && finish
        truncate -s -$cut "$journal"
        launch || return
        grep -q "the last line had no end, and its [0-9]* bytes were cut off" "$work/log" || fault "a torn line is not in the log"
        expect "2.04 tare 14000 kg" 7 post /tare
        finish
        same "a torn line" 1 "$(journal_lines torn)"
        journal_replays
    done
    # as some file systems leave it
    head -c 100000 /dev/zero >>"$journal"
    launch && finish
    same "zeros at the end" 1 "$(journal_lines torn 100000)"
    journal_replays
    # Nothing but the beginning of a first line.
    printf '1 2026' >"$journal"
    launch && finish
    same "a torn first line" "1 1" "$(journal_lines torn 6) $(journal_lines 'started first')"
    journal_replays
}

# Full files are closed, keep their lines, and fit each other; a start goes on with a rotation that was cut off at any point.
journal_files() {
    local last
    more=(-j "$journal" -J 3000)
    rm -f "$journal"
    new_yard || return
    expect "2.04 tare 14000 kg" 7 post /tare
    finish
    [ -e "$journal.000003" ] && [ "$(stat -c %a "$journal.000001")" = 600 ] || fault "the journal has no third file of mode 600"
    journal_replays
    # cut off before the link, and after it
    last=$(journal_names | tail -n 2 | head -n 1)
    mv "$last" "$journal"
    launch && expect "2.04 tare 14000 kg" 7 post /tare && finish
    last=$(journal_names | tail -n 2 | head -n 1)
    ln -f "$last" "$journal"
    : >"$journal.new"
    launch && expect "2.04 tare 14000 kg" 7 post /tare && finish
    [ ! -e "$journal.new" ] || fault "a file that a crash left is still there"
    journal_replays
    # Somebody's file has the next name: nothing is lost, and it goes on when the name is free.
    journal_new || return
    expect "2.04 " 5 post /oic/sec/pstat "$(state 2)"
    last=$(printf '%s.%06d' "$journal" "$(journal_names | wc -l)")
    echo mine >"$last"
    local i refused=0
    for ((i = 0; i < 20; i++)); do
        [ "$(request 5 post /oic/sec/acl2 "$(row $((20 + i % 5)) 0 2 "$(uuid 07)" $((8 + i % 2)))")" = "2.04 " ] || refused=$((refused + 1))
    done
    [ $refused -gt 0 ] && [ "$(cat "$last")" = mine ] || fault "a file of somebody else's was overwritten, or the journal goes on without it"
    rm "$last"
    expect "2.04 " 5 post /oic/sec/pstat "$(state 3)"
    finish
    journal_replays
    more=(-j "$journal")
}

# A change is on the disk before it is stored and confirmed: where the sync fails, or the program ends at it, nobody was told, and
# the tables are as before.
journal_crashes() {
    local kind before
    program=$built/terminal
    for kind in before after 5; do
        rm -f "$work/sync"
        settings=("LD_PRELOAD=$built/faults.so" "SYNC_FAULT=$work/sync")
        journal_new
        settings=()
        [ -n "$pid" ] || return
        before=$(cksum <"$file")
        echo $kind >"$work/sync"
        if [ $kind = 5 ]; then
            expect "5.03 the journal cannot be written" 5 post /oic/sec/pstat "$(state 2)"
            expect "2.05 60$(uuid 00)" 5 get /oic/sec/pstat
            grep -q "journal cannot be written: Input/output error" "$work/log" || fault "a sync that failed is not in the log"
            rm "$work/sync"
            expect "2.04 " 5 post /oic/sec/pstat "$(state 2)"
            finish
        else
            PATIENCE=4 expect none 5 post /oic/sec/pstat "$(state 2)"
            await_end
            same "the tables after the program's end ($kind)" "$before" "$(cksum <"$file")"
            launch || return
            expect "2.05 60$(uuid 00)" 5 get /oic/sec/pstat
            finish
            same "the start ($kind)" 1 "$(journal_lines 'started unstored')"
        fi
        journal_replays
    done
    program=$built/terminal-sanitized
}

# A disk that is full: changes and the button are refused, records that change nothing are served, and nothing is lost. When there
# is room again, all goes on. And a journal that was removed.
journal_disk() {
    local size
    program=$built/terminal
    journal_new || return
    size=$(stat -c %s "$journal")
    prlimit --pid "$pid" --fsize=$((size + 100)): || fault "no bound for the test"
    expect "5.03 the journal cannot be written" 5 post /oic/sec/pstat "$(state 2)"
    expect "2.05 60$(uuid 00)" 5 get /oic/sec/pstat
    expect "2.04 tare 14000 kg" 7 post /tare
    kill -USR1 "$pid"
    until_true grep -q "nothing is cleared: the journal cannot be written" "$work/log"
    expect "2.04 tare 14000 kg" 7 post /tare
    same "the log of a full disk" 1 "$(grep -c "journal cannot be written: File too large; changes are refused until it can" "$work/log")"
    same "the journal on a full disk" "$size" "$(stat -c %s "$journal")"
    prlimit --pid "$pid" --fsize=unlimited:
    expect "2.04 " 5 post /oic/sec/pstat "$(state 2)"
    grep -q "journal is written again" "$work/log" || fault "that the journal is written again is not in the log"
    [ "$(journal_lines left-out)" -eq 1 ] || fault "what a full disk left out is not counted"
    cp "$journal" "$work/kept" && rm "$journal"
    expect "5.03 the journal cannot be written" 5 post /oic/sec/pstat "$(state 3)"
    ln "$work/kept" "$journal"
    expect "5.03 the journal cannot be written" 5 post /oic/sec/pstat "$(state 3)"
    end KILL
    launch && finish
    journal_replays
    program=$built/terminal-sanitized
}

# journal_left: how many entries the journal says that it has left out
journal_left() { cut -d ' ' -f 4- "$journal" | awk '$1 == "left-out" { sum += $2 } END { print sum + 0 }'; }

# A partner who reads without end fills no disk: its lines are bounded and counted. Another's are all there, and it replays.
journal_flood() {
    local i left
    program=$built/terminal
    journal_new || return
    "$attack" flood bursts "$SECURE_PORT" 90 40 "$(key 40)" >/dev/null &
    left=$!
    for i in {1..20}; do
        expect "2.04 tare 14000 kg" 7 post /tare
        expect "4.03 8 not permitted" 7 post /zero
    done
    until_true eval '[ "$(journal_lines "taken 40")" -ge 100 ] && [ "$(journal_left)" -gt 100 ]'
    expect "2.04 " 5 post /oic/sec/pstat "$(state 2)"
    kill $left
    wait $left 2>/dev/null
    finish
    journal_replays
    same "the lines of another" 40 "$(journal_lines 'taken 7')"
    left=$(journal_left)
    # What is permitted and what is refused is counted apart: a hundred records of each, one more every ten seconds, and those of
    # the round with the change.
    i=$(journal_lines '[a-z-]* 40')
    [ "$(journal_lines 'taken 40' '[0-9a-f]* 0 ')" -le 115 ] && [ "$i" -ge 200 ] && [ "$i" -le 460 ] ||
        fault "a flood: $i lines, $left left out"
    echo "journal: $left lines of a flood left out"
    program=$built/terminal-sanitized
}

# kill -9 while partners change the tables: no confirmed change is lost, and the journal has each start's tables.
journal_kills() {
    program=$built/terminal
    journal=$disk/journal
    file=$disk/journal-tables
    more=(-j "$journal" -J 20000)
    kill_again 60 5
    journal_replays
    file=$work/tables
    program=$built/terminal-sanitized
}
