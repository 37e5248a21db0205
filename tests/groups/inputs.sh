# shellcheck shell=bash disable=SC2154
# The run program on input that is no whole run.
# touched by: crates/* crates.txt

test_inputs() {
    run_program || return 1
    local header="n answer perm state" clock='\x01\x02\x03\x04' failed=0
    # the input as printf's text, then the expected lines after the header
    expect_text "no input" "" "$header" || failed=1
    expect_text "a lone byte" '\0' "$header"$'\n'"cut" || failed=1
    expect_text "a clock cut short" '\0\0\0' "$header"$'\n'"cut" || failed=1
    expect_text "a clock alone" "$clock" "$header"$'\n'"cut" || failed=1
    expect_text "a clock and a lone byte" "$clock"'\0' "$header"$'\n'"cut" || failed=1
    expect_text "a clock and a length alone" "$clock"'\0\4' "$header"$'\n'"cut" || failed=1
    expect_text "a cut record" "$clock"'\0\5\x40\x40\0\0' "$header"$'\n'"cut" || failed=1
    expect_text "a record, then a lone byte" "$clock"'\0\3\x40\x80\0\0' "$header"$'\n'"1 2 0 1"$'\n'"cut" || failed=1
    expect_text "a record, then a clock alone" "$clock"'\0\3\x40\x80\0'"$clock" "$header"$'\n'"1 2 0 1"$'\n'"cut" || failed=1
    expect_text "a record, then a cut one" "$clock"'\0\4\x22\0\0\0'"$clock"'\0\4\x22\0' "$header"$'\n'"1 8 0 1"$'\n'"cut" || failed=1
    expect_text "a record of no bytes" "$clock"'\0\0' "$header"$'\n'"1 2 0 1" || failed=1

    # 5,461 records of no bytes leave two bytes of the run, half a clock; the rest is not read.
    head -c 40000 /dev/zero >"$work/input"
    { echo "$header" && seq -f '%.0f 2 0 1' 5461 && echo "cut"; } >"$work/expected"
    expect_file "40,000 bytes, the last 7,232 not read" || failed=1
    # One record of 32,762 bytes ends with the run, whatever follows.
    { printf '\0\0\0\0\x7f\xfa' && head -c 33000 /dev/zero; } >"$work/input"
    { echo "$header" && echo "1 2 0 1"; } >"$work/expected"
    expect_file "a record that ends with the run" || failed=1
    # One byte more is not all there.
    { printf '\0\0\0\0\x7f\xfb' && head -c 33000 /dev/zero; } >"$work/input"
    { echo "$header" && echo "cut"; } >"$work/expected"
    expect_file "a record that goes on past the run" || failed=1
    return "$failed"
}

# expect_text WHAT INPUT TEXT
expect_text() {
    # shellcheck disable=SC2059
    printf "$2" >"$work/input"
    echo "$3" >"$work/expected"
    expect_file "$1"
}

# expect_file WHAT: the program's text for $work/input is $work/expected
expect_file() {
    if target/bin/run <"$work/input" >"$work/text" && cmp -s "$work/text" "$work/expected"; then
        return
    fi
    echo "inputs: $1: the text differs"
    diff "$work/expected" "$work/text" | head -n 5
    return 1
}
