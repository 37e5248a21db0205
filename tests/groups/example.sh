# shellcheck shell=bash disable=SC2154
# The C examples are built without a warning and print what they are to print.
# touched by: crates/* crates.txt include/* examples/*

test_example() {
    need cc gcc && library || return 1
    local name
    for name in yard two_yards; do
        c_program "$name" "examples/$name.c" && log "$work/$name" && log diff "examples/$name.expected" <("$work/$name") || return 1
    done
}
