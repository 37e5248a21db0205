# shellcheck shell=bash disable=SC2154
# The library and the model give the same for 300,000 records, and for as many questions of isolation as `yards` asks.
# touched by: crates/* crates.txt bindings/rust/* model/*

test_compare() {
    need_cargo && library &&
        log in_model cargo run --quiet --profile gate --locked --features yardstick --bin compare -- --records 300000 &&
        tail -n 1 "$work/log" &&
        log in_model cargo run --quiet --profile gate --locked --features yardstick --bin yards && tail -n 1 "$work/log"
}
