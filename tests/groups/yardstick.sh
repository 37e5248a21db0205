# shellcheck shell=bash disable=SC2154
# C by hand, with which docs/BENCHMARKS.md compares, does the same work as the library. The feature is that of the programs above.
# touched by: crates/* crates.txt bindings/rust/* model/* bench/* include/*

test_yardstick() {
    need_cargo && need cc gcc && library &&
        log in_model cargo run --quiet --profile gate --locked --features yardstick --bin bench -- --agree &&
        tail -n 1 "$work/log"
}
