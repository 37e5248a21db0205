# shellcheck shell=bash disable=SC2154
# The run program and the model write the same text for 200 runs.
# touched by: crates/* crates.txt model/*

test_runs() {
    need_cargo && run_program &&
        log in_model cargo run --quiet --profile gate --locked --bin runs -- --program ../target/bin/run --runs 200 &&
        tail -n 1 "$work/log"
}
