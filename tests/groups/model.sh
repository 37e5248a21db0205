# shellcheck shell=bash disable=SC2154
# The model's own tests, and its programs are built.
# touched by: model/*

test_model() {
    need_cargo && log in_model cargo test --quiet --profile gate --locked && log in_model cargo build --quiet --profile gate --locked
}
