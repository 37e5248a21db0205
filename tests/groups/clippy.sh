# shellcheck shell=bash disable=SC2154
# No warning of clippy in the model, the binding, the answers and the tool, with their tests and programs.
# touched by: model/* bindings/rust/* answers/* tool/* page/*

test_clippy() {
    need_component clippy clippy rust-clippy && need_crates && library || return 1
    local failed=0
    log in_model cargo clippy --quiet --locked --all-targets --features yardstick -- -D warnings || failed=1
    log in_binding cargo clippy --quiet --locked --all-targets -- -D warnings || failed=1
    log tool_cargo clippy --workspace --all-targets -- -D warnings || failed=1
    return "$failed"
}
