# shellcheck shell=bash disable=SC2154
# The crates that the tool needs are there, and are built; this needs no library.
# touched by: answers/Cargo.toml tool/Cargo.toml page/Cargo.toml tests/debian.toml

test_crates() {
    need_crates && log tool_cargo build "${CRATES[@]/#/--package=}"
}
