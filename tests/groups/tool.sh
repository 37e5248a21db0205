# shellcheck shell=bash disable=SC2154
# The answers and the command tillerclover: their own tests, their words compared with what the library decides, and as people use it.
# touched by: crates/* crates.txt bindings/rust/* answers/* tool/* tests/tool.sh tests/shown.py tests/zsh.py tests/write_journal.py tests/keys.py examples/tool/* docs/TOOL*.md docs/BOXING.md

test_tool() {
    need_crates && need python3 python3 && need zsh zsh && need fish fish && library && log tool_cargo test --workspace && log tool_cargo build && log tests/tool.sh tool/target/debug/tillerclover
}
