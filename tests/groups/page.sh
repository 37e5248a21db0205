# shellcheck shell=bash disable=SC2154
# The page's crate on this machine: random questions, whose answers are the command's; its scripts are scripts. tests/page.sh builds the
# page itself and tries it under node and in a browser.
# touched by: crates/* crates.txt bindings/rust/* answers/* tool/* page/* tests/page/* tests/page.* tests/write_journal.py examples/tool/*

test_page() {
    need_crates && need python3 python3 && need node nodejs && library || return 1
    local script
    for script in page/web/*.js targets/*.mjs tests/page/*.mjs; do
        log node --check "$script" || return 1
    done
    log tool_cargo build --workspace --bins --examples &&
        log node tests/page/journal.mjs tool/target/debug/examples/answer tool/target/debug/tillerclover examples/tool/weston.{journal,names} &&
        log tests/page/questions.py make tool/target/debug/tillerclover 300 "$RANDOM" "$work/questions.json" &&
        tool/target/debug/examples/answer "$work/questions.json" >"$work/answers.json" &&
        log tests/page/questions.py compare "$work/questions.json" "$work/answers.json" && cat "$work/log"
}
