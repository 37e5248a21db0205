# shellcheck shell=bash disable=SC2154
# The Rust binding, as it is packaged: its tests, the examples of its documentation, its programs, and without an allocator.
# touched by: crates/* crates.txt include/* bindings/rust/* tests/words.c

test_binding() {
    need_cargo && need cc gcc && library || return 1
    # The binding's package has headers of its own: the same as those that C includes.
    local header
    for header in bindings/rust/include/*.h; do
        log cmp "include/$(basename "$header")" "$header" || return 1
    done
    # What the headers read of rows and names, which the binding's test `words` reads too.
    c_program words -g -fsanitize=address,undefined -fno-sanitize-recover=all tests/words.c && "$work/words" >"$work/words.lines" || return 1
    export TILLERCLOVER_WORDS=$work/words.lines
    log in_binding cargo package --quiet --locked --offline --no-verify --allow-dirty &&
        rm -rf "$packaged/tillerclover-0.1.0" && mkdir -p "$packaged" &&
        log tar -xmf bindings/rust/target/package/tillerclover-0.1.0.crate -C "$packaged" &&
        log in_package cargo test --quiet --locked --offline &&
        log in_package cargo test --quiet --locked --offline --no-default-features --lib --tests --examples &&
        log in_package cargo run --quiet --locked --offline --example tare &&
        log in_package cargo run --quiet --locked --offline --example turns &&
        log in_package cargo run --quiet --locked --offline --no-default-features --example bare
}
