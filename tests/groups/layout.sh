# shellcheck shell=bash disable=SC2154
# Every file is in its layout: Rattle by rt, Rust by rustfmt.toml, C by .clang-format, Python by black; scripts are clean by shellcheck.
# `rt fmt` only writes, so it lays out a copy here, which must be as the sources are; `rt ci` refuses what is not laid out, too.
# touched by: *.rt *.antt *.rs *.[ch] *.py *.sh .ci/* *rustfmt.toml .clang-format .shellcheckrc debian/tests/*

# The C files.
c_files() { find include bench tests targets examples page -name '*.[ch]' | sort; }

# The sources of the crates, in their order.
rattle_files() { find crates \( -name out -o -name must-fail -o -name data \) -prune -o \( -name '*.rt' -o -name '*.antt' \) -print | sort; }

rattle_layout() {
    local copy=$work/laid-out crate file failed=0
    mkdir "$copy" && rattle_files | xargs cp --parents -t "$copy" crates.txt || return 1
    for crate in "$copy"/crates/*/; do
        (cd "$crate" && log rt fmt) || { echo "layout: rt fmt does not read the files of $(basename "$crate")" && failed=1; }
    done
    while read -r file; do
        cmp -s "$file" "$copy/$file" || { echo "layout: $file is not laid out; rt fmt in its crate's folder does it" && failed=1; }
    done < <(rattle_files)
    return "$failed"
}

test_layout() {
    need_component fmt rustfmt rustfmt && need clang-format clang-format && need shellcheck shellcheck && need black black || return 1
    local files failed=0
    rattle_layout || failed=1
    log in_model cargo fmt --check || failed=1
    log in_binding cargo fmt --check || failed=1
    log in_answers cargo fmt --check || failed=1
    log in_tool cargo fmt --check || failed=1
    log in_page cargo fmt --check || failed=1
    mapfile -t files < <(c_files)
    log clang-format --dry-run --Werror "${files[@]}" || failed=1
    mapfile -t files < <(git ls-files "*.py")
    log black --quiet --check --line-length 120 "${files[@]}" || failed=1
    log shellcheck .ci/run .ci/seconds tests/*.sh tests/groups/*.sh targets/*.sh page/*.sh bench/*.sh examples/terminal/*.sh packaging/*.sh debian/tests/library debian/tests/command || failed=1
    return "$failed"
}
