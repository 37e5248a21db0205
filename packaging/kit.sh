#!/usr/bin/env bash
# The kit that the project is proved and built with, and the archive that it gives: packaging/KIT has both, with the sum of the sources.
#
#     packaging/kit.sh              says whether the kit here is that one; where it is another, says so, and goes on
#     packaging/kit.sh --archive    also compares the archive in target/staticlib, where kit and sources are those of packaging/KIT
#     packaging/kit.sh --page       the same of the page in target/page, and the compiler of Rust that built it
#     packaging/kit.sh --write      writes packaging/KIT, of that archive, and of that page if it is of these sources
#
# Exit status 1: the same kit made another archive, or another page, of the same sources.
set -euo pipefail
cd "$(dirname "$0")/.."
file=packaging/KIT
archive=target/staticlib/libterminal.a
page=target/page/tillerclover.html

written() { sed -n "s/^$1 //p" "$file"; }
sum() { sha256sum "$1" | cut -d ' ' -f 1; }
# Only the code: definitions and proofs are no part of the archive.
sources() { find crates/*/src -name '*.rt' | LC_ALL=C sort | xargs cat crates.txt | sha256sum | cut -d ' ' -f 1; }

# What the page is made of in addition to the archive.
page_sources() {
    find answers/src page bindings/rust/src include/*.h targets/build.sh targets/random.h -type f -not -path '*/tests/*' -not -path '*/examples/*' |
        LC_ALL=C sort | xargs cat answers/Cargo.toml "$archive" | sha256sum | cut -d ' ' -f 1
}
compiler() { "${RUST_PREFIX:-/usr}/bin/rustc" --version 2>/dev/null || echo "none"; }
# The lines of the page: today's, if target/page has it of today's sources, and otherwise those that are written.
page_lines() {
    if [ "$(cat target/page/sources 2>/dev/null)" = "$(page_sources)" ]; then
        printf 'rustc %s\npage-sources %s\ntillerclover.html %s\n' "$(compiler)" "$(page_sources)" "$(sum "$page")"
    else
        grep -E '^(rustc|page-sources|tillerclover\.html) ' "$file" || true
    fi
}

kit=$(rt version 2>/dev/null) || kit="none: rt is not on the path"
if [ "${1-}" = --write ]; then
    {
        echo "# Renewed by packaging/kit.sh --write, or make sums. docs/ASSESSOR.md says what it is for."
        printf 'kit %s\nsources %s\nlibterminal.a %s\n' "$kit" "$(sources)" "$(sum "$archive")"
        page_lines
    } >"$file.new"
    mv "$file.new" "$file"
    exit
fi
if [ "${1-}" = --sources-of-page ]; then
    page_sources
    exit
fi

if [ "$kit" != "$(written kit)" ]; then
    echo "kit: another one, '$kit'; packaging/KIT has '$(written kit)'. What is proved here is proved by the one that is here."
    exit
fi
echo "kit: the one of packaging/KIT"

# compare NAME FILE: the file is the one whose sum is written
compare() {
    if [ "$(sum "$2")" != "$(written "$(basename "$2")")" ]; then
        echo "$1: another one than that of packaging/KIT, by the same kit and of the same sources: $(sum "$2")"
        exit 1
    fi
    echo "$1: the one of packaging/KIT"
}
left_out() { echo "$1: not compared, since $2 are others than those of packaging/KIT; make $3 renews it"; }
if [ "${1-}" = --archive ]; then
    [ "$(sources)" != "$(written sources)" ] && left_out archive "the sources" sums || compare archive "$archive"
elif [ "${1-}" = --page ]; then
    [ "$(page_sources) $(compiler)" != "$(written page-sources) $(written rustc)" ] &&
        left_out page "the sources or the compiler of Rust" "page sums" || compare page "$page"
fi
