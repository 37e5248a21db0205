# shellcheck shell=bash disable=SC2154
# Two builds in two folders give the same archive: the libraries that are proved are passed in to the second, whose own crate is proved and
# its code made again. Where kit and sources are those of packaging/KIT, it is the archive of its sum.
# touched by: crates/* crates.txt packaging/*.sh packaging/KIT

test_same() {
    library || return 1
    local second=$work/second/of/it
    mkdir -p "$second" && cp -R crates.txt packaging "$second" && second_crates "$second/crates" &&
        (cd "$second" && log packaging/library.sh --after-ci) &&
        log cmp target/staticlib/libterminal.a "$second/target/staticlib/libterminal.a" && packaging/kit.sh --archive
}

# second_crates FOLDER: the crates, and of what rt made the libraries alone
second_crates() {
    local crate
    for crate in crates/*; do
        mkdir -p "$1/${crate#crates/}" && cp -R "$crate"/{src,specs,proofs} "$1/${crate#crates/}" 2>/dev/null
        [ ! -d "$crate/out/rlib" ] || { mkdir "$1/${crate#crates/}/out" && cp -R "$crate/out/rlib" "$1/${crate#crates/}/out"; } || return 1
    done
}
