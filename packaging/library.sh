#!/usr/bin/env bash
# Proves the library, and writes its archive for C, target/staticlib/libterminal.a: that of the crate terminal_c, compiled for any x86-64.
#
#     packaging/library.sh                  proves what has changed, by `rt lib`
#     packaging/library.sh --after-ci       where `rt ci` has just passed: over the libraries as it left them, so that of all crates only
#                                           terminal_c is proved again
#     packaging/library.sh --keep FOLDER    over the libraries as they were built last: writes the archive into FOLDER, as archive.a, and
#                                           the module that the prover handed to its compiler, module.bc
#
# Exit status: 0 where the library is proved.
set -euo pipefail
cd "$(dirname "$0")/.."
# shellcheck source=packaging/below.sh
. packaging/below.sh

archive=target/staticlib/libterminal.a
CPU=--cpu=x86-64
kit=$(kit)

# over TOOLCHAIN FILE: what `rt lib` does last, proving and compiling terminal_c, over the libraries in out/ of their crates
over() {
    local name words=()
    for name in $(named terminal_c); do
        words+=(--extern "$name=$PWD/crates/$name/out/rlib/$name.rlib")
    done
    for name in $(below terminal_c); do
        words+=(-L "dependency=$PWD/crates/$name/out/rlib")
    done
    (cd crates/terminal_c && "$kit/bin/rattle" build --crate-name terminal_c src/lib.rt --extern "std=$kit/rlibs/std.rlib" -L "dependency=$kit/rlibs" \
        "${words[@]}" --antt-project "$kit/rattle/logic/antt-project.json" --logic-built "$kit/logic_built" --links terminal_c= \
        --crate-type staticlib "$CPU" --toolchain "$1" --backend llvm -o "$2")
}

# Whether the libraries are those of `rt ci`: it leaves statements alone, over which `rt lib` builds nothing, and no stamp beside them.
left_by_ci() {
    local name
    for name in $(below terminal_c); do
        [ "$name" = terminal_c ] || { [ -d "crates/$name/out/rlib/$name.rlib" ] && [ ! -e "crates/$name/out/rlib/stamp" ]; } || return 1
    done
}

by_rt() {
    (cd crates/terminal_c && rt lib "$CPU")
    cp crates/terminal_c/out/libterminal_c.a "$archive.new"
}

# The toolchain by links, with a compiler that keeps what it is given and then calls the real one. The prover clears the environment of its
# compiler, so the paths are in the script.
keeping() {
    mkdir -p "$1/bin" && ln -s "$kit/toolchain/lib" "$1/lib" && ln -s "$kit"/toolchain/bin/* "$1/bin/" && rm "$1/bin/clang"
    cat >"$1/bin/clang" <<END
#!/bin/sh
for word in "\$@"; do
    case \$word in *.bc) cp "\$word" '$2' ;; esac
done
exec '$kit/toolchain/bin/clang' "\$@"
END
    chmod +x "$1/bin/clang"
}

# keep FOLDER. Where `rt lib` has not built the libraries yet, it does.
keep() {
    local work
    work=$(mktemp -d)
    keeping "$work/toolchain" "$work/module.bc"
    over "$work/toolchain" "$work/archive.a" >"$work/log" 2>&1 ||
        { (cd crates/terminal_c && rt lib "$CPU") && over "$work/toolchain" "$work/archive.a"; } >"$work/log" 2>&1 ||
        { tail -n 20 "$work/log" >&2 && rm -rf "$work" && return 1; }
    mkdir -p "$1" && chmod 644 "$work/module.bc" && mv "$work/module.bc" "$work/archive.a" "$1/" && rm -rf "$work"
}

mkdir -p "$(dirname "$archive")"
case ${1-}$# in
0) by_rt ;;
--after-ci1) { left_by_ci && over "$kit/toolchain" "$PWD/$archive.new"; } || by_rt ;;
--keep2)
    keep "$2"
    exit
    ;;
*)
    sed -n '2,/^set /{/^#/s/^# \{0,1\}//p}' packaging/library.sh >&2
    exit 2
    ;;
esac
mv "$archive.new" "$archive"
