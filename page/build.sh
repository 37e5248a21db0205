#!/usr/bin/env bash
# Builds the page: the proved library and the command's reports as WebAssembly in one file of HTML that needs no server.
#
#     page/build.sh              target/page/tillerclover.html, and only the module, target/page/tillerclover-page.wasm
#     page/build.sh --crates     what needs no library: Rust's standard library and the crates that the reports need
#
# Needs Debian's rustc-web, cargo-web and rust-web-src (rustc, cargo and rust-src of Debian 13), clang, wasi-libc, python3, gcc and the
# librust-*-dev of the command; the linker is the toolchain's.
#
# Debian has the standard library of Rust for wasm32 only as source: cargo builds it (-Zbuild-std), which a released compiler does
# if RUSTC_BOOTSTRAP is set. Its crates and the command's come from one folder of links.
#
# Two builds give the same bytes, in any folder: cargo orders functions by the paths of their crates below the workspace, so the
# sources are copied below one, and no path of the machine is written into the module.
set -euo pipefail
cd "$(dirname "$0")/.."
# shellcheck source=packaging/below.sh
. packaging/below.sh

root=$PWD
out=$root/target/page
triple=wasm32-unknown-unknown
CALLS=20000
rust=${RUST_PREFIX:-/usr}/bin

stop() {
    echo "page: $*" >&2
    exit 1
}

# sources: the crates below one workspace; `crates` has the dependencies of the others, and no code; it is
# linked as the page is, since cargo compiles what it needs otherwise in another way
sources() {
    local source=$out/source
    rm -rf "$source" && mkdir -p "$source/crates/src"
    tar -ch --exclude=target --exclude=page/web answers page bindings/rust | tar -x -C "$source"
    sed -i -e '/^workspace = /d' -e '/^\[dev-dependencies\]/,$d' "$source/answers/Cargo.toml" "$source/page/Cargo.toml"
    sed -e 's/^name = .*/name = "crates"/' -e '/path = /d' -e 's/^\[dependencies\]/[lib]\ncrate-type = ["cdylib"]\n\n&/' "$source/answers/Cargo.toml" \
        >"$source/crates/Cargo.toml"
    echo '//! The crates of others, and no code.' >"$source/crates/src/lib.rs"
    cat >"$source/Cargo.toml" <<END
[workspace]
members = ["answers", "crates", "page"]
resolver = "2"

[profile.release]
opt-level = 3
lto = true
codegen-units = 1
panic = "abort"
strip = true
END
}

# registry LIBRARY: the crates of Debian and those of the standard library, as copies: `rt ci` takes no link below the root
registry() {
    local crate
    rm -rf "$out/registry" && mkdir -p "$out/registry"
    for crate in /usr/share/cargo/registry/* "$1"/vendor/*; do
        cp -rL "$crate" "$out/registry/$(basename "$crate")"
    done
    printf '[source.crates-io]\nreplace-with = "both"\n[source.both]\ndirectory = "%s"\n' "$out/registry" >"$out/cargo.toml"
}

# The compiler, with words that cargo does not count among its own: they name folders of this machine.
compiler() {
    cat >"$out/rustc" <<END
#!/bin/sh
exec '$rust/rustc' "\$@" '--remap-path-prefix=$out/registry=crates' '--remap-path-prefix=$out/source=tillerclover' '--remap-path-prefix=$1=std' '--remap-path-prefix=$out/cargo=built'
END
    chmod +x "$out/rustc"
}

# linker KIT: the toolchain's, which is told by its name what it links, and links the calls at random too. They are no flag of cargo's:
# with other flags it would build everything again.
linker() {
    cat >"$out/wasm-ld" <<END
#!/usr/bin/env bash
case "\$*" in *tillerclover_page*) exec -a wasm-ld '$1/toolchain/bin/clang' "\$@" '$out/digest.o' ;; esac
exec -a wasm-ld '$1/toolchain/bin/clang' "\$@"
END
    chmod +x "$out/wasm-ld"
}

# build PACKAGE
build() {
    (cd "$out/source" && env -u CARGO_HOME -u RUSTUP_TOOLCHAIN PATH=/usr/bin:/bin RUSTC="$out/rustc" RUSTC_BOOTSTRAP=1 \
        CARGO_TARGET_WASM32_UNKNOWN_UNKNOWN_LINKER="$out/wasm-ld" CARGO_ENCODED_RUSTFLAGS= \
        "$rust/cargo" build --release --quiet --offline --config "$out/cargo.toml" --target "$triple" -Zbuild-std=std,panic_abort \
        --target-dir "$out/cargo" --package "$1")
}

# The calls at random of targets/random.h, for the page and for this machine, which says what their digest is.
digest() {
    clang --target=wasm32-wasi -std=c11 -O2 -mbulk-memory -Wall -Wextra -Werror -ffile-prefix-map="$root=." -Iinclude -c page/digest.c -o "$out/digest.o"
    gcc -std=c11 -O2 -Wall -Wextra -Werror -Iinclude -DALONE page/digest.c target/staticlib/libterminal.a -o "$out/digest"
    "$out/digest" "$CALLS"
}

sum() { sha256sum "$1" | cut -d ' ' -f 1; }

[ -x "$rust/cargo" ] || stop "there is no $rust/cargo: it is in Debian's package cargo-web, or cargo"
library=$("$rust/rustc" --print sysroot)/lib/rustlib/src/rust/library
[ -d "$library" ] || stop "there is no $library: it is in Debian's package rust-web-src, or rust-src"
kit=$(kit) || stop "the toolchain's command rt is not on the path"
mkdir -p "$out"
linker "$kit"
sources
registry "$library"
compiler "$library"
if [ "${1-}" = --crates ]; then
    build crates
    exit
fi
targets/build.sh "$triple"
TILLERCLOVER_DIGEST=$(digest)
TILLERCLOVER_LIB=$root/target/lib/$triple/O3
TILLERCLOVER_ARCHIVE_SHA256=$(sum target/staticlib/libterminal.a)
TILLERCLOVER_WASM_SHA256=$(sum "$TILLERCLOVER_LIB/libterminal.a")
TILLERCLOVER_TOOLCHAIN=$(rt version | head -n 1)
export TILLERCLOVER_DIGEST TILLERCLOVER_LIB TILLERCLOVER_ARCHIVE_SHA256 TILLERCLOVER_WASM_SHA256 TILLERCLOVER_TOOLCHAIN
build tillerclover-page
cp "$out/cargo/$triple/release/tillerclover_page.wasm" "$out/tillerclover-page.wasm"
python3 page/build.py "$out/tillerclover-page.wasm" "$out/tillerclover.html"
packaging/kit.sh --sources-of-page >"$out/sources"
