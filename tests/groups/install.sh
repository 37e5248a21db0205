# shellcheck shell=bash disable=SC2154
# What `make install` wrote is enough for a project outside the repository, in C by pkg-config, by CMake and in Rust. So is what
# `make dist` and `make deb` wrote. INSTALL_ARCHIVE names another archive than the repository's.
# touched by: crates/* crates.txt include/* bindings/rust/* answers/* tool/* packaging/* debian/* Makefile tests/install/*

test_install() {
    need cc gcc && need make make && need pkg-config pkg-config && need cmake cmake && need_crates && need_coap && need python3 python3 && need pandoc pandoc || return 1
    [ -n "${INSTALL_ARCHIVE-}" ] || library || return 1
    local archive=${INSTALL_ARCHIVE:-target/staticlib/libterminal.a} prefix="$work/prefix" outside="$work/outside"
    log tool_of "$archive" && by_target "$archive" || return 1
    touch "$archive" && cp -R tests/install "$outside" && sed -i "s|@BINDING@|$root/bindings/rust|" "$outside/Cargo.toml" || return 1
    log make install PREFIX="$prefix" ARCHIVE="$archive" LIBRARIES=- &&
        log outside_c "$prefix/lib" "$outside" && log diff - "$work/text" <<<"interface 2000, format 1, state 1, answer 8, not permitted" &&
        log cmake -S "$outside" -B "$outside/build" -DCMAKE_PREFIX_PATH="$prefix" && log cmake --build "$outside/build" &&
        log "$outside/build/outside" &&
        log env TILLERCLOVER_LIB="$prefix/lib" cargo run --quiet --offline --manifest-path "$outside/Cargo.toml" || return 1
    staged "$archive" && released "$archive" "$outside" && packaged_deb "$archive"
}

# by_target ARCHIVE: $work/libraries represents what `make targets` writes, which another test may be writing meanwhile
by_target() {
    local triple
    for triple in x86_64-unknown-linux-gnu thumbv7em-none-eabi; do
        mkdir -p "$work/libraries/$triple/O3" && cp "$1" "$work/libraries/$triple/O3/" || return 1
    done
    mkdir -p "$work/libraries/wasm32-unknown-unknown/O3" && echo "a module" >"$work/libraries/wasm32-unknown-unknown/O3/terminal.wasm" || return 1
    echo "a file of the build" >"$work/libraries/module.bc" && echo "the page" >"$work/page.html"
}

# staged ARCHIVE: a staged installation keeps its prefix, has the archives by target, and leaves none after `make uninstall`; archives
# of other sources are not installed
staged() {
    local stage="$work/stage" words=(PREFIX=/usr DESTDIR="$work/stage" ARCHIVE="$1" LIBRARIES="$work/libraries")
    log make install "${words[@]}" && log make install-tool "${words[@]}" TOOL=tool/target/debug/tillerclover && log make install-docs "${words[@]}" &&
        log tests/links.py "$stage/usr/share/doc/tillerclover/html" && log grep -qx 'prefix=/usr' "$stage/usr/lib/pkgconfig/tillerclover.pc" &&
        log cmp "$1" "$stage/usr/lib/tillerclover/thumbv7em-none-eabi/O3/libtillerclover.a" &&
        log cmp "$work/libraries/wasm32-unknown-unknown/O3/terminal.wasm" "$stage/usr/lib/tillerclover/wasm32-unknown-unknown/O3/tillerclover.wasm" &&
        log make uninstall "${words[@]}" && [ -z "$(find "$stage" -type f)" ] || { find "$stage" -type f && return 1; }
    echo >>"$work/libraries/x86_64-unknown-linux-gnu/O3/libterminal.a"
    ! make install "${words[@]}" >"$work/log" 2>&1 && grep -q "make targets renews it" "$work/log" && [ -z "$(find "$stage" -type f)" ] ||
        { echo "install: archives of other sources are installed" && return 1; }
    cp "$1" "$work/libraries/x86_64-unknown-linux-gnu/O3/libterminal.a"
}

# tool_of ARCHIVE: the tool, linked with this archive
tool_of() { ([ -z "${INSTALL_ARCHIVE-}" ] || { TILLERCLOVER_LIB=$(realpath "$1") && export TILLERCLOVER_LIB; } && tool_cargo build); }

# make_release TARGET ARCHIVE: with the tool as the tests have it, and packages that are hardly compressed
make_release() {
    log make "$1" ARCHIVE="$2" LIBRARIES="$work/libraries" PAGE="$work/page.html" TOOL=tool/target/debug/tillerclover CARGOFLAGS="--offline --config ../tests/debian.toml" DEBFLAGS="-Zxz -z0"
}

# of_one_build TOOL ARCHIVE: the command prints the sum of the archive
of_one_build() {
    "$1" --version | grep -qF "$(sha256sum "$2" | cut -d ' ' -f 1)" || { echo "install: the command is not of this archive" && return 1; }
}

# released ARCHIVE FOLDER: `make dist` twice gives the same, and its archive serves where it is unpacked
released() {
    local release
    rm -rf target/dist && make_release dist "$1" && release=$(echo target/dist/*.tar.gz) && cp "$release" "$work/first.tar.gz" &&
        make_release dist "$1" && log cmp "$release" "$work/first.tar.gz" &&
        tar -xf "$release" -C "$work" && release=$work/$(basename "$release" .tar.gz) &&
        (cd "$release" && log sha256sum --quiet --check SHA256SUMS) && log outside_c "$release/lib" "$2" &&
        log cmp "$1" "$release/lib/tillerclover/thumbv7em-none-eabi/O3/libtillerclover.a" && [ ! -e "$release/lib/module.bc" ] &&
        log cmp "$release/include/tillerclover.h" "$release/bindings/rust/include/tillerclover.h" &&
        log cmp "$work/page.html" "$release/tillerclover.html" && log tests/links.py "$release/docs/html" &&
        of_one_build "$release/bin/tillerclover" "$release/lib/libtillerclover.a" && bill_of "$release/sbom.json" 'libtillerclover\.a' tillerclover clap terminal 'libcoap3(t64)?' 'libssl3(t64)?' libc6 &&
        log make -C "$release/examples/terminal" INCLUDE=../../include ARCHIVE=../../lib/libtillerclover.a OUT="$work" CFLAGS=-O0
}

# bill_of FILE NAME..: what the programs are made of fits the schema, CycloneDX's own too, and has components of these names; a spoilt one
# is noticed
bill_of() {
    local name
    need_schema && log packaging/sbom.py --check "$1" ${schema:+"$schema"} || return 1
    # two licences, of which one is an expression, are against only the standard
    sed '0,/"licenses": \[/s//"licenses": [{"expression": "MIT"},/' "$1" >"$work/spoilt.json"
    packaging/sbom.py --check "$work/spoilt.json" && { [ -z "$schema" ] || ! packaging/sbom.py --check "$work/spoilt.json" "$schema" 2>/dev/null; } ||
        { echo "install: CycloneDX's own schema is not asked" && return 1; }
    for name in "${@:2}"; do
        grep -qE "\"name\": \"$name\"" "$1" || { echo "install: the SBOM has no $name" && return 1; }
    done
    for name in '/"specVersion"/d' 's/"SHA-256"/"MD5"/' 's/"ref": "program:[a-z]*"/"ref": "another"/' '/"licenses": \[/,/\]/c "licenses": []'; do
        sed "$name" "$1" >"$work/spoilt.json"
        ! packaging/sbom.py --check "$work/spoilt.json" 2>/dev/null || { echo "install: the SBOM may be spoilt by $name" && return 1; }
    done
}

# The owner's to fill in: name and address of the maintainer.
OWNERS=bogus-mail-host,bogus-mail-host-in-debian-changelog,no-phrase

# packaged_deb ARCHIVE: `make deb` twice gives the same, and lintian finds no error but the owner's. Installed below a folder with a
# database of its own, tried as Debian would, and purged
packaged_deb() {
    local debs dpkg=(dpkg --root="$work/debian" --force-not-root --force-architecture --force-depends) usr="$work/debian/usr" doc="$work/debian/usr/share/doc"
    need dh debhelper && need lintian lintian || return 1
    mkdir -p "$work/debian/var/lib/dpkg/info" "$work/debian/var/lib/dpkg/updates" "$work/debian/var/lib/dpkg/triggers" "$work/debs" &&
        touch "$work/debian/var/lib/dpkg/status" &&
        make_release deb "$1" && debs=(target/deb/*.deb) && cp "${debs[@]}" "$work/debs" && make_release deb "$1" &&
        log cmp "${debs[0]}" "$work/debs/$(basename "${debs[0]}")" && log cmp "${debs[1]}" "$work/debs/$(basename "${debs[1]}")" &&
        log lintian --allow-root --fail-on error --suppress-tags "$OWNERS" "${debs[@]}" &&
        log "${dpkg[@]}" --install "${debs[@]}" &&
        log env PATH="$usr/bin:$PATH" debian/tests/command &&
        log env PKG_CONFIG_SYSROOT_DIR="$work/debian" PKG_CONFIG_PATH="$usr/lib/x86_64-linux-gnu/pkgconfig" CMAKE_PREFIX_PATH="$usr" debian/tests/library &&
        of_one_build "$usr/bin/tillerclover" "$usr/lib/x86_64-linux-gnu/libtillerclover.a" && log cmp "$1" "$usr/lib/x86_64-linux-gnu/libtillerclover.a" &&
        log bash -n "$usr/share/bash-completion/completions/tillerclover" &&
        gzip -dc "$usr/share/man/man1/tillerclover-why.1.gz" | grep -q '^\.TH TILLERCLOVER-WHY 1' &&
        gzip -dc "$usr/share/man/man3/tillerclover_judge.3.gz" | grep -q '^\.TH TILLERCLOVER_JUDGE 3' &&
        log tests/links.py "$doc/libtillerclover-dev/html" &&
        bill_of "$doc/tillerclover/sbom.json" 'libtillerclover\.a' tillerclover clap libc6 &&
        log cmp "$work/page.html" "$usr/share/tillerclover/tillerclover.html" &&
        log "${dpkg[@]}" --purge libtillerclover-dev tillerclover && [ -z "$(find "$usr" -type f 2>/dev/null)" ]
}

# outside_c LIB FOLDER: the C program by what pkg-config says of the installation with this folder of libraries; its text goes to $work/text
outside_c() {
    local flags
    read -ra flags < <(PKG_CONFIG_PATH="$1/pkgconfig" pkg-config --cflags --libs tillerclover) || return 1
    cc -std=c11 -Wall -Wextra -Wpedantic -Werror "$2/main.c" "${flags[@]}" -o "$2/by-pkg-config" && "$2/by-pkg-config" >"$work/text"
}
