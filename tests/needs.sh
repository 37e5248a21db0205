# shellcheck shell=bash disable=SC2154
# What the groups of tests/run.sh share: programs that must be there, the library, cargo and C. $root is the repository, $work a
# folder that goes when the tests end.

# have WHAT: a command, or a file
have() { command -v "$1" >/dev/null || [ -e "$1" ]; }

# get PACKAGE..: installs them, one call after the other where tests run side by side
get() {
    echo "missing: installing $*"
    (flock 9 && apt-get update && apt-get install -y --no-install-recommends "$@") >"$work/apt" 2>&1 9>/tmp/tillerclover.apt && return
    tail -n 5 "$work/apt"
    echo "apt-get could not install $*"
    return 1
}

# need WHAT PACKAGE: installs the package where the command or the file is missing
need() {
    have "$1" && return
    get "$2" && have "$1" && return
    echo "$1 is missing"
    return 1
}

# Rust 1.85 or later: of Debian 12 in cargo-web, since its cargo is older, and of Debian 13 in cargo.
need_cargo() {
    PATH=$PATH:$HOME/.cargo/bin
    have cargo || get cargo-web || get cargo
    need cargo cargo && need cc gcc
}

# need_component WORD NAME PACKAGE: the command 'cargo WORD', a component of rustup's toolchain or a package of Debian
need_component() {
    need_cargo || return 1
    cargo "$1" --version >/dev/null 2>&1 && return
    echo "missing: adding $2"
    { have rustup && rustup component add "$2"; } >"$work/component" 2>&1 || get "$3"
    cargo "$1" --version >/dev/null 2>&1 && return
    echo "cargo $1 is missing, and neither rustup nor apt-get could add it"
    return 1
}

# The crates that the answers and the tool need, from Debian's packages.
CRATES=(chrono chrono-tz clap clap_complete crc32fast indicatif libc serde serde_json sha2 strsim tabwriter tempfile toml)
need_crates() {
    local crate packages=()
    for crate in "${CRATES[@]}"; do
        compgen -G "/usr/share/cargo/registry/$crate-[0-9]*" >/dev/null || packages+=("librust-${crate//_/-}-dev")
    done
    need_cargo && { [ "${#packages[@]}" -eq 0 ] || get "${packages[@]}"; }
}

# What the example terminal is linked with.
need_coap() { need /usr/include/coap3/coap.h libcoap3-dev && need /usr/include/openssl/ssl.h libssl-dev; }

# need_schema: CycloneDX's own schema; $schema is its folder, empty where it cannot be had. Debian 13 has it in python3-cyclonedx-lib. An
# older Debian takes the package from there, by the signature of its archive, and unpacks it here: nothing is installed.
need_schema() {
    local own="$work/debian-13" from_13 package=python3-cyclonedx-lib
    from_13=(-o "Dir::Etc::SourceList=$own/sources" -o Dir::Etc::SourceParts=/dev/null -o "Dir::State::Lists=$own/lists" -o "Dir::Cache=$own/cache")
    schema=$work/cyclonedx/usr/lib/python3/dist-packages/cyclonedx/schema/_res
    mkdir -p "$own/lists/partial" "$own/cache/archives/partial" &&
        echo "deb [signed-by=/usr/share/keyrings/debian-archive-keyring.gpg] http://deb.debian.org/debian trixie main" >"$own/sources" || return 1
    if python3 -c 'import jsonschema' 2>/dev/null || get python3-jsonschema; then
        (cd "$work" && { apt-get download $package || { timeout 120 apt-get "${from_13[@]}" update && apt-get "${from_13[@]}" download $package; }; } &&
            dpkg-deb -x $package*.deb cyclonedx) >"$work/apt" 2>&1
    fi
    [ ! -e "$schema/bom-1.5.SNAPSHOT.schema.json" ] || return 0
    schema=
    echo "CycloneDX's own schema cannot be had here: the SBOM is compared with packaging/cyclonedx.json alone"
}

# log COMMAND..: runs it, and shows what it wrote only where it fails
log() {
    "$@" >"$work/log" 2>&1 && return
    tail -n 40 "$work/log"
    echo "failed: $*"
    return 1
}

# The archive and the program are built from today's sources; rt proves the archive's crate each time, so once is enough.
# LIBRARY_BUILT says that the caller has built both.
library_built=${LIBRARY_BUILT-}
library() {
    [ -n "$library_built" ] || log packaging/library.sh || return 1
    library_built=yes
}
run_program() { [ -n "${LIBRARY_BUILT-}" ] || log packaging/program.sh; }

in_model() { (cd model && "$@"); }
in_binding() { (cd bindings/rust && "$@"); }
in_answers() { (cd answers && "$@"); }
in_tool() { (cd tool && "$@"); }
in_page() { (cd page && "$@"); }
# in_package COMMAND..: in the binding as it is packaged, with nothing of the repository but the archive
packaged=$root/bindings/rust/target/packaged
in_package() { (cd "$packaged/tillerclover-0.1.0" && TILLERCLOVER_LIB=$root/target/staticlib CARGO_TARGET_DIR=$packaged/target "$@"); }

# tool_cargo COMMAND..: cargo on the tool, and with --workspace on the answers too, with Debian's crates; a lock file of other crates
# is none for these. The options follow the command, since clippy passes on only those
tool_cargo() { (cd tool && rm -f Cargo.lock && cargo "$1" --config ../tests/debian.toml --quiet --offline "${@:2}"); }

# c_program NAME FLAG.. FILE..: a C program over the library, without a warning
c_program() {
    log cc -std=c11 -Wall -Wextra -Wpedantic -Wconversion -Werror -Iinclude "${@:2}" target/staticlib/libterminal.a -o "$work/$1"
}

# compiles LANGUAGE TEXT: the compiler takes the text after the headers without a warning, also for 32 bits
compiles() {
    local compiler=cc bits
    [[ $1 != c++* ]] || compiler=c++
    for bits in "-m64" "-m32 -ffreestanding"; do
        # shellcheck disable=SC2086
        printf '#include "tillerclover.h"\n%s\n' "$2" |
            "$compiler" $bits -std="$1" -Wall -Wextra -Wpedantic -Wconversion -Wcast-qual -Werror -Iinclude -x "${compiler/cc/c}" -S -o /dev/null - \
                >"$work/log" 2>&1 || return
    done
}
