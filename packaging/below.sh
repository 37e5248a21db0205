# shellcheck shell=bash
# Which crates a crate is on, and where the toolchain is: for scripts that prove, or say or copy what is proved. To be read in at the
# repository's root.

# crates: the names of all
crates() { sed -nE 's/^([a-z][a-z0-9_]*)( staticlib)?:.*/\1/p' crates.txt; }

# named CRATE: those that its line names
named() { sed -nE "s/^$1( staticlib)?://p" crates.txt; }

# below CRATE: the crate and all that it depends on, each once
below() {
    local crate=$1 found=" $1 " name ahead=("$1")
    while [ "${#ahead[@]}" -gt 0 ]; do
        crate=${ahead[0]} ahead=("${ahead[@]:1}")
        echo "$crate"
        for name in $(named "$crate"); do
            [[ $found == *" $name "* ]] || { found+="$name " && ahead+=("$name"); }
        done
    done
}

# kit: the folder of the toolchain, in whose bin/ the command rt is
kit() {
    local rt
    rt=$(command -v rt) || {
        echo "The toolchain's command rt is not on the path. It comes with the Rattle kit that packaging/KIT names: unpack the kit, and" >&2
        echo "put its folder bin on the path. A release has the archive ready, and needs no rt: docs/INTEGRATION.md." >&2
        return 2
    }
    dirname "$(dirname "$(readlink -f "$rt")")"
}
