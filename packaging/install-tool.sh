#!/usr/bin/env bash
# Installs the command with its pages of the manual and its completions, which it writes itself.
#
#     packaging/install-tool.sh TOOL PREFIX    below PREFIX: bin, share/man/man1 and the shells' folders of completions
set -euo pipefail
tool=$(realpath "$1")
prefix=$2

install -D -m 755 "$tool" "$prefix/bin/tillerclover"
install -d "$prefix/share/man/man1" "$prefix/share/bash-completion/completions" "$prefix/share/zsh/vendor-completions" \
    "$prefix/share/fish/vendor_completions.d"
"$tool" completions bash >"$prefix/share/bash-completion/completions/tillerclover"
"$tool" completions zsh >"$prefix/share/zsh/vendor-completions/_tillerclover"
"$tool" completions fish >"$prefix/share/fish/vendor_completions.d/tillerclover.fish"

# page NAME WORD..: the page of a subcommand, or without words of the whole command
page() { "$tool" man "${@:2}" | gzip -9n >"$prefix/share/man/man1/$1.1.gz"; }
page tillerclover
# commands WORD..: the names of the subcommands
commands() { "$tool" "$@" --help | sed -n '/^Commands:/,/^$/s/^  \([a-z-]*\)  .*/\1/p' | grep -vx help; }
for word in $(commands); do
    page "tillerclover-$word" "$word"
done
for group in defaults journal list; do
    for word in $(commands $group); do
        page "tillerclover-$group-$word" $group "$word"
    done
done
