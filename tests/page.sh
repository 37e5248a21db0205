#!/usr/bin/env bash
# Builds the page and tries it: twice the same, under node and in a real browser, compared with the command. A release runs it; the gate tries
# only the page's crate (tests/run.sh page), since the standard library of Rust is built here.
#
#     tests/page.sh                       all parts
#     tests/page.sh PART..                some: see ALL below
#     PICTURES=docs/pictures tests/page.sh browser      also takes the pictures of docs/PAGE.md
#
# What is missing is installed by apt-get. The last line counts the parts; a failure makes the script exit with 1.
set -uo pipefail
cd "$(dirname "$0")/.." || exit 2

ALL=(build same module browser glue)
root=$PWD
page=$root/target/page/tillerclover.html
module=$root/target/page/tillerclover-page.wasm
tool=$root/tool/target/debug/tillerclover
work=$(mktemp -d) || exit 2
trap 'rm -rf "$work"' EXIT

PACKAGES=(chromium chromium-driver python3-selenium nodejs clang wasi-libc gcc)
install() {
    local missing=() one
    for one in "${PACKAGES[@]}"; do
        dpkg -s "$one" >/dev/null 2>&1 || missing+=("$one")
    done
    # Rust 1.85 or later: of Debian 12 by these names, of Debian 13 without -web
    dpkg -s rust-web-src >/dev/null 2>&1 || dpkg -s rust-src >/dev/null 2>&1 || missing+=(rustc-web cargo-web rust-web-src)
    [ "${#missing[@]}" -eq 0 ] && return
    echo "missing: installing ${missing[*]}"
    (flock 9 && apt-get update && { apt-get install -y --no-install-recommends "${missing[@]}" ||
        apt-get install -y --no-install-recommends "${missing[@]//-web/}"; }) >"$work/apt" 2>&1 9>/tmp/tillerclover.apt && return
    tail -n 5 "$work/apt"
    return 1
}

# Questions with the command's answers, made once.
questions() {
    [ -s "$work/questions.json" ] && return
    (cd tool && cargo build --config ../tests/debian.toml --quiet --offline) && tests/page/questions.py make "$tool" "${QUESTIONS:-500}" "${SEED:-$RANDOM}" "$work/questions.json"
}

part_build() { page/build.sh && packaging/kit.sh --page; }

# The sources in another folder, with the same archive, give the same page.
part_same() {
    local second=$work/second/of/it
    mkdir -p "$second/target/staticlib" "$second/target/lib" && cp -R answers page include targets packaging bench crates.txt "$second/" &&
        mkdir "$second/bindings" && cp -R bindings/rust "$second/bindings/" && rm -rf "$second/bindings/rust/target" &&
        cp target/staticlib/libterminal.a "$second/target/staticlib/" && cp target/lib/module.bc target/lib/archive.a "$second/target/lib/" || return 1
    ln -s "$root/crates" "$second/crates"
    "$second/page/build.sh" && cmp "$page" "$second/target/page/tillerclover.html"
}

part_module() {
    questions && node tests/page/module.mjs digest "$module" 20000 &&
        node tests/page/module.mjs answer "$module" "$work/questions.json" >"$work/answers.json" &&
        tests/page/questions.py compare "$work/questions.json" "$work/answers.json" &&
        node tests/page/module.mjs hostile "$module" "$work/questions.json" 5000
}

part_browser() { questions && /usr/bin/python3 tests/page/browser.py "$page" "$tool" "$work/questions.json" ${PICTURES:+"$PICTURES"}; }

# wrong FILE SED: the page with a script that is wrong in this way; the browser's test must notice
wrong() {
    rm -rf "$work/web" && cp -R page/web "$work/web" && sed -i "$2" "$work/web/$1" || return 1
    ! cmp -s "page/web/$1" "$work/web/$1" || { echo "glue: $2 changes nothing in $1" && return 1; }
    python3 page/build.py "$module" "$work/wrong.html" "$work/web" >/dev/null &&
        ! /usr/bin/python3 tests/page/browser.py "$work/wrong.html" "$tool" "$work/questions.json" >"$work/log" 2>&1 && return
    echo "glue: not noticed: $2 in $1"
    return 1
}

part_glue() {
    questions && wrong parts.js 's/clock: page.clock, /clock: page.clock + 86400, /' &&
        wrong rights.js 's/line.resources\[resource.name\]/line.resources[page.names.resources[(column + 1) % 13].name]/' &&
        wrong rights.js 's/{ of: sender, resource }/{ of: { kind: "clear" }, resource }/' && wrong start.js 's/  page.file = last.file;//'
}

install || exit 1
if [ $# -eq 0 ]; then
    set -- "${ALL[@]}"
fi
passed=0
failed=0
for part in "$@"; do
    [[ " ${ALL[*]} " == *" $part "* ]] || { echo "no part '$part'; the parts are: ${ALL[*]}" >&2 && exit 2; }
    if "part_$part"; then
        echo "PASS $part"
        passed=$((passed + 1))
    else
        echo "FAIL $part"
        failed=$((failed + 1))
    fi
done
echo "page: $passed passed, $failed failed"
[ "$failed" -eq 0 ]
