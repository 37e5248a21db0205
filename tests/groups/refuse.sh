# shellcheck shell=bash disable=SC2154
# tests/refuse.sh tells apart an edit that is refused, an edit that changes nothing and an edit that does not fit.
# touched by: crates/text/* tests/refuse.sh tests/refused.py tests/edits.py

# where the gate has run `rt ci`, its libraries are taken
refuse() { tests/refuse.sh ${LIBRARY_BUILT:+--after-ci} "$@"; }

test_refuse() {
    local status
    printf 'file: src/lib.rt\nold: %s\nnew: // Another comment.\n' "$(head -n 1 crates/text/src/lib.rt)" >"$work/comment.edit"
    printf 'file: src/lib.rt\nold: this is not there\nnew: x\n' >"$work/absent.edit"
    log refuse text crates/text/must-fail/tens_lost.edit && grep -q 'Not proved: text::put_decimal' "$work/log" || return 1
    refuse text "$work/comment.edit" >/dev/null
    status=$?
    [ "$status" -eq 1 ] || { echo "refuse: a comment is changed, and the status is $status" && return 1; }
    refuse text "$work/absent.edit" >/dev/null 2>&1
    status=$?
    [ "$status" -eq 2 ] || { echo "refuse: a text that is not there, and the status is $status" && return 1; }
}
