#!/usr/bin/env bash
# Tests of what no proof covers: the library against the second model, the C interface, the programs on bad input.
#
#     tests/run.sh              all groups of tests/groups, one file each
#     tests/run.sh NAME..       some of them; an unknown name lists them all
#     tests/run.sh changed      those that a change since main can touch, for developers: the gate runs them all
#     tests/run.sh --list       their names
#
# The last line counts the groups that passed and failed; a failure makes the script exit with 1.
set -uo pipefail
cd "$(dirname "$0")/.." || exit 2

mapfile -t ALL < <(basename -s .sh tests/groups/*.sh)
root=$PWD
work=$(mktemp -d) || exit 2
trap 'rm -rf "$work"' EXIT

# The files that differ from main's, new ones too.
changed_files() {
    local main
    main=$(git merge-base HEAD origin/main 2>/dev/null || git merge-base HEAD main) || exit 2
    git diff --name-only "$main"
    git ls-files --others --exclude-standard
}

# touched GROUP FILE: the file is one of those that the group's line 'touched by' names
touched() {
    local patterns pattern
    read -ra patterns < <(sed -n 's/^# touched by: //p' "tests/groups/$1.sh")
    for pattern in "${patterns[@]}" "tests/groups/$1.sh" tests/run.sh tests/needs.sh; do
        # shellcheck disable=SC2053
        [[ $2 != $pattern ]] || return 0
    done
    return 1
}

# The groups that a changed file touches. A file of no group is said, and touches none.
changed_groups() {
    local file name none
    while read -r file; do
        none=yes
        for name in "${ALL[@]}"; do
            touched "$name" "$file" && echo "$name" && none=
        done
        [ -z "$none" ] || echo "$file: no group of tests is touched by it" >&2
    done < <(changed_files) | sort -u
}

case ${1-}$# in
--list1)
    printf '%s\n' "${ALL[@]}"
    exit
    ;;
changed1)
    mapfile -t names < <(changed_groups)
    echo "changed since main: ${names[*]:-nothing that a group tests}"
    ;;
*)
    [ $# -gt 0 ] || set -- "${ALL[@]}"
    names=("$@")
    ;;
esac
for name in "${names[@]}"; do
    if [[ " ${ALL[*]} " != *" $name "* ]]; then
        echo "no test '$name'; the tests are: ${ALL[*]}" >&2
        exit 2
    fi
done

# shellcheck source=tests/needs.sh
. tests/needs.sh
passed=0
failed=0
for name in "${names[@]}"; do
    # shellcheck source=/dev/null
    . "tests/groups/$name.sh"
    SECONDS=0
    if "test_$name"; then
        echo "PASS $name, $SECONDS s"
        passed=$((passed + 1))
    else
        echo "FAIL $name, $SECONDS s"
        failed=$((failed + 1))
    fi
done
echo "tests: $passed passed, $failed failed"
[ "$failed" -eq 0 ]
