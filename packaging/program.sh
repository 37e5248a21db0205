#!/usr/bin/env bash
# Proves the run program, and builds it: target/bin/run.
#
#     packaging/program.sh                  proves what has changed, by `rt run`, and runs it on the sample of crates/run
#     packaging/program.sh --after-ci       where `rt ci` has just passed, which proved, built and ran it: takes what it built
#
# Exit status: 0 where the program is proved.
set -euo pipefail
cd "$(dirname "$0")/.."

case ${1-}$# in
0) (cd crates/run && rt run <stdin >/dev/null) ;;
--after-ci1) [ -x crates/run/out/run ] || { echo "rt ci left no program in crates/run/out" >&2 && exit 1; } ;;
*)
    sed -n '2,/^set /{/^#/s/^# \{0,1\}//p}' packaging/program.sh >&2
    exit 2
    ;;
esac
mkdir -p target/bin
cp crates/run/out/run target/bin/run.new
mv target/bin/run.new target/bin/run
