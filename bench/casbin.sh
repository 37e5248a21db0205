#!/usr/bin/env bash
# Times another engine on the benchmark's access rows: Debian's casbin for Go, bench/casbin/rows.go. The gate does not run it.
#
#     bench/casbin.sh              builds and runs it
#     bench/casbin.sh --install    installs Go and casbin by apt-get first
set -euo pipefail
cd "$(dirname "$0")/.."

PACKAGES=(golang-go golang-github-casbin-casbin-dev)
SOURCES=/usr/share/gocode

case $#-${1-} in 0-) ;; 1---install)
    (flock 9 && apt-get update && apt-get install -y --no-install-recommends "${PACKAGES[@]}") 9>/tmp/tillerclover.apt >/dev/null
    ;;
*)
    echo "usage: bench/casbin.sh [--install]" >&2
    exit 2
    ;;
esac
if ! command -v go >/dev/null || [ ! -d "$SOURCES/src/github.com/casbin/casbin" ]; then
    echo "casbin.sh: Go or casbin is missing; --install installs ${PACKAGES[*]}" >&2
    exit 2
fi
mkdir -p target/bench
GO111MODULE=off GOPATH=$SOURCES GOCACHE=$PWD/target/bench/go GOFLAGS='' go build -o target/bench/casbin bench/casbin/rows.go
echo "versions: casbin $(dpkg-query -W -f '${Version}' golang-github-casbin-casbin-dev), $(go version | cut -d ' ' -f 3)"
target/bench/casbin
