# shellcheck shell=bash disable=SC2154
# What the tests of C and of packages need is there: the gate installs it while the proofs run.
# touched by: tests/groups/packages.sh targets/test.sh

test_packages() {
    need cc gcc && need c++ g++ && need make make && need pkg-config pkg-config && need cmake cmake && need dh debhelper && need lintian lintian && need_coap &&
        need coap-client-openssl libcoap3-bin && need openssl openssl && need pandoc pandoc && log targets/test.sh --install
}
