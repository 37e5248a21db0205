# shellcheck shell=bash disable=SC2154
# The example terminal over CoAP and DTLS, talked to by libcoap's client.
# touched by: crates/* crates.txt include/* examples/terminal/* tests/terminal* tests/attack* tests/*.[ch] tests/keys.py tests/wrong-terminals* tests/device.sh tests/journal* docs/JOURNAL.md

test_terminal() {
    need cc gcc && need make make && need_coap && need coap-client-openssl libcoap3-bin && need openssl openssl &&
        need python3 python3 && need prlimit util-linux && library && tests/terminal.sh
}
