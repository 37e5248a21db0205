#!/usr/bin/env bash
# Sets up a new terminal as a yard, by coap-client: the first records in clear, the others as its owner over DTLS. A
# terminal that has an owner already refuses the first one; its clear button is SIGUSR1.
set -euo pipefail
cd "$(dirname "$0")/../.."
. examples/terminal/client.sh

OWNER=5 HAULIER=7 FOREMAN=20 CONTRACTOR=30 OFFICE=40

# permitted SENDER METHOD PATH BODY
permitted() {
    local answer
    answer=$(request "$@")
    [[ $answer == 2.* ]] || { echo "setup: $2 $3: $answer" >&2 && exit 1; }
}

# It may still be starting, or be built: where the library's archive is missing that takes minutes.
tries=0
until [[ $(PATIENCE=1 request 0 get /oic/sec/pstat) == [245].* ]]; do
    ((++tries < 600)) || { echo "setup: nobody answers on port $PORT" >&2 && exit 1; }
    sleep 1
done

# A new terminal belongs to nobody and takes records in clear: the owner's credential, then the owner.
permitted 0 post /oic/sec/cred "$(cred $OWNER "$(uuid 05)")"
permitted 0 post /oic/sec/doxm "80$(uuid 05)"

permitted $OWNER post /oic/sec/pstat "$(state 2)" # RFPRO
for partner in $HAULIER $FOREMAN $CONTRACTOR $OFFICE; do
    permitted $OWNER post /oic/sec/cred "$(cred "$partner" "$(uuid "$(printf '%02x' "$partner")")")"
done
# Anybody in clear reads /weight (8) and /lamp (12) and writes on /display (14).
permitted $OWNER post /oic/sec/acl2 "$(row 1 2 2 "$(by_connection 0)" '8 12')"
permitted $OWNER post /oic/sec/acl2 "$(row 2 2 6 "$(by_connection 0)" 14)"
# The haulier reads the weight, sets the tare (9), prints tickets (11) and sees /yard (16).
permitted $OWNER post /oic/sec/acl2 "$(row 3 0 15 "$(uuid 07)" '8 9 11 16')"
# Whoever shows role 7 of authority 2 sets zero (10) and the lamp.
permitted $OWNER post /oic/sec/acl2 "$(row 4 1 6 "$(by_role 2 7)" '10 12 16')"
# The contractor prints tickets from July to September 2026.
permitted $OWNER post /oic/sec/acl2 "$(row 5 0 7 "$(uuid 1e)" '11 16' 1782864000 1790812799)"
# The office reads everything.
permitted $OWNER post /oic/sec/acl2 "$(row 6 0 2 "$(uuid 28)" '8 9 10 11 12 13 16')"
permitted $OWNER post /oic/sec/pstat "$(state 3)" # RFNOP
echo "setup: the terminal is in normal operation"
