# Requests to the terminal with libcoap's coap-client, and the bodies they carry. To be sourced, by setup.sh and the tests.
# shellcheck shell=bash

CLIENT=${CLIENT:-coap-client-openssl}
HOST=${HOST:-127.0.0.1}
PORT=${PORT:-5683}
SECURE_PORT=${SECURE_PORT:-5684}
KEYS=${KEYS:-target/keys}
# seconds until a request without an answer is given up
PATIENCE=${PATIENCE:-5}

# ---- Bodies, in hexadecimal

uuid() { printf "$1%.0s" {1..16}; }     # uuid BYTE: sixteen such bytes
number() { printf '%04x' "$1"; }        # 16 bits
seconds() { printf '%08x' "$1"; }       # 32 bits
state() { printf '%02x' $(($1 << 5)); } # a target state

# cred NUMBER UUID [ROLE AUTHORITY]: a credential row of type 1
cred() { echo "$(number "$1")$2$(number "${3:-0}")$(number "${4:-0}")04"; }

# role AUTHORITY ROLE LAST: a role asserted until that second
role() { echo "$(number "$1")$(number "$2")$(seconds "$3")"; }

# by_role AUTHORITY ROLE, by_connection 0 or 1: subjects of access rows
by_role() { echo "$(uuid 00 | head -c 24)$(number "$1")$(number "$2")"; }
by_connection() { uuid 00 | head -c 31 && echo "$1"; }

# row NUMBER KIND PERMISSION SUBJECT RESOURCES [FIRST LAST]: an access row. KIND is 0 UUID, 1 role, 2 connection; RESOURCES
# are numbers with spaces between.
row() {
    local set=0 resource
    for resource in $5; do
        set=$((set | 1 << (63 - resource)))
    done
    printf '%04x%04x%016x%s' "$1" $(($2 << 14 | $3 << 9)) "$set" "$4"
    [ $# -eq 5 ] || printf '%08x%08x' "$6" "$7"
    echo
}

# ---- Requests

# percent HEX: bytes as coap-client takes them
# shellcheck disable=SC2001
percent() { sed 's/../%&/g' <<<"$1"; }

# address SENDER PATH FILE: sets `to`, coap-client's options for who sends and where to. SENDER is a credential number, or 0
# for a request in clear. The key is written into FILE, which coap-client reads: it is the key for a terminal that gives no hint, as
# this one does not. On the command line every user of the machine would see it.
address() {
    if [ "$1" -eq 0 ]; then
        to=("coap://$HOST:$PORT$2")
    else
        (umask 077 && echo ",$1,${KEY:-$(sed -n "s/^$1 //p" "$KEYS")}" >"$3")
        to=(-u "$1" -k none -h "$3" "coaps://$HOST:$SECURE_PORT$2")
    fi
}

# request SENDER METHOD PATH [BODY [OPTION..]]: prints the answer's code and contents, security resources' in hexadecimal;
# 'none' where no answer comes
request() {
    local sender=$1 method=$2 path=$3 body=${4:-} folder code to
    shift $(($# < 4 ? $# : 4))
    folder=$(mktemp -d) || return 1
    address "$sender" "$path" "$folder/key"
    code=$("$CLIENT" -v 6 -B "$PATIENCE" -m "$method" ${body:+-e "$(percent "$body")"} -o "$folder/reply" "$@" \
        "${to[@]}" 2>"$folder/refusal" | sed -nE 's/^v:1 t:[A-Z]+ c:([245]\.[0-9]+) .*/\1/p' | tail -n 1)
    case $code,$path in
    '',*) echo none ;;
    2.*,/oic/*) echo "$code $(od -An -v -tx1 "$folder/reply" 2>/dev/null | tr -d ' \n')" ;;
    2.*) echo "$code $(cat "$folder/reply" 2>/dev/null)" ;;
    *) sed -n '/^[45]\./p' "$folder/refusal" ;;
    esac
    rm -r "$folder"
}
