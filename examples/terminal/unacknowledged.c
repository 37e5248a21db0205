#include "unacknowledged.h"
#include "clock.h"

/* RFC 7252's MAX_TRANSMIT_WAIT, in milliseconds. */
enum {
    LIFETIME = 93000
};

bool unacknowledged_room(const struct unacknowledged *u, const coap_session_t *session)
{
    int64_t since = clock_steady() - LIFETIME;
    bool room = false;
    for (size_t i = 0; i < UNACKNOWLEDGED; i++) {
        bool used = u->list[i].session != NULL && u->list[i].sent > since;
        if (used && u->list[i].session == session) {
            return false;
        }
        room = room || !used;
    }
    return room;
}

void unacknowledged_add(struct unacknowledged *u, const coap_session_t *session, coap_mid_t mid)
{
    int64_t now = clock_steady();
    for (size_t i = 0; i < UNACKNOWLEDGED; i++) {
        if (u->list[i].session == NULL || u->list[i].sent <= now - LIFETIME) {
            u->list[i].session = session;
            u->list[i].mid = mid;
            u->list[i].sent = now;
            return;
        }
    }
}

void unacknowledged_receipt(struct unacknowledged *u, const coap_address_t *from, const void *tls, coap_mid_t mid)
{
    for (size_t i = 0; i < UNACKNOWLEDGED; i++) {
        const coap_session_t *session = u->list[i].session;
        if (session != NULL && u->list[i].mid == mid &&
            (from != NULL ? coap_address_equals(coap_session_get_addr_remote(session), from)
                          : coap_session_get_tls(session, NULL) == tls)) {
            u->list[i].session = NULL;
        }
    }
}

void unacknowledged_forget(struct unacknowledged *u, const coap_session_t *session)
{
    for (size_t i = 0; i < UNACKNOWLEDGED; i++) {
        if (u->list[i].session == session) {
            u->list[i].session = NULL;
        }
    }
}
