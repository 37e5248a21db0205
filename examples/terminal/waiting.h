/* The clients whose records the core has: each is found by its ticket when the answer comes. */
#ifndef WAITING_H
#define WAITING_H

#include <coap3/coap.h>

#include "keys.h"
#include "recent.h"

/* A client between its request and the core's answer. */
struct waiting_client {
    /* false: this entry is free */
    bool used;
    /* NULL: the client is gone, and the core still has its record. Referenced, so that libcoap leaves it alone. */
    coap_session_t *session;
    /* a copy, without the body */
    coap_pdu_t *request;
    struct recent_request key;
    uint32_t ticket;
    /* whether the request acts, so that its answer is remembered */
    bool acts;
};

/* For each sender one that waits for its turn, and one for what the core refuses at once. So a sender who asks for more
 * takes no other's. All in clear are one sender, as they are for the library. */
enum {
    WAITING_EACH = 2,
    WAITING = WAITING_EACH * KEYS_MOST
};

struct waiting {
    struct waiting_client list[WAITING];
};

/* How many records of this sender the core has. */
size_t waiting_many(const struct waiting *w, unsigned sender);

/* A free entry, or NULL. */
struct waiting_client *waiting_free(struct waiting *w);

/* The entry with this ticket, or NULL. */
struct waiting_client *waiting_find(struct waiting *w, uint32_t ticket);

/* Whether this very request waits already. */
bool waiting_has(const struct waiting *w, const struct recent_request *key);

/* Whether anybody waits beside this client. */
bool waiting_others(const struct waiting *w, const struct waiting_client *client);

/* Frees the entry, with what belongs to it: the core has answered. */
void waiting_release(struct waiting_client *client);

/* The clients of a session are gone, or all where it is NULL. Their records stay counted until the core has answered
 * them, so that nobody gets more of its records to the core by new sessions. */
void waiting_leave(struct waiting *w, const coap_session_t *session);

#endif
