/* The DTLS sessions that have shown their key: a few for each credential, which nobody else can push out. */
#ifndef SESSIONS_H
#define SESSIONS_H

#include <coap3/coap.h>
#include <stdbool.h>

#include "keys.h"

enum {
    SESSIONS_EACH = 4,
    /* one more, which is there for the moment in which it takes the oldest one's place */
    SESSIONS = KEYS_MOST * SESSIONS_EACH + 1
};

struct sessions {
    /* the oldest first; each is referenced, so that libcoap does not take it for idle */
    coap_session_t *list[SESSIONS];
    size_t length;
};

/* The credential that a session's key belongs to; 0 for a session without one. */
unsigned sessions_sender(const coap_session_t *session);

/* The identity that the client names, and how often the keys had changed by then. The first one of a session is its only
 * one: with the key of one credential nobody is to speak for another. */
bool sessions_name(coap_session_t *session, unsigned sender, unsigned changes);

/* Whether the session has shown its key. */
bool sessions_shown(const coap_session_t *session);

/* The session has shown its key, unless the keys have changed since it named its identity: then it may be a key that is
 * no more, and the session must end. Gives the oldest of this credential, where it has one too many now: it must end. */
coap_session_t *sessions_add(struct sessions *s, coap_session_t *session, unsigned changes);

/* A session with this remote address, or NULL. */
coap_session_t *sessions_from(const struct sessions *s, const coap_address_t *remote);

/* Takes the session at this place off the list and ends it, where it has not ended already. */
void sessions_end(struct sessions *s, size_t place);

#endif
