/* The stack's side in a front: the endpoint, the sessions, and the clients whose records the core has. */
#ifndef SERVER_H
#define SERVER_H

#include <coap3/coap.h>

#include "keys.h"
#include "message.h"
#include "recent.h"
#include "sessions.h"
#include "unacknowledged.h"
#include "waiting.h"

struct server {
    bool secure;
    /* the socket to the core, and the endpoint's */
    int core, endpoint;
    coap_context_t *context;
    struct keys keys;
    /* how often they have changed */
    unsigned key_changes;
    struct sessions sessions;
    struct recent recent;
    struct unacknowledged unacknowledged;
    struct waiting waiting;
    uint32_t ticket;
    /* the core did not hear what it must */
    bool over;
    /* a message of the core that came in the middle of a request */
    struct message held;
    bool holds;
    /* steady milliseconds: the last sign of life; and whether the core has not answered it yet */
    int64_t pulse;
    bool unheard;
    /* lines for the log that may come before the next one */
    int notes;
};

/* Reads the key file and opens the endpoint over DTLS, or in clear where there is none, -1. A file that is no key file
 * and a port that is in use end the program. */
void server_open(struct server *s, int core, int keys, const char *address, const char *port);

/* Hears what the core has said, and sends the answers. False: the core is gone, or does not listen. */
bool server_hear(struct server *s);

/* Reads a datagram; a request in it goes to the core. False: there is none. */
bool server_read(struct server *s);

/* What is due by now: repeated answers, sessions that are over, a sign of life for the core. */
void server_tend(struct server *s);

void server_close(struct server *s);

#endif
