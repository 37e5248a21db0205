/* The separate answers that ask for a receipt and have none yet: one for a session, and a bounded number in all.
 * libcoap repeats each of them for a minute and a half. */
#ifndef UNACKNOWLEDGED_H
#define UNACKNOWLEDGED_H

#include <coap3/coap.h>
#include <stdbool.h>
#include <stdint.h>

enum {
    UNACKNOWLEDGED = 64
};

struct unacknowledged {
    struct {
        /* NULL: free */
        const coap_session_t *session;
        coap_mid_t mid;
        /* steady milliseconds */
        int64_t sent;
    } list[UNACKNOWLEDGED];
};

/* Whether one more answer to this session may ask for a receipt. */
bool unacknowledged_room(const struct unacknowledged *u, const coap_session_t *session);

void unacknowledged_add(struct unacknowledged *u, const coap_session_t *session, coap_mid_t mid);

/* A receipt has come, from this address or through this session of OpenSSL's. */
void unacknowledged_receipt(struct unacknowledged *u, const coap_address_t *from, const void *tls, coap_mid_t mid);

/* The session is over. */
void unacknowledged_forget(struct unacknowledged *u, const coap_session_t *session);

#endif
