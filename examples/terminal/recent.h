/* The answers of a while: a request that comes again because its answer was lost gets the same one, and is not done
 * twice (RFC 7252, 4.5). */
#ifndef RECENT_H
#define RECENT_H

#include <coap3/coap.h>

#include "answer.h"
#include "keys.h"
#include "tillerclover_records.h"

/* For each credential the latest ones, with room for as many credentials as can have a key; or in clear for all together. */
enum {
    RECENT_EACH_SECURE = 8,
    RECENT = RECENT_EACH_SECURE * KEYS_MOST,
    RECENT_EACH_CLEAR = RECENT
};

/* What tells a request from others. A client that starts again may begin with the same message id and token, so the
 * record counts too: nobody is told that another request was done. */
struct recent_request {
    coap_address_t from;
    coap_mid_t mid;
    coap_pdu_code_t code;
    size_t token_length;
    uint8_t token[8];
    tillerclover_record record;
};

struct recent_answer {
    /* steady milliseconds; 0: free */
    int64_t since;
    struct recent_request request;
    struct answer answer;
};

struct recent {
    size_t each;
    struct recent_answer list[RECENT];
};

struct recent_request recent_request_of(const coap_session_t *session, const tillerclover_record *record,
                                        const coap_pdu_t *request);
bool recent_same(const struct recent_request *a, const struct recent_request *b);

void recent_add(struct recent *r, const struct recent_request *request, const struct answer *answer);

/* The answer that the request got, or NULL. */
const struct answer *recent_find(const struct recent *r, const struct recent_request *request);

/* The session with this address is over, and with it its message ids (RFC 7252, 9.1.1). */
void recent_forget(struct recent *r, const coap_address_t *from);

#endif
