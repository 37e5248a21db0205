#include <string.h>

#include "clock.h"
#include "recent.h"

/* RFC 7252's EXCHANGE_LIFETIME, in milliseconds. */
enum {
    LIFETIME = 247000
};

struct recent_request recent_request_of(const coap_session_t *session, const tillerclover_record *record,
                                        const coap_pdu_t *request)
{
    coap_bin_const_t token = coap_pdu_get_token(request);
    struct recent_request r = {.from = *coap_session_get_addr_remote(session),
                               .mid = coap_pdu_get_mid(request),
                               .code = coap_pdu_get_code(request),
                               .token_length = token.length < sizeof r.token ? token.length : sizeof r.token,
                               .record = *record};
    memcpy(r.token, token.s, r.token_length);
    return r;
}

bool recent_same(const struct recent_request *a, const struct recent_request *b)
{
    return a->mid == b->mid && a->code == b->code && a->token_length == b->token_length &&
           memcmp(a->token, b->token, a->token_length) == 0 && a->record.length == b->record.length &&
           memcmp(a->record.bytes, b->record.bytes, a->record.length) == 0 && coap_address_equals(&a->from, &b->from);
}

/* The place of the oldest answer: of this sender, where it has as many as it may. */
static struct recent_answer *place_for(struct recent *r, unsigned sender)
{
    struct recent_answer *oldest = &r->list[0], *own = NULL;
    size_t many = 0;
    for (size_t i = 0; i < RECENT; i++) {
        struct recent_answer *a = &r->list[i];
        if (a->since < oldest->since) {
            oldest = a;
        }
        if (a->since != 0 && tillerclover_record_sender(a->request.record.bytes) == sender) {
            many++;
            own = own == NULL || a->since < own->since ? a : own;
        }
    }
    return many >= r->each ? own : oldest;
}

void recent_add(struct recent *r, const struct recent_request *request, const struct answer *answer)
{
    *place_for(r, tillerclover_record_sender(request->record.bytes)) =
        (struct recent_answer){clock_steady(), *request, *answer};
}

const struct answer *recent_find(const struct recent *r, const struct recent_request *request)
{
    int64_t since = clock_steady() - LIFETIME;
    for (size_t i = 0; i < RECENT; i++) {
        if (r->list[i].since > since && r->list[i].since != 0 && recent_same(&r->list[i].request, request)) {
            return &r->list[i].answer;
        }
    }
    return NULL;
}

void recent_forget(struct recent *r, const coap_address_t *from)
{
    for (size_t i = 0; i < RECENT; i++) {
        if (coap_address_equals(&r->list[i].request.from, from)) {
            r->list[i].since = 0;
        }
    }
}
