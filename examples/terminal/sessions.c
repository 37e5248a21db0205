#include <string.h>

#include "sessions.h"

/* What a session carries: its credential number, this bit when it has shown the key, and above it how often the keys had
 * changed when it was asked for one, as far as there is room. */
enum {
    SHOWN = 1 << 16,
    CHANGES_SHIFT = 17,
    CHANGES_MASK = 0x7FFF
};

static uintptr_t carried(const coap_session_t *session)
{
    return (uintptr_t)coap_session_get_app_data(session);
}

unsigned sessions_sender(const coap_session_t *session)
{
    return carried(session) & UINT16_MAX;
}

bool sessions_shown(const coap_session_t *session)
{
    return carried(session) & SHOWN;
}

bool sessions_name(coap_session_t *session, unsigned sender, unsigned changes)
{
    unsigned before = sessions_sender(session);
    if (before == 0) {
        uintptr_t now = sender | (uintptr_t)(changes & CHANGES_MASK) << CHANGES_SHIFT;
        coap_session_set_app_data(session, (void *)now);
    }
    return before == 0 || before == sender;
}

coap_session_t *sessions_add(struct sessions *s, coap_session_t *session, unsigned changes)
{
    coap_session_t *oldest = NULL;
    size_t many = 0;
    if (sessions_shown(session) || s->length == SESSIONS) {
        return NULL;
    }
    if (carried(session) >> CHANGES_SHIFT == (changes & CHANGES_MASK)) {
        coap_session_set_app_data(session, (void *)(carried(session) | SHOWN));
    }
    s->list[s->length++] = coap_session_reference(session);
    for (size_t i = s->length; i-- > 0;) {
        if (sessions_sender(s->list[i]) == sessions_sender(session)) {
            oldest = s->list[i];
            many++;
        }
    }
    return many > SESSIONS_EACH ? oldest : NULL;
}

coap_session_t *sessions_from(const struct sessions *s, const coap_address_t *remote)
{
    for (size_t i = 0; i < s->length; i++) {
        if (coap_address_equals(coap_session_get_addr_remote(s->list[i]), remote)) {
            return s->list[i];
        }
    }
    return NULL;
}

void sessions_end(struct sessions *s, size_t place)
{
    coap_session_t *session = s->list[place];
    s->length--;
    memmove(s->list + place, s->list + place + 1, (s->length - place) * sizeof *s->list);
    if (coap_session_get_state(session) == COAP_SESSION_STATE_ESTABLISHED) {
        coap_session_disconnected(session, COAP_NACK_NOT_DELIVERABLE);
    }
    coap_session_release(session);
}
