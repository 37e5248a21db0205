#include "waiting.h"

size_t waiting_many(const struct waiting *w, unsigned sender)
{
    size_t many = 0;
    for (size_t i = 0; i < WAITING; i++) {
        many += w->list[i].used && tillerclover_record_sender(w->list[i].key.record.bytes) == sender;
    }
    return many;
}

struct waiting_client *waiting_free(struct waiting *w)
{
    for (size_t i = 0; i < WAITING; i++) {
        if (!w->list[i].used) {
            return &w->list[i];
        }
    }
    return NULL;
}

struct waiting_client *waiting_find(struct waiting *w, uint32_t ticket)
{
    for (size_t i = 0; i < WAITING; i++) {
        if (w->list[i].used && w->list[i].ticket == ticket) {
            return &w->list[i];
        }
    }
    return NULL;
}

bool waiting_has(const struct waiting *w, const struct recent_request *key)
{
    for (size_t i = 0; i < WAITING; i++) {
        if (w->list[i].session != NULL && recent_same(&w->list[i].key, key)) {
            return true;
        }
    }
    return false;
}

bool waiting_others(const struct waiting *w, const struct waiting_client *client)
{
    for (size_t i = 0; i < WAITING; i++) {
        if (w->list[i].session != NULL && &w->list[i] != client) {
            return true;
        }
    }
    return false;
}

/* Releases what libcoap has of it. */
static void leave(struct waiting_client *client)
{
    coap_delete_pdu(client->request);
    coap_session_release(client->session);
    client->request = NULL;
    client->session = NULL;
}

void waiting_release(struct waiting_client *client)
{
    if (client->session != NULL) {
        leave(client);
    }
    *client = (struct waiting_client){0};
}

void waiting_leave(struct waiting *w, const coap_session_t *session)
{
    for (size_t i = 0; i < WAITING; i++) {
        if (w->list[i].session != NULL && (session == NULL || w->list[i].session == session)) {
            leave(&w->list[i]);
        }
    }
}
