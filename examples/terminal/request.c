#include "request.h"
#include "directory.h"

/* ---- The record */

/* FETCH, PATCH and iPATCH have the numbers that are no verb; the library says so. */
static unsigned verb_of(const coap_pdu_t *request)
{
    coap_opt_iterator_t i;
    coap_opt_t *observe = coap_check_option(request, COAP_OPTION_OBSERVE, &i);
    switch (coap_pdu_get_code(request)) {
    case COAP_REQUEST_CODE_GET:
        /* observe 1 ends an observation, and asks like a plain GET */
        return observe && coap_decode_var_bytes(coap_opt_value(observe), coap_opt_length(observe)) == 0
                   ? TILLERCLOVER_OBSERVE
                   : TILLERCLOVER_RETRIEVE;
    case COAP_REQUEST_CODE_POST:
        return TILLERCLOVER_UPDATE;
    case COAP_REQUEST_CODE_PUT:
        return TILLERCLOVER_CREATE;
    case COAP_REQUEST_CODE_DELETE:
        return TILLERCLOVER_DELETE;
    default:
        return coap_pdu_get_code(request) & 7u;
    }
}

tillerclover_record request_record(const coap_resource_t *resource, unsigned sender, const coap_pdu_t *request)
{
    const struct resource *entry = coap_resource_get_userdata((coap_resource_t *)(uintptr_t)resource);
    const uint8_t *body = NULL;
    size_t length = 0;
    coap_get_data(request, &length, &body);
    return tillerclover_record_of(verb_of(request), sender != 0 ? TILLERCLOVER_AUTH_CRYPT : TILLERCLOVER_ANON_CLEAR,
                                  entry ? (unsigned)entry->number : DIRECTORY_NONE, sender, body, length);
}

bool request_options_served(const coap_pdu_t *request)
{
    /* All others ask for more than a record can say, or make libcoap answer by itself. */
    static const uint16_t SERVED[] = {COAP_OPTION_URI_HOST, COAP_OPTION_ETAG,      COAP_OPTION_OBSERVE,
                                      COAP_OPTION_URI_PORT, COAP_OPTION_URI_PATH,  COAP_OPTION_CONTENT_FORMAT,
                                      COAP_OPTION_MAXAGE,   COAP_OPTION_URI_QUERY, COAP_OPTION_ACCEPT,
                                      COAP_OPTION_BLOCK2,   COAP_OPTION_SIZE2,     COAP_OPTION_NORESPONSE};
    coap_opt_iterator_t i;
    coap_option_iterator_init(request, &i, COAP_OPT_ALL);
    while (coap_option_next(&i) != NULL) {
        bool served = false;
        for (size_t k = 0; k < sizeof SERVED / sizeof *SERVED; k++) {
            served = served || i.number == SERVED[k];
        }
        if (!served) {
            return false;
        }
    }
    return true;
}

bool request_acts(const coap_pdu_t *request)
{
    return coap_pdu_get_code(request) != COAP_REQUEST_CODE_GET && coap_pdu_get_code(request) != COAP_REQUEST_CODE_FETCH;
}

/* ---- The answer */

static void put_number(coap_pdu_t *response, coap_option_num_t option, unsigned number)
{
    uint8_t bytes[4];
    coap_add_option(response, option, coap_encode_var_safe(bytes, sizeof bytes, number), bytes);
}

/* Contents, in blocks where they are long: each block is asked for by a record of its own. */
static void put_contents(const coap_pdu_t *request, coap_pdu_t *response, const struct answer *a)
{
    coap_opt_iterator_t i;
    coap_opt_t *accept = coap_check_option(request, COAP_OPTION_ACCEPT, &i);
    if (accept && coap_decode_var_bytes(coap_opt_value(accept), coap_opt_length(accept)) != (unsigned)a->format) {
        coap_pdu_set_code(response, COAP_RESPONSE_CODE_NOT_ACCEPTABLE);
        return;
    }
    coap_add_data_blocked_response(request, response, (uint16_t)a->format, (int)a->max_age, a->length, a->bytes);
}

void request_answer(const coap_pdu_t *request, coap_pdu_t *response, const struct answer *a)
{
    if (a->code == 205 && a->length > 0) {
        put_contents(request, response, a);
        return;
    }
    coap_pdu_set_code(response, (coap_pdu_code_t)COAP_RESPONSE_CODE(a->code));
    if (a->format != ANSWER_DIAGNOSTIC && a->length > 0) {
        put_number(response, COAP_OPTION_CONTENT_FORMAT, (unsigned)a->format);
    }
    put_number(response, COAP_OPTION_MAXAGE, a->max_age);
    if (a->length > 0) {
        coap_add_data(response, a->length, a->bytes);
    }
}
