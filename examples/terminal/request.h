/* A request of libcoap as a record, and an answer as a response. */
#ifndef REQUEST_H
#define REQUEST_H

#include <coap3/coap.h>

#include "answer.h"
#include "tillerclover_records.h"

/* `sender` is the credential number of the session's key, or 0 in clear. */
tillerclover_record request_record(const coap_resource_t *resource, unsigned sender, const coap_pdu_t *request);

/* Whether each option is one that the terminal serves, or may pass over. */
bool request_options_served(const coap_pdu_t *request);

/* Whether to do it twice is not the same as to do it once. */
bool request_acts(const coap_pdu_t *request);

/* Puts the answer into the response; contents in blocks where they are long. */
void request_answer(const coap_pdu_t *request, coap_pdu_t *response, const struct answer *a);

#endif
