/* libcoap's context with one endpoint, set up so that the network gets as little of the stack as there is need of. */
#ifndef ENDPOINT_H
#define ENDPOINT_H

#include <coap3/coap.h>
#include <netinet/in.h>
#include <stdbool.h>
#include <sys/socket.h>

#include "unacknowledged.h"

/* Opens the endpoint: over DTLS where there is a function for the keys, in clear where that is NULL. Gives its socket.
 * A port that is in use ends the program. `unacknowledged` learns of the receipts that come over DTLS. */
coap_context_t *endpoint_open(coap_dtls_id_callback_t key_of, void *server, struct unacknowledged *unacknowledged,
                              const char *address, const char *port, int *socket);

/* Where a datagram came from, and the address of this machine that it was sent to, as the kernel says it. */
struct endpoint_arrival {
    coap_address_t from;
    _Alignas(struct cmsghdr) uint8_t to[CMSG_SPACE(sizeof(struct in6_pktinfo))];
    size_t to_length;
};

/* Looks at the next datagram, and leaves it there. Gives its length, or -1 with errno. */
ssize_t endpoint_peek(int socket, void *bytes, size_t room, struct endpoint_arrival *arrival);

/* Answers a datagram from the address that it was sent to: its sender listens to no other. */
void endpoint_reply(int socket, const struct endpoint_arrival *arrival, const void *bytes, size_t length);

/* Registers the handler for all paths and methods. */
void endpoint_add_directory(coap_context_t *context, coap_method_handler_t handle);

/* Sets a session up that has shown its key: libcoap makes the first one before OpenSSL's context can be set up. */
void endpoint_settle(coap_session_t *session);

/* Whether the session began with a ClientHello that had these random bytes. */
bool endpoint_began_with(const coap_session_t *session, const uint8_t *random);

/* The bytes that a record of this session has beside what it says. Of no session: the most that any has. */
size_t endpoint_overhead(const coap_session_t *session);

#endif
