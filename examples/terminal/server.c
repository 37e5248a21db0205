/* A handler of libcoap cannot wait long for the core. Where others ask too, its response stays empty, so that libcoap
 * only says that the request has come, and the answer is sent when it is there ("separate response" in RFC 7252). A
 * sender who is alone gets the answer with the receipt ("piggybacked"). */
#include <errno.h>
#include <poll.h>
#include <stdio.h>
#include <string.h>
#include <unistd.h>

#include "clock.h"
#include "endpoint.h"
#include "fail.h"
#include "guard.h"
#include "request.h"
#include "server.h"

enum {
    /* Milliseconds that an answer may take and still go with the receipt */
    RECEIPT = 200,
    /* milliseconds between two signs of life, and lines for the log that may come between them */
    PULSE = 1000,
    NOTES = 20
};

/* ---- Lines for the log */

static void note(struct server *s, const coap_session_t *session, const char *words, unsigned number)
{
    char text[200], from[80] = "";
    if (s->notes > 0) {
        s->notes--;
        coap_print_addr(coap_session_get_addr_remote(session), (unsigned char *)from, sizeof from);
        snprintf(text, sizeof text, "%s %u, from %s", words, number, from);
        message_send(s->core, MESSAGE_NOTE, 0, text, strlen(text));
    }
}

/* Whoever waits in this session is gone. */
static void forget(struct server *s, const coap_session_t *session)
{
    waiting_leave(&s->waiting, session);
    unacknowledged_forget(&s->unacknowledged, session);
    recent_forget(&s->recent, coap_session_get_addr_remote(session));
}

/* ---- Answers */

static void remember(struct server *s, const struct waiting_client *w, const struct answer *a)
{
    if (w->acts) {
        recent_add(&s->recent, &w->key, a);
    }
}

/* The answer as a message of its own. It asks for a receipt if the request did, unless the client owes one already. */
static void send_answer(struct server *s, const struct waiting_client *w, const struct answer *a)
{
    coap_bin_const_t token = coap_pdu_get_token(w->request);
    bool receipt =
        coap_pdu_get_type(w->request) == COAP_MESSAGE_CON && unacknowledged_room(&s->unacknowledged, w->session);
    coap_pdu_t *response = coap_pdu_init(receipt ? COAP_MESSAGE_CON : COAP_MESSAGE_NON, 0,
                                         coap_new_message_id(w->session), coap_session_max_pdu_size(w->session));
    if (response == NULL) {
        return;
    }
    coap_add_token(response, token.length, token.s);
    request_answer(w->request, response, a);
    coap_mid_t mid = coap_send(w->session, response);
    if (receipt && mid != COAP_INVALID_MID) {
        unacknowledged_add(&s->unacknowledged, w->session, mid);
    }
}

static bool read_answer(const struct message *m, struct answer *a)
{
    size_t least = offsetof(struct answer, bytes);
    if (m->length < least || m->length > sizeof *a) {
        return false;
    }
    memcpy(a, m->body, m->length);
    return a->length == m->length - least;
}

static void answer_later(struct server *s, const struct message *m)
{
    struct waiting_client *w = waiting_find(&s->waiting, m->number);
    struct answer a;
    if (w == NULL || !read_answer(m, &a)) {
        return;
    }
    if (w->session != NULL) {
        remember(s, w, &a);
    }
    /* Where the session is over, libcoap would try to open it from this side. */
    if (w->session != NULL && coap_session_get_state(w->session) == COAP_SESSION_STATE_ESTABLISHED) {
        send_answer(s, w, &a);
    }
    waiting_release(w);
}

/* ---- What the core says */

static void end_session(struct server *s, coap_session_t *session)
{
    for (size_t i = 0; i < s->sessions.length; i++) {
        if (s->sessions.list[i] == session) {
            forget(s, session);
            sessions_end(&s->sessions, i);
            return;
        }
    }
}

/* The sessions of a credential are over. */
static void end_sessions(struct server *s, unsigned sender)
{
    for (size_t i = s->sessions.length; i-- > 0;) {
        if (sessions_sender(s->sessions.list[i]) == sender) {
            end_session(s, s->sessions.list[i]);
        }
    }
}

/* What the core must hear, or it waits for it for ever: a front that cannot say it ends. */
static void confirm(struct server *s, enum message_kind kind, uint32_t number, const void *body, size_t length)
{
    s->over = s->over || !message_send(s->core, kind, number, body, length);
}

/* Sessions whose key is no more, or is another, are over. */
static void take_keys(struct server *s, int file)
{
    static struct keys before;
    char error[KEYS_ERROR];
    uint8_t numbers[2 * KEYS_MOST];
    size_t length = 0;
    before = s->keys;
    if (!keys_read(&s->keys, file, error)) {
        explicit_bzero(&before, sizeof before);
        confirm(s, MESSAGE_NO_KEYS, 0, error, strlen(error));
        return;
    }
    s->key_changes++;
    for (size_t i = 0; i < before.length; i++) {
        unsigned number = before.list[i].number;
        const struct key *key = keys_of(&s->keys, number);
        if (key == NULL || strcmp(key->secret, before.list[i].secret) != 0) {
            end_sessions(s, number);
            numbers[length++] = (uint8_t)(number >> 8);
            numbers[length++] = (uint8_t)number;
        }
    }
    explicit_bzero(&before, sizeof before);
    confirm(s, MESSAGE_KEYS, (uint32_t)s->keys.length, numbers, length);
}

static void obey(struct server *s, const struct message *m)
{
    switch (m->kind) {
    case MESSAGE_ANSWER:
        answer_later(s, m);
        break;
    case MESSAGE_KEYS:
        take_keys(s, m->descriptor);
        break;
    case MESSAGE_END:
        end_sessions(s, m->number);
        confirm(s, MESSAGE_ENDED, m->number, NULL, 0);
        break;
    case MESSAGE_ALIVE:
        s->unheard = false;
        s->notes = NOTES;
        break;
    default:
        break;
    }
    if (m->descriptor >= 0) {
        close(m->descriptor);
    }
}

bool server_hear(struct server *s)
{
    static struct message m;
    if (s->holds) {
        s->holds = false;
        obey(s, &s->held);
    }
    for (;;) {
        switch (message_take(s->core, &m, true)) {
        case MESSAGE_CAME:
            obey(s, &m);
            break;
        case MESSAGE_NONE:
            return !s->over;
        default:
            return false;
        }
    }
}

/* ---- The handler of every resource and method */

/* Waits for the core's answer as long as nobody else asks. What else the core says is heard when the request is
 * through: it may end the session that libcoap is reading from. */
static const struct answer *await(struct server *s, const struct waiting_client *w)
{
    static struct answer a;
    struct pollfd both[2] = {{.fd = s->core, .events = POLLIN}, {.fd = s->endpoint, .events = POLLIN}};
    if (s->holds || waiting_others(&s->waiting, w) || poll(both, 2, RECEIPT) <= 0 || both[0].revents == 0 ||
        message_take(s->core, &s->held, true) != MESSAGE_CAME) {
        return NULL;
    }
    if (s->held.kind == MESSAGE_ANSWER && s->held.number == w->ticket && read_answer(&s->held, &a)) {
        return &a;
    }
    s->holds = true;
    return NULL;
}

static void handle_new(struct server *s, const struct recent_request *key, coap_session_t *session,
                       const coap_pdu_t *request, coap_pdu_t *response)
{
    coap_bin_const_t token = coap_pdu_get_token(request);
    const tillerclover_record *r = &key->record;
    if (waiting_many(&s->waiting, tillerclover_record_sender(r->bytes)) >= WAITING_EACH) {
        struct answer refusal = answer_refusal(TILLERCLOVER_OCCUPIED);
        request_answer(request, response, &refusal);
        return;
    }
    struct waiting_client *w = waiting_free(&s->waiting);
    coap_pdu_t *copy = w != NULL ? coap_pdu_duplicate(request, session, token.length, token.s, NULL) : NULL;
    if (copy == NULL || !message_send(s->core, MESSAGE_RECORD, ++s->ticket, r->bytes, r->length)) {
        /* That it is another record of this sender that waits would not be true. */
        struct answer refusal = answer_words(503, "the terminal cannot take the request now");
        refusal.max_age = 1;
        request_answer(request, response, &refusal);
        coap_delete_pdu(copy);
        return;
    }
    *w = (struct waiting_client){.used = true,
                                 .session = coap_session_reference(session),
                                 .request = copy,
                                 .key = *key,
                                 .ticket = s->ticket,
                                 .acts = request_acts(request)};
    const struct answer *a = await(s, w);
    if (a != NULL) {
        remember(s, w, a);
        request_answer(request, response, a);
        waiting_release(w);
    }
}

static void handle(coap_resource_t *resource, coap_session_t *session, const coap_pdu_t *request,
                   const coap_string_t *query, coap_pdu_t *response)
{
    struct server *s = coap_get_app_data(coap_session_get_context(session));
    tillerclover_record record = request_record(resource, sessions_sender(session), request);
    struct recent_request key = recent_request_of(session, &record, request);
    (void)query;
    if (s->secure && !sessions_shown(session)) {
        struct answer refusal = answer_words(401, "a session that has shown no key");
        request_answer(request, response, &refusal);
        return;
    }
    if (!request_options_served(request)) {
        struct answer refusal = answer_words(402, "an option that the terminal does not serve");
        request_answer(request, response, &refusal);
        return;
    }
    if (waiting_has(&s->waiting, &key)) {
        /* It comes again because the receipt was lost: only that is sent again. */
        return;
    }
    const struct answer *before = request_acts(request) ? recent_find(&s->recent, &key) : NULL;
    if (before != NULL) {
        request_answer(request, response, before);
    } else {
        handle_new(s, &key, session, request, response);
    }
}

/* ---- Sessions */

static const coap_bin_const_t *key_of(coap_bin_const_t *identity, coap_session_t *session, void *server)
{
    static coap_bin_const_t secret;
    struct server *s = server;
    const struct key *key = keys_find(&s->keys, identity->s, identity->length);
    if (key == NULL || !sessions_name(session, key->number, s->key_changes)) {
        note(s, session, key == NULL ? "an identity without a key" : "a second identity",
             key == NULL ? 0 : key->number);
        return NULL;
    }
    secret = (coap_bin_const_t){.length = strlen(key->secret), .s = (const uint8_t *)key->secret};
    return &secret;
}

static int on_event(coap_session_t *session, const coap_event_t event)
{
    /* How often a side of a handshake repeats itself, and an answer */
    enum {
        HANDSHAKE_TRIES = 2,
        ANSWER_TRIES = 4
    };
    struct server *s = coap_get_app_data(coap_session_get_context(session));
    coap_session_t *oldest;
    switch (event) {
    case COAP_EVENT_SERVER_SESSION_NEW:
        if (s->secure) {
            coap_session_set_max_retransmit(session, HANDSHAKE_TRIES);
        }
        break;
    case COAP_EVENT_DTLS_CONNECTED:
        coap_session_set_max_retransmit(session, ANSWER_TRIES);
        endpoint_settle(session);
        oldest = sessions_add(&s->sessions, session, s->key_changes);
        if (oldest != NULL) {
            end_session(s, oldest);
        }
        break;
    case COAP_EVENT_SERVER_SESSION_DEL:
        unacknowledged_forget(&s->unacknowledged, session);
        if (sessions_sender(session) != 0 && !sessions_shown(session)) {
            note(s, session, "a wrong key for credential", sessions_sender(session));
        }
        break;
    default:
        break;
    }
    return 0;
}

/* ---- Reading */

/* A client begins a session. Whoever has not returned its cookie is asked for it. A session that it has from before is
 * over: it has forgotten it, as after a loss of power. */
static bool hello_passes(struct server *s, const struct guard_hello *hello, const struct endpoint_arrival *arrival)
{
    const coap_address_t *from = &arrival->from;
    if (!guard_cookie_fits(hello, &from->addr.sa, from->size)) {
        uint8_t datagram[GUARD_VERIFY];
        guard_verify_request(hello, &from->addr.sa, from->size, datagram);
        endpoint_reply(s->endpoint, arrival, datagram, sizeof datagram);
        return false;
    }
    coap_session_t *before = sessions_from(&s->sessions, from);
    if (before != NULL && endpoint_began_with(before, hello->random)) {
        /* the beginning of that very session, once more */
        return false;
    }
    if (before != NULL) {
        end_session(s, before);
    }
    return true;
}

/* In a handshake the shortest enciphered record is the one that ends it, and that is longer than any overhead. */
static bool passes_secure(struct server *s, const uint8_t *datagram, size_t length,
                          const struct endpoint_arrival *arrival)
{
    struct guard_hello hello;
    const coap_session_t *session = sessions_from(&s->sessions, &arrival->from);
    switch (guard_hello(datagram, length, &hello)) {
    case GUARD_LATER:
        return guard_records(datagram, length, endpoint_overhead(session)) &&
               (session != NULL || guard_handshake(datagram, length));
    case GUARD_ENCIPHERED:
        return session != NULL && guard_records(datagram, length, endpoint_overhead(session));
    case GUARD_HELLO:
        return hello_passes(s, &hello, arrival);
    default:
        return false;
    }
}

static bool passes(struct server *s, const uint8_t *datagram, size_t length, const struct endpoint_arrival *arrival)
{
    if (s->secure) {
        return passes_secure(s, datagram, length, arrival);
    }
    enum guard_kind kind = guard_message(datagram, length);
    if (kind == GUARD_RECEIPT) {
        unacknowledged_receipt(&s->unacknowledged, &arrival->from, NULL, guard_message_id(datagram));
    }
    return kind != GUARD_NONE;
}

bool server_read(struct server *s)
{
    /* as much of a datagram as libcoap takes, and more */
    uint8_t datagram[2048];
    struct endpoint_arrival arrival;
    ssize_t length = endpoint_peek(s->endpoint, datagram, sizeof datagram, &arrival);
    if (length < 0 && (errno == EAGAIN || errno == EWOULDBLOCK)) {
        return false;
    }
    if (length < 0 || !passes(s, datagram, (size_t)length, &arrival)) {
        recv(s->endpoint, datagram, sizeof datagram, MSG_DONTWAIT);
    } else {
        coap_io_process(s->context, COAP_IO_NO_WAIT);
    }
    return true;
}

void server_tend(struct server *s)
{
    coap_tick_t now;
    for (size_t i = s->sessions.length; i-- > 0;) {
        coap_session_t *session = s->sessions.list[i];
        if (coap_session_get_state(session) != COAP_SESSION_STATE_ESTABLISHED || !sessions_shown(session)) {
            end_session(s, session);
        }
    }
    /* The core answers each sign of life before the next: so what lies before a core that is still is bounded, and
     * no line for the log takes a record's room. */
    if (!s->unheard && clock_steady() - s->pulse >= PULSE) {
        s->pulse = clock_steady();
        s->unheard = message_send(s->core, MESSAGE_ALIVE, 0, NULL, 0);
    }
    /* libcoap's own timers. This reads no datagram: those go through the guard. */
    coap_ticks(&now);
    coap_io_prepare_epoll(s->context, now);
}

/* ---- Opening */

void server_open(struct server *s, int core, int keys, const char *address, const char *port)
{
    char error[KEYS_ERROR];
    bool secure = keys >= 0;
    *s = (struct server){.secure = secure, .core = core, .pulse = clock_steady(), .notes = NOTES};
    if (secure && !keys_read(&s->keys, keys, error)) {
        fail("%s", error);
    }
    if (secure) {
        close(keys);
    }
    s->recent.each = secure ? RECENT_EACH_SECURE : RECENT_EACH_CLEAR;
    coap_startup();
    coap_prng(&s->ticket, sizeof s->ticket);
    s->context = endpoint_open(secure ? key_of : NULL, s, &s->unacknowledged, address, port, &s->endpoint);
    coap_set_app_data(s->context, s);
    coap_register_event_handler(s->context, on_event);
    endpoint_add_directory(s->context, handle);
}

void server_close(struct server *s)
{
    waiting_leave(&s->waiting, NULL);
    while (s->sessions.length > 0) {
        sessions_end(&s->sessions, s->sessions.length - 1);
    }
    coap_free_context(s->context);
    coap_cleanup();
}
