#include <ctype.h>
#include <string.h>

#include "clock.h"
#include "core.h"
#include "directory.h"
#include "log.h"

enum {
    /* Milliseconds from a store to the next. Meanwhile records that may change the tables gather, so that memory is
     * written at most 40 times a second, whatever is sent; others are not kept waiting. */
    BETWEEN_STORES = 25
};

/* Messages of each front that are read before the next round. Reading is cheap beside a round with its store. The front
 * in clear speaks for one sender, so what it says without end takes little from the others. */
static const int MESSAGES[FRONTS] = {[FRONT_CLEAR] = 4, [FRONT_SECURE] = 64};

/* ---- The log */

_Static_assert((int)LOG_FRONTS == (int)FRONTS, "each front has lines of its own");

static enum log_kind kind_of(const uint8_t *record, unsigned number)
{
    unsigned verb = tillerclover_record_verb(record);
    if (number != TILLERCLOVER_PERMITTED || verb == TILLERCLOVER_RETRIEVE || verb == TILLERCLOVER_OBSERVE) {
        return LOG_READ;
    }
    return tillerclover_record_resource(record) < TILLERCLOVER_WEIGHT ? LOG_CHANGE : LOG_ACT;
}

static void report(const struct core *c, const uint8_t *record, size_t size, unsigned number, unsigned code)
{
    static const char *const VERBS[] = {"CREATE", "RETRIEVE", "UPDATE", "DELETE", "OBSERVE", "5", "6", "7"};
    unsigned sender = tillerclover_record_sender(record);
    if (c->verbose) {
        log_record(sender, kind_of(record, number), "%u %s %s, %zu bytes: %u %s, %u.%02u", sender,
                   VERBS[tillerclover_record_verb(record)], directory_path(tillerclover_record_resource(record)),
                   size - TILLERCLOVER_HEADER_LENGTH, number, answer_meaning(number), code / 100, code % 100);
    }
}

/* ---- Clients that wait */

static struct client *find(struct core *c, unsigned sender)
{
    for (size_t i = 0; i < TERMINAL_PLACES; i++) {
        if (c->clients[i].waits && c->clients[i].sender == sender) {
            return &c->clients[i];
        }
    }
    return NULL;
}

/* The library keeps one record of a sender, and of no more senders than there are places. */
static struct client *find_free(struct core *c)
{
    for (size_t i = 0; i < TERMINAL_PLACES; i++) {
        if (!c->clients[i].waits) {
            return &c->clients[i];
        }
    }
    return NULL;
}

static void answer(struct core *c, struct client *client, const struct answer *a)
{
    client->waits = false;
    fronts_say(&c->fronts, client->front, MESSAGE_ANSWER, client->ticket, a, answer_size(a));
}

static void answer_dropped(struct core *c, struct client *client)
{
    struct answer dropped = answer_refusal(TILLERCLOVER_NOTHING_WAITING);
    answer(c, client, &dropped);
}

/* Whoever has no answer after a round has lost its record, unless it is not handed in yet. */
static void answer_lost(struct core *c)
{
    for (size_t i = 0; i < TERMINAL_PLACES; i++) {
        if (c->clients[i].waits && !c->clients[i].held) {
            answer_dropped(c, &c->clients[i]);
        }
    }
}

/* ---- Sessions that are over */

/* A record of this credential that is not handed in yet came in a session that is over. */
static void drop_held(struct core *c, unsigned sender)
{
    struct client *client = find(c, sender);
    if (client != NULL && client->held) {
        journal_turned_away(&c->terminal.journal, &client->record, "session-over");
        answer_dropped(c, client);
    }
}

/* A front that was started again has no session of before. */
static void forget_lives_before(struct core *c)
{
    if (c->life != c->fronts.list[FRONT_SECURE].lives) {
        c->life = c->fronts.list[FRONT_SECURE].lives;
        memset(c->unconfirmed, 0, sizeof c->unconfirmed);
    }
}

/* The sessions of credentials whose rows are no more, or others: after the answers, which still go to them. */
static void end_sessions(struct core *c)
{
    for (size_t i = 0; i < c->terminal.ended_length; i++) {
        unsigned sender = c->terminal.ended[i];
        drop_held(c, sender);
        forget_lives_before(c);
        c->unconfirmed[sender]++;
        fronts_say(&c->fronts, FRONT_SECURE, MESSAGE_END, sender, NULL, 0);
    }
}

/* The front has ended the sessions of a credential. All that it passed before has come by now. */
static bool take_ended(struct core *c, int front, const struct message *m)
{
    if (front != FRONT_SECURE || m->length != 0 || m->number > UINT16_MAX || c->unconfirmed[m->number] == 0) {
        return false;
    }
    c->unconfirmed[m->number]--;
    return true;
}

/* The front has the keys, and has ended the sessions of these credentials: what is held of them came in those. */
static bool take_keys(struct core *c, int front, const struct message *m)
{
    if (front != FRONT_SECURE || c->fronts.new_keys < 0 || m->length % 2 != 0) {
        return false;
    }
    for (size_t i = 0; i < m->length; i += 2) {
        drop_held(c, (unsigned)m->body[i] << 8 | m->body[i + 1]);
    }
    fronts_settle_keys(&c->fronts, true);
    c->has_keys = true;
    c->keys = m->number;
    return true;
}

/* Text of a front's, without what could confuse a reader of the log. */
static const char *text_of(struct message *m)
{
    enum {
        LONGEST = 200
    };
    size_t length = m->length < LONGEST ? m->length : LONGEST;
    for (size_t i = 0; i < length; i++) {
        m->body[i] = isprint(m->body[i]) ? m->body[i] : '?';
    }
    m->body[length] = 0;
    return (const char *)m->body;
}

static bool take_no_keys(struct core *c, int front, struct message *m)
{
    if (front != FRONT_SECURE || c->fronts.new_keys < 0) {
        return false;
    }
    fronts_settle_keys(&c->fronts, false);
    log_say("%s; the keys stay as they were", text_of(m));
    return true;
}

/* ---- Hand-ins */

static void refuse(struct core *c, const struct client *from, unsigned number)
{
    struct answer refusal = answer_refusal(number);
    fronts_say(&c->fronts, from->front, MESSAGE_ANSWER, from->ticket, &refusal, answer_size(&refusal));
    report(c, from->record.bytes, from->record.length, number, refusal.code);
}

/* Whether the record asserts a role. */
static bool asserts(const uint8_t *record)
{
    return tillerclover_record_verb(record) == TILLERCLOVER_UPDATE &&
           tillerclover_record_resource(record) == TILLERCLOVER_ROLES;
}

/* A partner that asserts roles without end. */
static void refuse_assertion(struct core *c, const struct client *from)
{
    struct answer refusal = answer_words(503, "as many roles as a partner may assert in a day");
    journal_turned_away(&c->terminal.journal, &from->record, "assertions");
    refusal.max_age = 24 * 60 * 60 / ASSERTIONS_EACH_DAY;
    fronts_say(&c->fronts, from->front, MESSAGE_ANSWER, from->ticket, &refusal, answer_size(&refusal));
    if (c->verbose) {
        log_record(from->sender, LOG_READ, "%u UPDATE /oic/sec/roles: as many as a day has, 5.03", from->sender);
    }
}

/* Whether the record may change the tables. */
static bool may_store(const tillerclover_record *r)
{
    unsigned verb = tillerclover_record_verb(r->bytes);
    return verb != TILLERCLOVER_RETRIEVE && verb != TILLERCLOVER_OBSERVE &&
           tillerclover_record_resource(r->bytes) < TILLERCLOVER_WEIGHT;
}

/* The credential whose row the record may change, or 0: a change of cred has its number first. */
static unsigned target_of(const tillerclover_record *r)
{
    const uint8_t *body = r->bytes + TILLERCLOVER_HEADER_LENGTH;
    bool changes = may_store(r) && tillerclover_record_resource(r->bytes) == TILLERCLOVER_CRED &&
                   r->length >= TILLERCLOVER_HEADER_LENGTH + 2;
    return changes ? (unsigned)body[0] << 8 | body[1] : 0;
}

/* Whether a record may change the row of the other's sender. */
static bool changes_row_of(const struct client *a, const struct client *b)
{
    return b->sender != 0 && a->sender != b->sender && target_of(&a->record) == b->sender;
}

/* Not while it may change the tables, and they were stored a moment ago. Whoever has a key and no row is refused at
 * once, and takes no place. */
static bool is_due(const struct core *c, const struct client *client, int64_t now)
{
    return now >= c->next_store || !may_store(&client->record) || !terminal_knows(&c->terminal, client->sender);
}

/* Whether the record can be in the next round. A record is judged by its sender's row as it was when it came: so it is
 * in no round in which another may change that row. Of two such records the one that came first is taken first. */
static bool fits(const struct core *c, const struct client *client, int64_t now)
{
    for (size_t i = 0; i < TERMINAL_PLACES; i++) {
        const struct client *other = &c->clients[i];
        bool before = !other->held || (is_due(c, other, now) && other->order < client->order);
        if (other->waits && before && (changes_row_of(other, client) || changes_row_of(client, other))) {
            return false;
        }
    }
    return true;
}

/* Hands the record of a client in. False: it is refused, and answered. */
static bool hand_in(struct core *c, const struct client *client)
{
    enum tillerclover_answer number = terminal_hand_in(&c->terminal, &client->record);
    if (number != TILLERCLOVER_PERMITTED) {
        refuse(c, client, number);
    }
    return number == TILLERCLOVER_PERMITTED;
}

static void take_record(struct core *c, struct client *from)
{
    struct client *before = find(c, from->sender);
    struct client *place = before != NULL ? before : find_free(c);
    int64_t now = clock_steady();
    from->order = ++c->came;
    from->held = !is_due(c, from, now) || !fits(c, from, now);
    if (place == NULL || (before != NULL && (before->held || from->held))) {
        journal_turned_away(&c->terminal.journal, &from->record, "occupied");
        refuse(c, from, TILLERCLOVER_OCCUPIED);
    } else if (from->held || hand_in(c, from)) {
        /* A client of this sender that still waits has lost its record. */
        if (before != NULL) {
            answer_dropped(c, before);
        }
        *place = *from;
    }
}

/* A front states who sent a record. It is believed so far: in clear that is nobody, and over DTLS somebody. */
static bool is_record_of(int front, const struct message *m)
{
    if (m->length < TILLERCLOVER_HEADER_LENGTH || m->length > TILLERCLOVER_RECORD_ROOM) {
        return false;
    }
    bool crypt = tillerclover_record_connection(m->body) == TILLERCLOVER_AUTH_CRYPT;
    return front == FRONT_SECURE ? crypt && tillerclover_record_sender(m->body) != 0
                                 : !crypt && tillerclover_record_sender(m->body) == 0;
}

/* False: no front says this. */
static bool take(struct core *c, int front, struct message *m)
{
    switch (m->kind) {
    case MESSAGE_ALIVE:
        fronts_say(&c->fronts, front, MESSAGE_ALIVE, 0, NULL, 0);
        return m->length == 0;
    case MESSAGE_NOTE:
        log_note(front, "%s: %s", c->fronts.list[front].name, text_of(m));
        return true;
    case MESSAGE_RECORD:
        if (is_record_of(front, m)) {
            struct client from = {
                .waits = true, .sender = tillerclover_record_sender(m->body), .front = front, .ticket = m->number};
            from.record.length = m->length;
            memcpy(from.record.bytes, m->body, m->length);
            if (c->unconfirmed[from.sender] > 0) {
                journal_turned_away(&c->terminal.journal, &from.record, "session-over");
                refuse(c, &from, TILLERCLOVER_NOTHING_WAITING);
            } else if (asserts(from.record.bytes) && !assertions_left(&c->assertions, from.sender)) {
                refuse_assertion(c, &from);
            } else {
                take_record(c, &from);
            }
            return true;
        }
        return false;
    case MESSAGE_ENDED:
        return take_ended(c, front, m);
    case MESSAGE_KEYS:
        return take_keys(c, front, m);
    case MESSAGE_NO_KEYS:
        return take_no_keys(c, front, m);
    default:
        return false;
    }
}

void core_read(struct core *c)
{
    static struct message m;
    forget_lives_before(c);
    for (int front = 0; front < FRONTS; front++) {
        for (int i = 0; i < MESSAGES[front] && fronts_take(&c->fronts, front, &m); i++) {
            if (!take(c, front, &m)) {
                fronts_end(&c->fronts, front, "said what no front says");
            }
        }
    }
}

/* ---- Rounds */

/* The journal does not take what the round changed, so nothing of it happened: whoever asks for a change is refused, and
 * the others are served. */
static size_t serve_without_changes(struct core *c, uint32_t clock, struct taken taken[TERMINAL_PLACES])
{
    enum {
        SECONDS = 10
    };
    struct answer refusal = answer_words(503, "the journal cannot be written");
    refusal.max_age = SECONDS;
    for (size_t i = 0; i < TERMINAL_PLACES; i++) {
        struct client *client = &c->clients[i];
        if (client->waits && !client->held && may_store(&client->record)) {
            answer(c, client, &refusal);
        } else if (client->waits && !client->held) {
            client->waits = hand_in(c, client);
        }
    }
    return terminal_round(&c->terminal, clock, taken);
}

/* One round, and the answers to it: what they rest on is stored by then. */
static void serve(struct core *c)
{
    static struct taken taken[TERMINAL_PLACES];
    uint32_t clock = clock_now(c->clock);
    size_t many = terminal_round(&c->terminal, clock, taken);
    if (c->terminal.undone) {
        c->next_store = clock_steady() + BETWEEN_STORES;
        many = serve_without_changes(c, clock, taken);
    }
    for (size_t i = 0; i < many; i++) {
        struct answer a = answer_taken(&taken[i], &c->plate, clock);
        const tillerclover_taken *t = &taken[i].taken;
        struct client *client = find(c, tillerclover_record_sender(t->record));
        if (client != NULL) {
            answer(c, client, &a);
        }
        if (asserts(t->record) && t->outcome.answer == TILLERCLOVER_PERMITTED) {
            assertions_count(&c->assertions, tillerclover_record_sender(t->record));
        }
        report(c, t->record, t->record_length, t->outcome.answer, a.code);
    }
    answer_lost(c);
    end_sessions(c);
}

/* The held record that came next after one, or NULL. */
static struct client *next_held(struct core *c, unsigned long order)
{
    struct client *next = NULL;
    for (size_t i = 0; i < TERMINAL_PLACES; i++) {
        struct client *client = &c->clients[i];
        if (client->waits && client->held && client->order > order && (next == NULL || client->order < next->order)) {
            next = client;
        }
    }
    return next;
}

/* Hands in what is held and can be in the next round, in the order in which it came. */
static void hand_in_held(struct core *c, int64_t now)
{
    struct client *client;
    for (unsigned long order = 0; (client = next_held(c, order)) != NULL; order = client->order) {
        if (is_due(c, client, now) && fits(c, client, now)) {
            client->held = false;
            client->waits = hand_in(c, client);
        }
    }
}

/* Milliseconds until a held record is due, or -1 where none is held. */
static int until_due(const struct core *c)
{
    int64_t now = clock_steady();
    int least = -1;
    for (size_t i = 0; i < TERMINAL_PLACES; i++) {
        const struct client *client = &c->clients[i];
        if (client->waits && client->held) {
            int left = is_due(c, client, now) ? 0 : (int)(c->next_store - now);
            least = least < 0 || left < least ? left : least;
        }
    }
    return least;
}

int core_round(struct core *c)
{
    bool anybody = false;
    hand_in_held(c, clock_steady());
    for (size_t i = 0; i < TERMINAL_PLACES; i++) {
        anybody = anybody || (c->clients[i].waits && !c->clients[i].held);
    }
    unsigned long stores = c->terminal.stores + c->terminal.journal.changes;
    if (anybody) {
        serve(c);
    }
    terminal_rest(&c->terminal);
    if (c->terminal.stores + c->terminal.journal.changes > stores) {
        c->next_store = clock_steady() + BETWEEN_STORES;
    }
    /* By now all that was handed in before is judged. */
    if (c->has_keys) {
        log_say("%u keys read", c->keys);
    }
    c->has_keys = false;
    return until_due(c);
}

bool core_clear(struct core *c)
{
    if (!terminal_clear(&c->terminal)) {
        return false;
    }
    answer_lost(c);
    end_sessions(c);
    return true;
}
