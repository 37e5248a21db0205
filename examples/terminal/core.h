/* The core's records: what a front passes is handed in, taken in rounds, acted on and answered. */
#ifndef CORE_H
#define CORE_H

#include "answer.h"
#include "assertions.h"
#include "fronts.h"
#include "terminal.h"

/* Who waits for the answer to a record. */
struct client {
    bool waits;
    unsigned sender;
    int front;
    uint32_t ticket;
    /* The record is not handed in yet: it may change the tables, and they were stored a moment ago; or it has to be in
     * another round than one that came before. */
    bool held;
    /* counts the records as they came, from 1 */
    unsigned long order;
    tillerclover_record record;
};

struct core {
    struct terminal terminal;
    struct plate plate;
    struct fronts fronts;
    struct client clients[TERMINAL_PLACES];
    /* the file of the clock, or NULL */
    const char *clock;
    /* whether each record is logged */
    bool verbose;
    /* steady milliseconds: no store before this */
    int64_t next_store;
    /* records that came */
    unsigned long came;
    /* For each credential, how often the secure front was told that its sessions are over and has not confirmed it:
     * until then what it passes in this name may be of a session that was opened under another row. And which life
     * of the front that is about. */
    uint16_t unconfirmed[UINT16_MAX + 1];
    unsigned life;
    struct assertions assertions;
    /* the front has confirmed new keys, and how many; the log does not say so yet */
    bool has_keys;
    unsigned keys;
};

/* Reads what the fronts say, and answers what is refused at once. */
void core_read(struct core *c);

/* A round, where a record waits. Gives the milliseconds until the next is due for records that are held, or -1 for
 * none. */
int core_round(struct core *c);

/* The clear button. False: nothing is cleared. */
bool core_clear(struct core *c);

#endif
