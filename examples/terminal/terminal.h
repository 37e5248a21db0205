/* The terminal's memory around the library: records are handed in as they come, and taken in rounds. */
#ifndef TERMINAL_H
#define TERMINAL_H

#include <stdbool.h>

#include "device.h"
#include "journal.h"
#include "store.h"
#include "tillerclover_records.h"

/* Records that can wait at a time: one of the unauthenticated, and one of each credential. */
enum {
    TERMINAL_PLACES = TILLERCLOVER_CRED_CAPACITY + 1
};

struct terminal {
    /* where the tables live: on the device, or in the file */
    bool on_device;
    struct device device;
    struct file file;
    enum found found;
    /* There is none unless journal_open was called. */
    struct journal journal;
    tillerclover_terminal now;
    /* the tables as they are stored */
    tillerclover_tables stored;
    /* what was done since the start */
    unsigned long taken, rounds, stores;
    /* The last round did not happen: the journal could not be written. */
    bool undone;
    /* The credentials whose rows the last call deleted, or replaced by another: what was opened in their name is over.
     */
    unsigned ended[TILLERCLOVER_CRED_CAPACITY];
    size_t ended_length;
};

/* A record that was taken, what becomes of it, and the reply's buffer. */
struct taken {
    tillerclover_taken taken;
    uint8_t reply[TILLERCLOVER_REPLY_MAX];
};

/* Opens the file or the device. Where there is none the program ends, unless `make` is set: then terminal_start makes
 * it. */
void terminal_open(struct terminal *t, const char *path, bool on_device, bool make);

/* Starts from what is stored, or as a new terminal. The queue in the file is judged, and neither answered nor acted on:
 * whoever sent it is gone. False: the file is damaged, and every record is answered with TILLERCLOVER_NOT_SOUND until
 * the terminal is cleared. */
bool terminal_start(struct terminal *t, uint32_t clock);

/* The clear button. False: nothing is cleared, for the journal could not be written. */
bool terminal_clear(struct terminal *t);

/* Whether the sender has a row, or is the unauthenticated: no other can have a record wait. */
bool terminal_knows(const struct terminal *t, unsigned sender);

/* TILLERCLOVER_PERMITTED: the record waits. Any other answer is final. */
enum tillerclover_answer terminal_hand_in(struct terminal *t, const tillerclover_record *r);

/* One round: takes all that wait, in the library's order, writes the journal, and then stores the tables where they
 * changed; `stores` counts that. What `taken` holds may be answered when this returns. Gives the number of records. Where
 * the journal does not take a change, `undone` is set, the tables are as before, nothing waits, and it gives 0. */
size_t terminal_round(struct terminal *t, uint32_t clock, struct taken taken[TERMINAL_PLACES]);

/* After a round: the journal gets what was refused meanwhile. */
void terminal_rest(struct terminal *t);

#endif
