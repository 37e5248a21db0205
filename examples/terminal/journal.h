/* The journal: what the library was asked and what it answered, so that it can be judged again (docs/JOURNAL.md). What
 * changes the tables is in it, on the disk, before it is stored and confirmed. */
#ifndef JOURNAL_H
#define JOURNAL_H

#include "chain.h"
#include "store.h"
#include "tillerclover_records.h"

enum {
    /* Entries that are not written yet: refusals while there is room for what waits and is taken, too. */
    JOURNAL_ENTRIES = 192
};

enum journal_kind {
    JOURNAL_HANDED_IN,
    JOURNAL_TAKEN,
    JOURNAL_TURNED_AWAY,
    JOURNAL_CLEARED
};

struct journal_entry {
    enum journal_kind kind;
    char time[32];
    uint32_t clock;
    tillerclover_record record;
    unsigned answer, permission;
    /* of a record that is turned away */
    const char *why;
    /* It is not written. */
    bool left_out;
};

struct journal {
    /* whether there is one */
    bool kept;
    struct chain chain;
    /* bytes after which the next file begins */
    off_t most;
    /* the terminal as it follows from the lines, and from what was left out after them */
    tillerclover_terminal now;
    struct journal_entry entries[JOURNAL_ENTRIES];
    size_t many;
    /* Entries that no line counts yet, and the steady milliseconds of the last such line. */
    unsigned long left_out;
    int64_t counted;
    /* rounds that were written whole */
    unsigned long changes;
    /* The last try to write failed. */
    bool failing;
    /* What the start found: sums of the tables that the journal ended with, and of those before its last `stores`, or
     * empty; and the bytes of a line without an end. */
    char ends_with[CHAIN_DIGITS + 1], before_that[CHAIN_DIGITS + 1];
    size_t torn;
};

enum {
    JOURNAL_MOST = 16 << 20
};

/* Opens the file and reads it through, or makes it. What is wrong with it ends the program. */
void journal_open(struct journal *j, const char *path, off_t most);

/* The program starts with this terminal, of a store that was found so. Where that cannot be written the program ends. */
void journal_start(struct journal *j, enum found found, const tillerclover_terminal *now);

/* What becomes of records; a line for each follows with journal_round. */
void journal_handed_in(struct journal *j, const tillerclover_record *r, unsigned answer);
void journal_taken(struct journal *j, uint32_t clock, const tillerclover_taken *t);
/* The program refused it, and did not ask the library. */
void journal_turned_away(struct journal *j, const tillerclover_record *r, const char *why);
void journal_cleared(struct journal *j);

/* Writes what came since the last call; nothing waits now. Where records that may change the tables were permitted, or
 * the terminal was cleared, all of it: if then `changed` says that the tables are others, the lines are on the disk when
 * this returns. Where not, at a bounded rate for each sender. False: a change could not be written, so it must not happen;
 * `now` of the journal is the terminal as it was. */
bool journal_round(struct journal *j, const tillerclover_terminal *now, bool changed);

/* The program ends. */
void journal_close(struct journal *j);

#endif
