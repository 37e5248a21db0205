#include <string.h>

#include "fail.h"
#include "terminal.h"

/* This terminal's build has none. */
static const tillerclover_defaults *const NO_DEFAULTS = NULL;

/* ---- Storing */

/* The row of a credential, or NULL. Tables that are not sound may have any count. */
static const uint8_t *row_of(const tillerclover_tables *tables, const uint8_t *number)
{
    for (size_t i = 0; i < tables->ncreds && i < TILLERCLOVER_CRED_CAPACITY; i++) {
        const uint8_t *row = tables->creds + i * TILLERCLOVER_CRED_ROW_LENGTH;
        if (memcmp(row, number, 2) == 0) {
            return row;
        }
    }
    return NULL;
}

/* Lists the rows of the stored tables that are gone, or others: except for roles that the partner asserts itself. */
static void note_ended(struct terminal *t)
{
    t->ended_length = 0;
    for (size_t i = 0; i < t->stored.ncreds && i < TILLERCLOVER_CRED_CAPACITY; i++) {
        const uint8_t *before = t->stored.creds + i * TILLERCLOVER_CRED_ROW_LENGTH;
        const uint8_t *after = row_of(&t->now.tables, before);
        if (after == NULL || memcmp(before, after, TILLERCLOVER_CRED_LENGTH) != 0) {
            t->ended[t->ended_length++] = (unsigned)before[0] << 8 | before[1];
        }
    }
}

static void store(struct terminal *t)
{
    if (t->on_device) {
        device_write(&t->device, &t->now);
    } else {
        store_write(&t->file, &t->now);
    }
    note_ended(t);
    t->stored = t->now.tables;
    t->stores++;
}

/* ---- Starting */

void terminal_open(struct terminal *t, const char *path, bool on_device, bool make)
{
    *t = (struct terminal){.on_device = on_device};
    t->found = on_device ? device_open(&t->device, path, &t->now) : store_open(&t->file, path, &t->now);
    if (t->found == FOUND_NOTHING && !make) {
        fail("%s: there is no such file; --new makes one, for a terminal that nobody owns", path);
    }
}

bool terminal_start(struct terminal *t, uint32_t clock)
{
    static struct taken taken[TERMINAL_PLACES];
    if (t->found == FOUND_DAMAGED) {
        /* Tables that are not sound: from here on it is the library that says so. */
        memset(&t->now.tables, 0xFF, sizeof t->now.tables);
        t->stored = t->now.tables;
        journal_start(&t->journal, t->found, &t->now);
        return tillerclover_is_sound(&t->now);
    }
    if (t->found == FOUND_NOTHING) {
        tillerclover_fresh(&t->now, NO_DEFAULTS);
    }
    t->stored = t->now.tables;
    journal_start(&t->journal, t->found, &t->now);
    terminal_round(t, clock, taken);
    if (t->undone) {
        fail("what waited in the file cannot be judged, for the journal cannot be written");
    }
    /* Also where no table changed: a terminal that cannot store is not to start, and what waited in the file must not
     * be judged at the next start again. */
    store(t);
    return tillerclover_is_sound(&t->now);
}

bool terminal_clear(struct terminal *t)
{
    tillerclover_terminal before = t->now;
    tillerclover_clear(&t->now, NO_DEFAULTS);
    journal_cleared(&t->journal);
    if (!journal_round(&t->journal, &t->now, true)) {
        t->now = before;
        t->ended_length = 0;
        return false;
    }
    store(t);
    return true;
}

/* ---- Records */

bool terminal_knows(const struct terminal *t, unsigned sender)
{
    const uint8_t number[2] = {(uint8_t)(sender >> 8), (uint8_t)sender};
    return sender == 0 || row_of(&t->now.tables, number) != NULL;
}

enum tillerclover_answer terminal_hand_in(struct terminal *t, const tillerclover_record *r)
{
    enum tillerclover_answer answer = tillerclover_hand_in(&t->now, r->bytes, r->length).answer;
    journal_handed_in(&t->journal, r, answer);
    return answer;
}

/* Takes the next record. False: none waits, or the tables are not sound. */
static bool take(struct terminal *t, uint32_t clock, struct taken *next)
{
    next->taken = tillerclover_take(&t->now, NO_DEFAULTS, clock, next->reply, sizeof next->reply);
    if (next->taken.record_length == 0) {
        return false;
    }
    journal_taken(&t->journal, clock, &next->taken);
    return true;
}

size_t terminal_round(struct terminal *t, uint32_t clock, struct taken taken[TERMINAL_PLACES])
{
    size_t many = 0;
    t->ended_length = 0;
    while (many < TERMINAL_PLACES && take(t, clock, &taken[many])) {
        many++;
    }
    /* Nothing waits now, so the tables are all that can be worth a store; whose turn comes next is not. */
    bool changed = memcmp(&t->now.tables, &t->stored, sizeof t->stored) != 0;
    t->undone = !journal_round(&t->journal, &t->now, changed);
    if (t->undone) {
        t->now = t->journal.now;
        return 0;
    }
    if (changed) {
        store(t);
    }
    t->taken += many;
    t->rounds += many > 0;
    return many;
}

void terminal_rest(struct terminal *t)
{
    journal_round(&t->journal, &t->now, false);
}
