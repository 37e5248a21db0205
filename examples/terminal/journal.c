#include <errno.h>
#include <stdio.h>
#include <string.h>
#include <sys/stat.h>
#include <time.h>

#include "clock.h"
#include "fail.h"
#include "journal.h"
#include "log.h"
#include "terminal.h"
#include "tillerclover_yards.h"

enum {
    /* Records of a sender that may be written at once, of each kind, and milliseconds until one more may be */
    BURST = 100,
    PAUSE = 10000,
    /* milliseconds between two lines that count what was left out, where nothing else is written */
    COUNT_PAUSE = 10000
};

/* ---- Fields */

static void stamp(char when[32])
{
    struct timespec now = {0};
    struct tm parts;
    clock_gettime(CLOCK_REALTIME, &now);
    size_t length = strftime(when, 24, "%Y-%m-%dT%H:%M:%S", gmtime_r(&now.tv_sec, &parts));
    snprintf(when + length, 32 - length, ".%03dZ", (int)(now.tv_nsec / 1000000 % 1000));
}

static const char DIGITS[] = "0123456789abcdef";

/* Bytes in hexadecimal; `text` has room for twice as many, and one. */
static const char *hex(const void *bytes, size_t length, char *text)
{
    for (size_t i = 0; i < length; i++) {
        uint8_t byte = ((const uint8_t *)bytes)[i];
        text[2 * i] = DIGITS[byte >> 4];
        text[2 * i + 1] = DIGITS[byte & 15];
    }
    text[2 * length] = 0;
    return text;
}

/* The same without the zero bytes at the end. */
static const char *short_hex(const void *bytes, size_t length, char *text)
{
    while (length > 1 && ((const uint8_t *)bytes)[length - 1] == 0) {
        length--;
    }
    return hex(bytes, length, text);
}

static const char *tables_hex(const tillerclover_terminal *t)
{
    static char text[2 * sizeof t->tables + 1];
    return short_hex(&t->tables, sizeof t->tables, text);
}

static const char *waiting_hex(const tillerclover_terminal *t)
{
    static char text[2 * sizeof t->waiting + 1];
    return short_hex(&t->waiting, sizeof t->waiting, text);
}

static void sum_of(const tillerclover_tables *tables, char text[CHAIN_DIGITS + 1])
{
    struct sha256 s;
    uint8_t sum[SHA256_LENGTH];
    sha256_begin(&s);
    sha256_add(&s, tables, sizeof *tables);
    sha256_end(&s, sum);
    hex(sum, sizeof sum, text);
}

/* ---- Lines */

/* What is written at once. */
static struct chain_lines lines;

/* A line of the present moment, about no clock. */
#define ADD(...)                                                                                                       \
    do {                                                                                                               \
        char when[32];                                                                                                 \
        stamp(when);                                                                                                   \
        chain_add(&lines, when, "-", __VA_ARGS__);                                                                     \
    } while (0)

/* This terminal's build has no default rows. */
static void add_library(void)
{
    ADD("library %llu %d - -", (unsigned long long)tillerclover_identity(), TILLERCLOVER_REPLY_MAX);
}

static void add_begin(const struct journal *j)
{
    char previous[CHAIN_DIGITS + 1];
    memcpy(previous, lines.last, sizeof previous);
    ADD("begin journal-1 %lu %s", j->chain.part + 1, previous);
}

static void add_left_out(const struct journal *j)
{
    if (j->left_out > 0) {
        ADD("left-out %lu %s", j->left_out, waiting_hex(&j->now));
    }
}

static void add_entry(const struct journal_entry *e)
{
    char record[2 * TILLERCLOVER_RECORD_ROOM + 1], clock[16];
    unsigned sender = tillerclover_record_sender(e->record.bytes);
    hex(e->record.bytes, e->record.length, record);
    snprintf(clock, sizeof clock, "%lu", (unsigned long)e->clock);
    switch (e->kind) {
    case JOURNAL_HANDED_IN:
        chain_add(&lines, e->time, "-", "handed-in %u %s %u", sender, record, e->answer);
        break;
    case JOURNAL_TAKEN:
        chain_add(&lines, e->time, clock, "taken %u %s %u %u", sender, record, e->answer, e->permission);
        break;
    case JOURNAL_TURNED_AWAY:
        chain_add(&lines, e->time, "-", "turned-away %u %s %s", sender, record, e->why);
        break;
    case JOURNAL_CLEARED:
        chain_add(&lines, e->time, "-", "cleared");
        break;
    }
}

static void add_stores(const tillerclover_tables *tables)
{
    char sum[CHAIN_DIGITS + 1];
    sum_of(tables, sum);
    ADD("stores %s", sum);
}

/* ---- What an entry is about */

static bool is_read(const struct journal_entry *e)
{
    unsigned verb = tillerclover_record_verb(e->record.bytes);
    return verb == TILLERCLOVER_RETRIEVE || verb == TILLERCLOVER_OBSERVE;
}

/* Whether the entry is about the tables: a permitted record that may change them, or the button. */
static bool changes(const struct journal_entry *e)
{
    return e->kind == JOURNAL_CLEARED ||
           (e->kind == JOURNAL_TAKEN && e->answer == TILLERCLOVER_PERMITTED && !is_read(e) &&
            tillerclover_record_resource(e->record.bytes) < TILLERCLOVER_WEIGHT);
}

static bool any_changes(const struct journal *j)
{
    for (size_t i = 0; i < j->many; i++) {
        if (changes(&j->entries[i])) {
            return true;
        }
    }
    return false;
}

/* ---- Writing */

/* Says when the journal begins to fail, and when it is written again. */
static bool report(struct journal *j, bool written)
{
    if (!written && !j->failing) {
        log_say("%s cannot be written: %s; changes are refused until it can", j->chain.file.path, strerror(errno));
    } else if (written && j->failing) {
        log_say("%s is written again", j->chain.file.path);
    }
    j->failing = !written;
    return written;
}

/* Writes what is left out into the file that is full, and closes it. */
static bool end_file(struct journal *j)
{
    chain_begin(&j->chain, &lines);
    add_left_out(j);
    ADD("end %lu", j->chain.part);
    if (!chain_write(&j->chain, &lines, true)) {
        return false;
    }
    j->chain.ended = true;
    j->left_out = 0;
    return true;
}

/* Begins the next file where this one is full. All that it says is stored by now. */
static bool make_room(struct journal *j)
{
    if (!j->chain.ended && j->chain.size < j->most) {
        return true;
    }
    if (!j->chain.ended && !end_file(j)) {
        return false;
    }
    chain_begin(&j->chain, &lines);
    add_begin(j);
    add_library();
    ADD("tables %s %s", tables_hex(&j->now), waiting_hex(&j->now));
    return chain_next(&j->chain, &lines);
}

/* Writes the entries that are not left out, and if the tables changed which are stored next. */
static bool write_entries(struct journal *j, const tillerclover_tables *stored)
{
    if (!make_room(j)) {
        return false;
    }
    chain_begin(&j->chain, &lines);
    add_left_out(j);
    for (size_t i = 0; i < j->many; i++) {
        if (!j->entries[i].left_out) {
            add_entry(&j->entries[i]);
        }
    }
    if (stored != NULL) {
        add_stores(stored);
    }
    if (!chain_write(&j->chain, &lines, stored != NULL)) {
        return false;
    }
    j->left_out = 0;
    j->counted = clock_steady();
    j->changes += stored != NULL || any_changes(j);
    return true;
}

/* ---- What is left out */

enum budget {
    BUDGET_READ,
    BUDGET_ACT,
    BUDGET_REFUSED,
    BUDGETS
};

/* Whoever has a key and no row shares one budget with all of these. */
enum {
    STRANGERS = UINT16_MAX + 1,
    SENDERS
};

/* Steady milliseconds at which a sender has used nothing any more. */
static int64_t spent_until[SENDERS][BUDGETS];

/* Whether this sender may have one more record of the kind in the journal now. */
static bool spend(unsigned sender, enum budget kind)
{
    int64_t now = clock_steady(), *until = &spent_until[sender][kind];
    int64_t from = *until > now ? *until : now;
    if (from - now > (int64_t)PAUSE * (BURST - 1)) {
        return false;
    }
    *until = from + PAUSE;
    return true;
}

static enum budget budget_of(const struct journal_entry *e)
{
    bool permitted = e->kind == JOURNAL_TAKEN && e->answer == TILLERCLOVER_PERMITTED;
    return !permitted ? BUDGET_REFUSED : is_read(e) ? BUDGET_READ : BUDGET_ACT;
}

static bool may_write(const struct journal_entry *e)
{
    bool stranger = e->kind == JOURNAL_HANDED_IN && e->answer == TILLERCLOVER_NO_CREDENTIAL;
    return spend(stranger ? STRANGERS : tillerclover_record_sender(e->record.bytes), budget_of(e));
}

/* The entry of this sender's record that was taken, or NULL. */
static const struct journal_entry *taken_of(const struct journal *j, unsigned sender)
{
    for (size_t i = 0; i < j->many; i++) {
        const struct journal_entry *e = &j->entries[i];
        if (e->kind == JOURNAL_TAKEN && tillerclover_record_sender(e->record.bytes) == sender) {
            return e;
        }
    }
    return NULL;
}

/* Chooses what is left out of a round that changed nothing: of a sender whose record is left out all else too, for it may
 * be refused because that record waited. Gives how many are written. */
static size_t choose(struct journal *j)
{
    size_t written = 0;
    for (size_t i = 0; i < j->many; i++) {
        struct journal_entry *e = &j->entries[i];
        e->left_out = e->kind == JOURNAL_TAKEN && !may_write(e);
    }
    for (size_t i = 0; i < j->many; i++) {
        struct journal_entry *e = &j->entries[i];
        const struct journal_entry *taken = taken_of(j, tillerclover_record_sender(e->record.bytes));
        bool kept = e->kind == JOURNAL_HANDED_IN && e->answer == TILLERCLOVER_KEPT;
        if (e->kind != JOURNAL_TAKEN) {
            e->left_out = (taken != NULL && taken->left_out) || (!kept && !may_write(e));
        }
        written += !e->left_out;
    }
    return written;
}

/* What was not written is counted, and no entry is left. */
static void count_left_out(struct journal *j, bool all)
{
    for (size_t i = 0; i < j->many; i++) {
        j->left_out += all || j->entries[i].left_out;
    }
    j->many = 0;
}

/* ---- Entries */

/* A place for an entry, or NULL. Refusals leave those that are needed for what waits and is taken. */
static struct journal_entry *place_for(struct journal *j, enum journal_kind kind, const tillerclover_record *r,
                                       bool refused)
{
    enum {
        REFUSALS = JOURNAL_ENTRIES - 2 * TERMINAL_PLACES - 1
    };
    if (!j->kept || j->many >= (refused ? (size_t)REFUSALS : (size_t)JOURNAL_ENTRIES)) {
        j->left_out += j->kept;
        return NULL;
    }
    struct journal_entry *e = &j->entries[j->many++];
    *e = (struct journal_entry){.kind = kind};
    stamp(e->time);
    if (r != NULL) {
        e->record = *r;
    }
    return e;
}

void journal_handed_in(struct journal *j, const tillerclover_record *r, unsigned answer)
{
    struct journal_entry *e = place_for(j, JOURNAL_HANDED_IN, r, answer != TILLERCLOVER_KEPT);
    if (e != NULL) {
        e->answer = answer;
    }
}

void journal_taken(struct journal *j, uint32_t clock, const tillerclover_taken *t)
{
    struct journal_entry *e = place_for(j, JOURNAL_TAKEN, NULL, false);
    if (e != NULL) {
        e->clock = clock;
        e->answer = t->outcome.answer;
        e->permission = t->outcome.permission;
        e->record.length = t->record_length;
        memcpy(e->record.bytes, t->record, t->record_length);
    }
}

void journal_turned_away(struct journal *j, const tillerclover_record *r, const char *why)
{
    struct journal_entry *e = place_for(j, JOURNAL_TURNED_AWAY, r, true);
    if (e != NULL) {
        e->why = why;
    }
}

void journal_cleared(struct journal *j)
{
    place_for(j, JOURNAL_CLEARED, NULL, false);
}

bool journal_round(struct journal *j, const tillerclover_terminal *now, bool changed)
{
    if (!j->kept) {
        return true;
    }
    bool whole = changed || any_changes(j);
    bool due = j->left_out > 0 && clock_steady() - j->counted >= COUNT_PAUSE;
    bool written = true;
    if (whole || choose(j) > 0 || due) {
        written = report(j, write_entries(j, changed ? &now->tables : NULL));
    }
    count_left_out(j, !written);
    if (whole && !written) {
        return false;
    }
    j->now = *now;
    return true;
}

/* ---- Starting and ending */

/* The sum of the tables in a line's field, which is hexadecimal without the zeros at the end. */
static bool sum_of_field(const char *field, char sum[CHAIN_DIGITS + 1])
{
    tillerclover_tables tables = {0};
    size_t digits = strspn(field, DIGITS);
    if (digits % 2 != 0 || digits > 2 * sizeof tables || field[digits] != ' ') {
        return false;
    }
    for (size_t i = 0; i < digits; i++) {
        size_t value = (size_t)(strchr(DIGITS, field[i]) - DIGITS);
        ((uint8_t *)&tables)[i / 2] |= (uint8_t)(i % 2 == 0 ? value << 4 : value);
    }
    sum_of(&tables, sum);
    return true;
}

/* Keeps what tables the lines so far end with. */
static void see(void *context, const char *kind, const char *text)
{
    struct journal *j = context;
    char sum[CHAIN_DIGITS + 1];
    int at = 0;
    if (strcmp(kind, "stores") == 0 && sscanf(text, "stores %64s", sum) == 1) {
        memcpy(j->before_that, j->ends_with, sizeof j->before_that);
        memcpy(j->ends_with, sum, sizeof j->ends_with);
        return;
    }
    if (sscanf(text, strcmp(kind, "started") == 0 ? "started %*s %n" : "tables %n", &at) == 0 && at > 0 &&
        sum_of_field(text + at, sum)) {
        memcpy(j->ends_with, sum, sizeof j->ends_with);
        j->before_that[0] = 0;
    }
}

void journal_open(struct journal *j, const char *path, off_t most)
{
    *j = (struct journal){.kept = true, .most = most};
    j->torn = chain_open(&j->chain, path, see, j);
}

static const char *reason_of(const struct journal *j, enum found found, const tillerclover_tables *tables)
{
    char sum[CHAIN_DIGITS + 1];
    sum_of(tables, sum);
    if (found != FOUND_WHOLE) {
        return found == FOUND_NOTHING ? "new" : "damaged";
    }
    if (j->ends_with[0] == 0) {
        return "first";
    }
    if (strcmp(sum, j->ends_with) == 0) {
        return "same";
    }
    return strcmp(sum, j->before_that) == 0 ? "unstored" : "other";
}

/* Says in the log what the office has to know. */
static void say_reason(const struct journal *j, const char *reason)
{
    if (j->torn > 0) {
        log_say("%s: the last line had no end, and its %zu bytes were cut off", j->chain.file.path, j->torn);
    }
    if (strcmp(reason, "unstored") == 0) {
        log_say("%s ends with a change that was not stored, and not confirmed", j->chain.file.path);
    } else if (strcmp(reason, "other") == 0) {
        log_say("%s ends with other tables than those that are stored", j->chain.file.path);
    }
}

void journal_start(struct journal *j, enum found found, const tillerclover_terminal *now)
{
    if (!j->kept) {
        return;
    }
    const char *reason = reason_of(j, found, &now->tables);
    bool begins = j->chain.size == 0 || j->chain.ended;
    chain_begin(&j->chain, &lines);
    if (begins) {
        add_begin(j);
    }
    add_library();
    if (j->torn > 0) {
        ADD("torn %zu", j->torn);
    }
    ADD("started %s %s %s", reason, tables_hex(now), waiting_hex(now));
    bool written = j->chain.ended ? chain_next(&j->chain, &lines) : chain_write(&j->chain, &lines, true);
    if (!written) {
        fail("%s cannot be written: %s", j->chain.file.path, strerror(errno));
    }
    if (j->chain.part == 0) {
        j->chain.part = 1;
    }
    j->now = *now;
    say_reason(j, reason);
}

void journal_close(struct journal *j)
{
    if (!j->kept || !make_room(j)) {
        return;
    }
    chain_begin(&j->chain, &lines);
    add_left_out(j);
    ADD("stopped");
    report(j, chain_write(&j->chain, &lines, true));
}
