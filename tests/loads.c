/* The lines that include/tillerclover_store.h prints, compiled as they are printed: load, store, and what follows a store that
 * failed. tests/groups/store.sh writes each block of the header to a file. Memory has any content before a load, as at a cold start, or
 * what was there before the cut, as at a warm one. */
#include <stdbool.h>
#include <stdio.h>
#include <string.h>

#include "chance.h"
#include "tillerclover.h"
#include "tillerclover_store.h"

enum {
    TABLES = sizeof(tillerclover_tables),
    WHOLE = sizeof(tillerclover_terminal),
    /* tables with zeros after them, up to a page of 128 bytes */
    PAGES = 2176
};

static tillerclover_terminal terminal;

/* ---- The device: it may have a cell that keeps its first byte. */

static uint8_t cells[TILLERCLOVER_STORE_LENGTH(WHOLE)];
static uint64_t worn = UINT64_MAX;
static unsigned loads_again;

static void device_write(uint64_t at, uint8_t byte)
{
    if (at != worn)
        cells[at] = byte;
}

static uint8_t device_read(uint64_t at)
{
    return cells[at];
}

static void load_again_or_end(void)
{
    loads_again++;
}

/* ---- The header's lines, for each kind of image */

#define FUNCTIONS(kind, length)                                                                                        \
    static void load_##kind(void)                                                                                      \
    {                                                                                                                  \
        enum {                                                                                                         \
            n = length                                                                                                 \
        };                                                                                                             \
        uint8_t store[TILLERCLOVER_STORE_LENGTH(n)];                                                                   \
        memcpy(store, cells, sizeof store);                                                                            \
        LOAD_##kind                                                                                                    \
    }                                                                                                                  \
    static void store_##kind(void)                                                                                     \
    {                                                                                                                  \
        enum {                                                                                                         \
            n = length                                                                                                 \
        };                                                                                                             \
        uint8_t store[TILLERCLOVER_STORE_LENGTH(n)];                                                                   \
        uint8_t image[n] = {0};                                                                                        \
        memcpy(store, cells, sizeof store);                                                                            \
        memcpy(image, &terminal, sizeof image < WHOLE ? TABLES : WHOLE);                                               \
        STORE_LINES FAILED_LINES                                                                                       \
    }

/* LOAD_tables, LOAD_whole, STORE_LINES, FAILED_LINES */
#include "header-lines.h"
#define LOAD_pages LOAD_tables

FUNCTIONS(tables, TABLES)
FUNCTIONS(pages, PAGES)
FUNCTIONS(whole, WHOLE)

struct kind {
    const char *name;
    void (*load)(void);
    void (*store)(void);
    bool keeps_waiting;
};

static const struct kind KINDS[] = {
    {"tables", load_tables, store_tables, false},
    {"pages", load_pages, store_pages, false},
    {"whole", load_whole, store_whole, true},
};

static const uint8_t RETRIEVE_DOXM[4] = {0x20, 0, 0, 0};

static void garbage(void *bytes, size_t length)
{
    for (size_t i = 0; i < length; i++)
        ((uint8_t *)bytes)[i] = (uint8_t)any(256);
}

static enum tillerclover_answer take(void)
{
    uint8_t reply[TILLERCLOVER_REPLY_MAX];
    return tillerclover_take(&terminal, NULL, 0, reply, sizeof reply).outcome.answer;
}

/* A terminal with a waiting record is stored; then memory has any content, or a later record waits in it. */
static void loads(const struct kind *k, bool warm)
{
    garbage(cells, sizeof cells);
    worn = UINT64_MAX;
    tillerclover_fresh(&terminal, NULL);
    expect(tillerclover_hand_in(&terminal, RETRIEVE_DOXM, sizeof RETRIEVE_DOXM).answer == TILLERCLOVER_KEPT,
           "a record waits");
    tillerclover_terminal stored = terminal;
    loads_again = 0;
    k->store();
    expect(loads_again == 0, "the image was stored");
    if (!warm)
        garbage(&terminal, sizeof terminal);
    k->load();
    expect(tillerclover_is_sound(&terminal), "what was loaded is sound");
    expect(memcmp(&terminal.tables, &stored.tables, TABLES) == 0, "the tables are those that were stored");
    expect(take() == (k->keeps_waiting ? TILLERCLOVER_PERMITTED : TILLERCLOVER_NOTHING_WAITING),
           "a record from before the cut waits only if it was stored");
}

/* A cell that does not keep its byte: the run ends, and the program is told to load again. */
static void fails(const struct kind *k)
{
    memset(cells, 0, sizeof cells);
    tillerclover_fresh(&terminal, NULL);
    /* the state is the first byte that differs, and the first image is current: so the spare one is the second */
    worn = k->load == load_whole ? WHOLE : k->load == load_pages ? PAGES : TABLES;
    loads_again = 0;
    k->store();
    expect(loads_again == 1, "a store that failed is noticed");
}

int main(void)
{
    for (size_t i = 0; i < sizeof KINDS / sizeof *KINDS; i++) {
        for (int turn = 0; turn < 50; turn++)
            loads(&KINDS[i], turn % 2 == 1);
        fails(&KINDS[i]);
        printf("%s: loaded 50 times, cold and warm; a failed store is noticed\n", KINDS[i].name);
    }
    return 0;
}
