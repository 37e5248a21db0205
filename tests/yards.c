/* The questions of tillerclover_yards.h as C sees them: each reason, the edges of a list, and the library's identity. What each
 * answer is for is proved; that C sees the same is tried here. Prints nothing, and exits with 1 at the first fault. */
#include <stdlib.h>
#include <string.h>

#include "expect.h"
#include "tillerclover_records.h"

enum {
    OWNER = 5,
    HAULIER = 7,
    OTHER = 300
};

static const uint8_t OWNER_UUID[TILLERCLOVER_UUID_LENGTH] = {0x5b, [15] = 0x18};
static const uint8_t HAULIER_UUID[TILLERCLOVER_UUID_LENGTH] = {0xc4, [15] = 0xad};

static tillerclover_terminal terminal;

/* A record of the set-up. */
static void judge(tillerclover_record r)
{
    uint8_t reply[TILLERCLOVER_REPLY_MAX];
    tillerclover_outcome o = tillerclover_judge(&terminal, NULL, 0, r.bytes, r.length, reply, sizeof reply);
    expect(o.answer == TILLERCLOVER_PERMITTED, "the set-up is refused");
}

static tillerclover_ace row(unsigned number, enum tillerclover_resource resource)
{
    return (tillerclover_ace){.number = number,
                              .kind = TILLERCLOVER_SUBJECT_UUID,
                              .uuid = HAULIER_UUID,
                              .permission = TILLERCLOVER_MAY_UPDATE,
                              .set = TILLERCLOVER_SET_BIT(resource),
                              .last = UINT32_MAX};
}

/* Asks of a list in memory of just its length, and compares. */
static void says(const uint8_t *list, size_t length, unsigned reason, size_t entry, size_t place, const char *what)
{
    uint8_t *senders = malloc(length);
    expect(senders != NULL || length == 0, "no memory");
    if (length != 0) {
        memcpy(senders, list, length);
    }
    const tillerclover_terminal before = terminal;
    tillerclover_isolation i = tillerclover_isolated(&terminal, senders, length);
    expect(i.reason == reason && i.entry == entry && i.row == place, what);
    expect(memcmp(&before, &terminal, sizeof terminal) == 0, "the terminal was changed");
    expect(length == 0 || memcmp(senders, list, length) == 0, "the list was changed");
    free(senders);
}

/* The three words are written, and no other. */
static void words(void)
{
    static const uint8_t list[] = {0, OWNER};
    uint64_t said[5] = {~0u, ~0u, ~0u, ~0u, ~0u};
    const tillerclover_tables *t = &terminal.tables;
    tillerclover_isolated_at((const uint8_t *)t, t->devowner, t->rowners, t->creds, t->aces, list, sizeof list,
                             said + 1);
    expect(said[1] == TILLERCLOVER_ISOLATION_NAMES_OWNER && said[2] == 1 && said[3] == 0, "other words were said");
    expect(said[0] == ~0u && said[4] == ~0u, "a word beside the three was written");
}

int main(void)
{
    static const uint8_t hauliers[] = {0, HAULIER, OTHER >> 8, OTHER & 0xFF, 0, HAULIER, 0, 0},
                         owner[] = {0, HAULIER, 0, OWNER};
    expect(tillerclover_identified(), "the archive is another than the header's");
    expect(tillerclover_identity() == TILLERCLOVER_IDENTITY, "the identity is another");

    tillerclover_fresh(&terminal, NULL);
    says(hauliers, 2, TILLERCLOVER_ISOLATION_NO_OWNER, 0, 0, "a terminal without an owner");
    says(hauliers, 0, TILLERCLOVER_ISOLATED, 0, 0, "the empty list");
    judge(tillerclover_store_cred(0, &(tillerclover_cred){.number = OWNER, .subject = OWNER_UUID}));
    judge(tillerclover_store_cred(0, &(tillerclover_cred){.number = HAULIER, .subject = HAULIER_UUID}));
    judge(tillerclover_set_owner(0, OWNER_UUID));
    judge(tillerclover_set_state(OWNER, TILLERCLOVER_RFPRO));
    judge(tillerclover_store_ace(OWNER, (const tillerclover_ace[]){row(1, TILLERCLOVER_TARE)}));
    says(hauliers, sizeof hauliers, TILLERCLOVER_ISOLATED, 0, 0, "hauliers who may tare");
    says(hauliers, sizeof hauliers - 1, TILLERCLOVER_ISOLATION_ODD_LENGTH, 0, 0, "an odd length");
    says(hauliers, 1, TILLERCLOVER_ISOLATION_ODD_LENGTH, 0, 0, "a lone byte");
    says(owner, sizeof owner, TILLERCLOVER_ISOLATION_NAMES_OWNER, 2, 0, "the owner in the list");
    words();

    judge(tillerclover_store_ace(OWNER, (const tillerclover_ace[]){row(2, TILLERCLOVER_ACL2)}));
    says(hauliers + 2, 4, TILLERCLOVER_ISOLATION_MAY_ALTER, 2, 2, "a haulier who may write access rows");
    says(hauliers + 2, 2, TILLERCLOVER_ISOLATED, 0, 0, "the others beside it");

    /* as long a list as there are numbers, one entry of them an owner's */
    static uint8_t all[2 * 65536];
    for (size_t i = 0; i < 65536; i++) {
        all[2 * i] = (uint8_t)(OTHER >> 8);
        all[2 * i + 1] = OTHER & 0xFF;
    }
    all[sizeof all - 2] = 0;
    all[sizeof all - 1] = OWNER;
    says(all, sizeof all, TILLERCLOVER_ISOLATION_NAMES_OWNER, 65536, 0, "the last of 65,536 entries");

    /* a list of no bytes, by any pointer */
    tillerclover_isolation i = tillerclover_isolated(&terminal, NULL, 0),
                           j = tillerclover_isolated(&terminal, all + sizeof all, 0);
    expect(i.reason == TILLERCLOVER_ISOLATED && j.reason == TILLERCLOVER_ISOLATED, "no bytes by another pointer");

    memset(&terminal.tables, 0xFF, sizeof terminal.tables);
    says(hauliers, sizeof hauliers, TILLERCLOVER_ISOLATION_NOT_SOUND, 0, 0, "tables of ones");
    says(hauliers, 3, TILLERCLOVER_ISOLATION_ODD_LENGTH, 0, 0, "an odd length comes first");
    return 0;
}
