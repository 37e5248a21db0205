/* A weighbridge yard in one sitting: the owner sets a new terminal up, a haulier writes a tare in and out of its
 * season, two senders wait for their turns while one of them floods, the office gets its list, and a row is deleted.
 *
 *     packaging/library.sh
 *     cc -std=c11 -Iinclude examples/yard.c target/staticlib/libterminal.a -o target/yard
 *     target/yard
 *
 * Sessions, a clock and a store are in examples/terminal. */
#include <stdio.h>

#include "tillerclover_records.h"

enum {
    OWNER = 5,
    HAULIER = 7,
    CONTRACTOR = 30
};

static const uint8_t OWNER_UUID[TILLERCLOVER_UUID_LENGTH] = {0x5b, 0x0d, 0x3a, 0x64, 0x9c, 0x21, 0x4e, 0x7f,
                                                             0x8a, 0x15, 0x3d, 0xe2, 0x90, 0xc7, 0x46, 0x18};
static const uint8_t HAULIER_UUID[TILLERCLOVER_UUID_LENGTH] = {0xc4, 0x71, 0x0e, 0x95, 0x33, 0xda, 0x48, 0x02,
                                                               0xb6, 0x5f, 0x87, 0x1b, 0x2e, 0x60, 0xf9, 0xad};
static const uint8_t CONTRACTOR_UUID[TILLERCLOVER_UUID_LENGTH] = {0x6a, 0xd5, 0x40, 0x8e, 0x21, 0xf3, 0x4c, 0xb7,
                                                                  0x95, 0x0d, 0xe6, 0x72, 0x3b, 0x18, 0xac, 0x54};

/* The harvest, in seconds of the terminal's clock: 1 July to the end of 30 September 2026. */
static const uint32_t HARVEST_FIRST = 1782864000, HARVEST_LAST = 1790812799;

/* This build has none. */
static const tillerclover_defaults *const NO_DEFAULTS = NULL;

/* What a terminal keeps. Each call changes it in place. */
static tillerclover_terminal terminal;
static uint32_t now;

/* Judges a record at once, and prints the outcome. */
static void call(const char *what, tillerclover_record r)
{
    uint8_t reply[TILLERCLOVER_REPLY_MAX];
    tillerclover_outcome o = tillerclover_judge(&terminal, NO_DEFAULTS, now, r.bytes, r.length, reply, sizeof reply);
    printf("%-43s answer %2u, permission %2u, state %u", what, (unsigned)o.answer, o.permission, terminal.tables.state);
    if (o.answer != TILLERCLOVER_PERMITTED) {
        printf(", %s", tillerclover_answer_text(o.answer));
    }
    if (o.payload_length != 0) {
        printf(", payload \"%.*s\"", (int)o.payload_length, (const char *)r.bytes + o.payload_offset);
    }
    if (o.reply_length != 0) {
        printf(", reply of %u bytes", (unsigned)o.reply_length);
    }
    if (o.store_count != 0) {
        /* Memory that wears stores these rows and the count, and nothing else. */
        printf(", %u %s rows to store from place %u", (unsigned)o.store_count,
               o.store_table == TILLERCLOVER_CREDS ? "credential" : "access", (unsigned)o.store_first);
    }
    printf("\n");
}

/* Hands a record in. The answer says whether it waits, and no more. */
static void hand_in(const char *what, tillerclover_record r)
{
    tillerclover_outcome o = tillerclover_hand_in(&terminal, r.bytes, r.length);
    printf("%-43s answer %2u, %s\n", what, (unsigned)o.answer,
           o.answer == TILLERCLOVER_KEPT ? "it waits" : tillerclover_answer_text(o.answer));
}

/* Takes the records whose turn it is, until none waits. */
static void take_all(void)
{
    for (;;) {
        uint8_t reply[TILLERCLOVER_REPLY_MAX];
        tillerclover_taken t = tillerclover_take(&terminal, NO_DEFAULTS, now, reply, sizeof reply);
        const tillerclover_outcome *o = &t.outcome;
        if (o->answer == TILLERCLOVER_NOTHING_WAITING || o->answer == TILLERCLOVER_NOT_SOUND) {
            return;
        }
        printf("    taken: credential %2u, answer %2u, payload \"%.*s\"\n", tillerclover_record_sender(t.record),
               (unsigned)o->answer, (int)o->payload_length, (const char *)t.record + o->payload_offset);
    }
}

static void set_up(void)
{
    const tillerclover_cred owner = {.number = OWNER, .subject = OWNER_UUID};
    const tillerclover_cred haulier = {.number = HAULIER, .subject = HAULIER_UUID};
    const tillerclover_cred contractor = {.number = CONTRACTOR, .subject = CONTRACTOR_UUID};
    const tillerclover_ace tare = {.number = 1,
                                   .kind = TILLERCLOVER_SUBJECT_UUID,
                                   .uuid = HAULIER_UUID,
                                   .permission = TILLERCLOVER_MAY_UPDATE,
                                   .set = TILLERCLOVER_SET_BIT(TILLERCLOVER_TARE),
                                   .first = 0,
                                   .last = UINT32_MAX};
    tillerclover_ace season = tare;
    season.number = 2;
    season.uuid = CONTRACTOR_UUID;
    season.first = HARVEST_FIRST;
    season.last = HARVEST_LAST;
    tillerclover_fresh(&terminal, NO_DEFAULTS);
    call("a new terminal takes the owner's credential", tillerclover_store_cred(0, &owner));
    call("and its owner", tillerclover_set_owner(0, OWNER_UUID));
    call("the owner goes on to RFPRO", tillerclover_set_state(OWNER, TILLERCLOVER_RFPRO));
    call("stores a haulier's credential", tillerclover_store_cred(OWNER, &haulier));
    call("and a contractor's", tillerclover_store_cred(OWNER, &contractor));
    call("lets the haulier write the tare", tillerclover_store_ace(OWNER, &tare));
    call("and the contractor in the harvest", tillerclover_store_ace(OWNER, &season));
    call("and puts the terminal in service", tillerclover_set_state(OWNER, TILLERCLOVER_RFNOP));
}

int main(void)
{
    tillerclover_record tare = tillerclover_request_text(TILLERCLOVER_UPDATE, TILLERCLOVER_TARE, HAULIER, "7420 kg");
    tillerclover_record load = tillerclover_request_text(TILLERCLOVER_UPDATE, TILLERCLOVER_TARE, CONTRACTOR, "3150 kg");
    now = HARVEST_FIRST - 1;
    set_up();
    call("the haulier writes the tare", tare);
    call("but may not read it", tillerclover_request_bare(TILLERCLOVER_RETRIEVE, TILLERCLOVER_TARE, HAULIER));
    call("the contractor, before the harvest", load);
    now = HARVEST_FIRST;
    call("and in its first second", load);
    call("the owner reads the access rows back",
         tillerclover_request_bare(TILLERCLOVER_RETRIEVE, TILLERCLOVER_ACL2, OWNER));

    hand_in("the haulier hands a tare in", tare);
    hand_in("and another, at once", tare);
    hand_in("the contractor hands one in", load);
    take_all();

    uint8_t text[TILLERCLOVER_TEXT_MAX];
    tillerclover_listed list = tillerclover_access_list(&terminal, text, sizeof text);
    printf("the office's list, rows for a season left out:\n    %.*s\n", (int)list.length, (const char *)text);

    call("the owner goes back to RFPRO", tillerclover_set_state(OWNER, TILLERCLOVER_RFPRO));
    call("and deletes the haulier's access row", tillerclover_delete_row(TILLERCLOVER_ACL2, OWNER, 1));
    tillerclover_clear(&terminal, NO_DEFAULTS);
    printf("the button: state %u, %u credential and %u access rows\n", terminal.tables.state, terminal.tables.ncreds,
           terminal.tables.naces);
    return 0;
}
