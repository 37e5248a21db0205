/* Two yards on one plate, in one sitting: the terminal says that each yard's hauliers are isolated. Then yard A floods, asserts
 * a role and tries to write, and yard B's day is the same as without yard A. At last the owner stores a row that ends it.
 *
 *     packaging/library.sh
 *     cc -std=c11 -Iinclude examples/two_yards.c target/staticlib/libterminal.a -o target/two_yards
 *     target/two_yards
 *
 * docs/QUESTIONS.md says what is guaranteed, and what is not. */
#include <stdio.h>
#include <stdlib.h>
#include <string.h>

#include "tillerclover_records.h"

enum {
    OWNER = 5,
    /* the role of those who may zero the plate, and who gives it */
    FOREMAN = 3,
    WORKS = 1,
    RECORDS = 5,
    FLOOD = 1000
};

/* Yard A has the partners 7 and 9, yard B has 8 and 11: two bytes for each. */
static const uint8_t YARD_A[] = {0, 7, 0, 9}, YARD_B[] = {0, 8, 0, 11};

/* This build has none. */
static const tillerclover_defaults *const NO_DEFAULTS = NULL;

/* ---- one call each */

static tillerclover_outcome judge(tillerclover_terminal *t, tillerclover_record r)
{
    uint8_t reply[TILLERCLOVER_REPLY_MAX];
    return tillerclover_judge(t, NO_DEFAULTS, 0, r.bytes, r.length, reply, sizeof reply);
}

static unsigned hand_in(tillerclover_terminal *t, tillerclover_record r)
{
    return tillerclover_hand_in(t, r.bytes, r.length).answer;
}

static tillerclover_taken take(tillerclover_terminal *t)
{
    uint8_t reply[TILLERCLOVER_REPLY_MAX];
    return tillerclover_take(t, NO_DEFAULTS, 0, reply, sizeof reply);
}

/* ---- the yards */

/* A partner's subject: its number in the last byte. */
static const uint8_t *subject(unsigned number)
{
    static uint8_t uuids[16][TILLERCLOVER_UUID_LENGTH];
    uint8_t *uuid = uuids[number % 16];
    uuid[0] = 0xc4;
    uuid[TILLERCLOVER_UUID_LENGTH - 1] = (uint8_t)number;
    return uuid;
}

static void permitted(tillerclover_terminal *t, tillerclover_record r)
{
    if (judge(t, r).answer != TILLERCLOVER_PERMITTED) {
        printf("the set-up is refused\n");
        exit(1);
    }
}

/* Every partner may read the weight, 8 may write the tare, and a foreman may zero the plate. */
static void set_up(tillerclover_terminal *t)
{
    const tillerclover_ace weight = {.number = 1,
                                     .kind = TILLERCLOVER_SUBJECT_CONNECTION,
                                     .connection = TILLERCLOVER_AUTH_CRYPT,
                                     .permission = TILLERCLOVER_MAY_RETRIEVE,
                                     .set = TILLERCLOVER_SET_BIT(TILLERCLOVER_WEIGHT),
                                     .last = UINT32_MAX};
    const tillerclover_ace tare = {.number = 2,
                                   .kind = TILLERCLOVER_SUBJECT_UUID,
                                   .uuid = subject(8),
                                   .permission = TILLERCLOVER_MAY_UPDATE,
                                   .set = TILLERCLOVER_SET_BIT(TILLERCLOVER_TARE),
                                   .last = UINT32_MAX};
    const tillerclover_ace zero = {.number = 3,
                                   .kind = TILLERCLOVER_SUBJECT_ROLE,
                                   .role = FOREMAN,
                                   .authority = WORKS,
                                   .permission = TILLERCLOVER_MAY_UPDATE,
                                   .set = TILLERCLOVER_SET_BIT(TILLERCLOVER_ZERO),
                                   .last = UINT32_MAX};
    static const unsigned PARTNERS[] = {7, 9, 8, 11};
    tillerclover_fresh(t, NO_DEFAULTS);
    permitted(t, tillerclover_store_cred(0, &(tillerclover_cred){.number = OWNER, .subject = subject(OWNER)}));
    permitted(t, tillerclover_set_owner(0, subject(OWNER)));
    permitted(t, tillerclover_set_state(OWNER, TILLERCLOVER_RFPRO));
    for (size_t i = 0; i < sizeof PARTNERS / sizeof *PARTNERS; i++) {
        permitted(t, tillerclover_store_cred(
                         OWNER, &(tillerclover_cred){.number = PARTNERS[i], .subject = subject(PARTNERS[i])}));
    }
    permitted(t, tillerclover_store_ace(OWNER, &weight));
    permitted(t, tillerclover_store_ace(OWNER, &tare));
    permitted(t, tillerclover_store_ace(OWNER, &zero));
    permitted(t, tillerclover_set_state(OWNER, TILLERCLOVER_RFNOP));
}

/* Asks the terminal of one yard, and prints what it says. */
static void ask(const tillerclover_terminal *t, const char *name, const uint8_t *senders, size_t length)
{
    tillerclover_isolation i = tillerclover_isolated(t, senders, length);
    printf("    yard %s: ", name);
    if (i.reason == TILLERCLOVER_ISOLATED) {
        printf("isolated\n");
    } else if (i.reason == TILLERCLOVER_ISOLATION_MAY_ALTER) {
        printf("not isolated, partner %u may write a security resource by access row %zu\n", senders[2 * i.entry - 1],
               i.row);
    } else {
        printf("not isolated, reason %u\n", i.reason);
    }
}

static void ask_both(const tillerclover_terminal *t, const char *when)
{
    printf("%s:\n", when);
    ask(t, "A", YARD_A, sizeof YARD_A);
    ask(t, "B", YARD_B, sizeof YARD_B);
}

/* ---- the day */

/* What yard A does between two records of yard B. Returns how many of its records were permitted. */
static unsigned disturb(tillerclover_terminal *t)
{
    tillerclover_record weight = tillerclover_request_bare(TILLERCLOVER_RETRIEVE, TILLERCLOVER_WEIGHT, 7);
    unsigned count = 0;
    for (int i = 0; i < FLOOD; i++) {
        count += hand_in(t, weight) == TILLERCLOVER_KEPT;
    }
    const tillerclover_record tries[] = {
        tillerclover_assert_role(9, &(tillerclover_role){.role = FOREMAN, .authority = WORKS, .last = UINT32_MAX}),
        tillerclover_set_state(7, TILLERCLOVER_RESET),
        tillerclover_set_owner(7, subject(7)),
        tillerclover_store_cred(9, &(tillerclover_cred){.number = 8, .subject = subject(9)}),
        tillerclover_delete_row(TILLERCLOVER_ACL2, 7, 2),
        tillerclover_request_text(TILLERCLOVER_UPDATE, TILLERCLOVER_TARE, 9, "0 kg"),
    };
    for (size_t i = 0; i < sizeof tries / sizeof *tries; i++) {
        count += judge(t, tries[i]).answer == TILLERCLOVER_PERMITTED;
    }
    return count;
}

/* What a record of yard B gets. */
struct told {
    unsigned answer, permission;
    size_t payload;
};

/* Hands the record in, and takes until it comes: within 25 takes. */
static struct told serve(tillerclover_terminal *t, tillerclover_record r)
{
    struct told told = {.answer = hand_in(t, r)};
    for (int i = 0; i < 25 && told.answer == TILLERCLOVER_PERMITTED; i++) {
        tillerclover_taken k = take(t);
        if (tillerclover_record_sender(k.record) == tillerclover_record_sender(r.bytes)) {
            return (struct told){k.outcome.answer, k.outcome.permission, k.outcome.payload_length};
        }
    }
    return told;
}

static const char *const WHAT[RECORDS] = {"8 reads the weight", "8 writes the tare", "11 reads the weight",
                                          "11 writes the tare", "11 zeroes the plate"};

/* Yard B's day, with yard A beside it or without. */
static void day(tillerclover_terminal *t, int with_a, struct told told[RECORDS])
{
    const tillerclover_record records[RECORDS] = {
        tillerclover_request_bare(TILLERCLOVER_RETRIEVE, TILLERCLOVER_WEIGHT, 8),
        tillerclover_request_text(TILLERCLOVER_UPDATE, TILLERCLOVER_TARE, 8, "7420 kg"),
        tillerclover_request_bare(TILLERCLOVER_RETRIEVE, TILLERCLOVER_WEIGHT, 11),
        tillerclover_request_text(TILLERCLOVER_UPDATE, TILLERCLOVER_TARE, 11, "3150 kg"),
        tillerclover_request_bare(TILLERCLOVER_UPDATE, TILLERCLOVER_ZERO, 11)};
    unsigned permitted_of_a = 0;
    for (size_t i = 0; i < RECORDS; i++) {
        permitted_of_a += with_a ? disturb(t) : 0;
        told[i] = serve(t, records[i]);
    }
    if (with_a) {
        printf("yard A sent %d records, and %u were kept or permitted\n", RECORDS * (FLOOD + 6), permitted_of_a);
    }
}

/* The tables without the roles that yard A's partners asserted. */
static tillerclover_tables without_roles(tillerclover_tables tables)
{
    for (size_t i = 0; i < TILLERCLOVER_CRED_CAPACITY; i++) {
        uint8_t *row = tables.creds + i * TILLERCLOVER_CRED_ROW_LENGTH;
        if (memcmp(row, YARD_A, 2) == 0 || memcmp(row, YARD_A + 2, 2) == 0) {
            memset(row + TILLERCLOVER_CRED_ROLES_AT, 0, TILLERCLOVER_ROLE_CAPACITY * TILLERCLOVER_ROLE_LENGTH);
        }
    }
    return tables;
}

/* Yard B's day on two terminals, one of them without yard A. Returns whether it is the same. */
static int compare(tillerclover_terminal *both, tillerclover_terminal *alone)
{
    struct told with_a[RECORDS], without_a[RECORDS];
    day(both, 1, with_a);
    day(alone, 0, without_a);
    printf("%-29s%-25s%s\n", "yard B's day:", "with yard A", "without yard A");
    int same = 1;
    for (size_t i = 0; i < RECORDS; i++) {
        const struct told *w = &with_a[i], *o = &without_a[i];
        printf("    %-24s answer %u, payload of %zu   answer %u, payload of %zu\n", WHAT[i], w->answer, w->payload,
               o->answer, o->payload);
        same &= w->answer == o->answer && w->permission == o->permission && w->payload == o->payload;
    }
    tillerclover_tables left = without_roles(both->tables), right = without_roles(alone->tables);
    int same_tables = memcmp(&left, &right, sizeof left) == 0;
    printf("    the answers are %s, and the tables but for yard A's roles are %s\n", same ? "the same" : "OTHERS",
           same_tables ? "the same" : "OTHERS");
    return same && same_tables;
}

/* The owner stores a row that ends isolation, and deletes it again. */
static void loosen(tillerclover_terminal *t)
{
    const tillerclover_ace moves = {.number = 4,
                                    .kind = TILLERCLOVER_SUBJECT_ROLE,
                                    .role = FOREMAN,
                                    .authority = WORKS,
                                    .permission = TILLERCLOVER_MAY_UPDATE,
                                    .set = TILLERCLOVER_SET_BIT(TILLERCLOVER_PSTAT),
                                    .last = UINT32_MAX};
    permitted(t, tillerclover_set_state(OWNER, TILLERCLOVER_RFPRO));
    permitted(t, tillerclover_store_ace(OWNER, &moves));
    ask_both(t, "the owner lets a foreman move the device state, and the terminal is asked again");
    permitted(t, tillerclover_delete_row(TILLERCLOVER_ACL2, OWNER, 4));
    ask_both(t, "the owner deletes that row");
}

int main(void)
{
    static tillerclover_terminal both, alone;
    if (!tillerclover_identified()) {
        printf("the archive and tillerclover.h are not of one build\n");
        return 1;
    }
    set_up(&both);
    alone = both;
    ask_both(&both, "the terminal is asked");
    int same = compare(&both, &alone);
    loosen(&both);
    return same ? 0 : 1;
}
