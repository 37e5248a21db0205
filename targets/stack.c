/* How deep the calls go into the stack, and that none goes deeper than the header says: the stack is painted before a call,
 * and looked at after it. Prints a line, and exits with 1 where a call needs more.
 */
#include <stdio.h>
#include <stdlib.h>

#include "tillerclover_records.h"

enum {
    /* what the header says that a call may need, twice as much that is painted, and what painting needs itself */
    PROMISED = 8 * 1024,
    PAINTED = 2 * PROMISED,
    OWN = 64,
    PAINT = 0xA7,
    PARTNERS = TILLERCLOVER_CRED_CAPACITY
};

/* ---- The paint */

static volatile uint8_t *below(uintptr_t frame, size_t bytes)
{
    return (volatile uint8_t *)(frame - bytes);
}

/* Paints the stack below its caller's frame, and returns where that ends. */
__attribute__((noinline)) static uintptr_t paint(void)
{
    uintptr_t frame = (uintptr_t)__builtin_frame_address(0);
    for (size_t i = OWN; i < PAINTED; i++) {
        *below(frame, i) = PAINT;
    }
    return frame;
}

/* How many bytes below the frame are painted over. */
__attribute__((noinline)) static size_t used(uintptr_t frame)
{
    size_t bytes = PAINTED - 1;
    while (bytes > OWN && *below(frame, bytes) == PAINT) {
        bytes--;
    }
    return bytes;
}

__attribute__((noinline)) static size_t depth(void (*call)(void))
{
    uintptr_t frame = paint();
    call();
    return used(frame);
}

/* ---- The calls */

static tillerclover_terminal full, x;
static tillerclover_record record;
static uint8_t buffer[TILLERCLOVER_TEXT_MAX], rows[TILLERCLOVER_ACE_CAPACITY * TILLERCLOVER_ACE_LENGTH];
static enum tillerclover_answer answer;

static void judge(void)
{
    answer = tillerclover_judge(&x, NULL, 0, record.bytes, record.length, buffer, sizeof buffer).answer;
}

static void hand_in(void)
{
    answer = tillerclover_hand_in(&x, record.bytes, record.length).answer;
}

static void take(void)
{
    answer = tillerclover_take(&x, NULL, 0, buffer, sizeof buffer).outcome.answer;
}

static void text(void)
{
    answer = tillerclover_access_list(&x, buffer, sizeof buffer).answer;
}

static void test(void)
{
    answer = tillerclover_test_list(rows, sizeof rows).answer;
}

static void convert(void)
{
    answer =
        tillerclover_convert_list(rows, TILLERCLOVER_ACE_CAPACITY * TILLERCLOVER_OLD_ROW_LENGTH, buffer, sizeof buffer)
            .answer;
}

/* The depth of a call that is permitted, and not more than the header says. */
static size_t measured(void (*call)(void))
{
    size_t bytes = depth(call);
    if (answer != TILLERCLOVER_PERMITTED || bytes > PROMISED) {
        printf("stack: a call is answered with %d, and takes %lu bytes\n", (int)answer, (unsigned long)bytes);
        exit(1);
    }
    return bytes;
}

/* The same of a record on full tables in this state, in which a record waits for every seat. */
static size_t judged(enum tillerclover_state state, tillerclover_record judged_record)
{
    x = full;
    x.tables.state = (uint8_t)state;
    record = judged_record;
    return measured(judge);
}

/* The same of a take, where the record waits, a record waits for every other seat, and it is this one's turn. */
static size_t taken(enum tillerclover_state state, tillerclover_record taken_record)
{
    unsigned sender = tillerclover_get_16(taken_record.bytes + TILLERCLOVER_SENDER_AT);
    x = full;
    x.tables.state = (uint8_t)state;
    memset(&x.waiting, 0, sizeof x.waiting);
    for (unsigned i = 0; i <= PARTNERS; i++) {
        record = tillerclover_request_text(TILLERCLOVER_UPDATE, TILLERCLOVER_WEIGHT, i, "7420 kg");
        if (i == sender) {
            record = taken_record;
        }
        measured(hand_in);
    }
    /* the seats are taken in the order of the rows, after the one that was taken last */
    x.waiting.bytes[TILLERCLOVER_WAITING_ROUND_AT] = 1;
    tillerclover_put_16(x.waiting.bytes + TILLERCLOVER_WAITING_ROUND_AT + 1, sender - 1);
    return measured(take);
}

/* ---- The tables */

static const uint8_t *uuid(unsigned number)
{
    static uint8_t bytes[TILLERCLOVER_UUID_LENGTH];
    memset(bytes, (int)number, sizeof bytes);
    return bytes;
}

/* Rows of each kind of subject; the second is for anybody, the last one for the last partner. */
static tillerclover_ace ace(unsigned number)
{
    tillerclover_ace row;
    memset(&row, 0, sizeof row);
    row.number = number;
    row.kind = (enum tillerclover_subject)(number == TILLERCLOVER_ACE_CAPACITY ? 0 : number % 3);
    row.uuid = uuid(PARTNERS);
    row.role = number;
    row.connection = number == 2 ? TILLERCLOVER_ANON_CLEAR : TILLERCLOVER_AUTH_CRYPT;
    row.permission = TILLERCLOVER_MAY_ALL;
    row.wildcards = TILLERCLOVER_WILDCARD_STAR;
    row.set = TILLERCLOVER_SET_BIT(TILLERCLOVER_WEIGHT) | TILLERCLOVER_SET_BIT(TILLERCLOVER_DISPLAY);
    row.last = UINT32_MAX;
    return row;
}

static void fill(void)
{
    x.tables.state = TILLERCLOVER_RFOTM;
    for (unsigned i = 1; i <= PARTNERS; i++) {
        tillerclover_cred row = {i, uuid(i), i, 0, 1};
        record = tillerclover_store_cred(0, &row);
        measured(judge);
    }
    for (unsigned i = 1; i <= TILLERCLOVER_ACE_CAPACITY; i++) {
        tillerclover_ace row = ace(i);
        record = tillerclover_store_ace(0, &row);
        measured(judge);
        tillerclover_pack_ace(rows + (i - 1) * TILLERCLOVER_ACE_LENGTH, &row);
    }
    record = tillerclover_set_owner(0, uuid(1));
    measured(judge);
}

static size_t longest_hand_in(void)
{
    size_t most = 0;
    x.tables.state = TILLERCLOVER_RFNOP;
    for (unsigned i = 0; i <= PARTNERS; i++) {
        record = tillerclover_request_text(TILLERCLOVER_UPDATE, TILLERCLOVER_WEIGHT, i, "7420 kg");
        size_t bytes = measured(hand_in);
        most = bytes > most ? bytes : most;
    }
    return most;
}

/* ---- The figures */

/* The deepest of records of all kinds, each permitted: those that change rows among them. */
static size_t longest(size_t (*depth_of)(enum tillerclover_state, tillerclover_record))
{
    tillerclover_cred cred = {1, uuid(2), 3, 0, 1};
    tillerclover_ace row = ace(1);
    tillerclover_role role = {7, 0, 7};
    const struct {
        enum tillerclover_state state;
        tillerclover_record record;
    } decisions[] = {
        {TILLERCLOVER_RFNOP, tillerclover_request_text(TILLERCLOVER_UPDATE, TILLERCLOVER_TARE, PARTNERS, "7420 kg")},
        {TILLERCLOVER_RFNOP, tillerclover_request_bare(TILLERCLOVER_RETRIEVE, TILLERCLOVER_YARD, PARTNERS)},
        {TILLERCLOVER_RFNOP, tillerclover_request_bare(TILLERCLOVER_RETRIEVE, TILLERCLOVER_DOXM, 1)},
        {TILLERCLOVER_RFNOP, tillerclover_request_bare(TILLERCLOVER_RETRIEVE, TILLERCLOVER_PSTAT, 1)},
        {TILLERCLOVER_RFNOP, tillerclover_request_bare(TILLERCLOVER_RETRIEVE, TILLERCLOVER_CRED, 1)},
        {TILLERCLOVER_RFNOP, tillerclover_request_bare(TILLERCLOVER_RETRIEVE, TILLERCLOVER_ACL2, 1)},
        {TILLERCLOVER_RFNOP, tillerclover_assert_role(PARTNERS, &role)},
        {TILLERCLOVER_RFNOP, tillerclover_set_state(1, TILLERCLOVER_RFPRO)},
        {TILLERCLOVER_RFNOP, tillerclover_set_state(1, TILLERCLOVER_RESET)},
        {TILLERCLOVER_RFPRO, tillerclover_store_cred(1, &cred)},
        {TILLERCLOVER_RFPRO, tillerclover_store_ace(1, &row)},
        {TILLERCLOVER_RFPRO, tillerclover_delete_row(TILLERCLOVER_CRED, 1, 2)},
        {TILLERCLOVER_RFPRO, tillerclover_delete_row(TILLERCLOVER_ACL2, 1, 2)},
        {TILLERCLOVER_RFPRO, tillerclover_delete_subject(1, uuid(3))},
        {TILLERCLOVER_SRESET, tillerclover_set_owner(1, uuid(5))},
        {TILLERCLOVER_SRESET, tillerclover_set_row_owner(TILLERCLOVER_ACL2, 1, uuid(5))},
    };
    size_t most = 0;
    for (size_t i = 0; i < sizeof decisions / sizeof *decisions; i++) {
        size_t bytes = depth_of(decisions[i].state, decisions[i].record);
        most = bytes > most ? bytes : most;
    }
    return most;
}

static size_t on_full(void (*call)(void))
{
    x = full;
    return measured(call);
}

int main(void)
{
    fill();
    size_t handed_in = longest_hand_in();
    full = x;
    size_t decision = longest(judged), take_depth = longest(taken), written = on_full(text), tested = on_full(test);
    memset(rows, 0, sizeof rows);
    for (unsigned i = 0; i < TILLERCLOVER_ACE_CAPACITY; i++) {
        tillerclover_old_row old = {uuid(1), TILLERCLOVER_MAY_ALL, TILLERCLOVER_SET_BIT(TILLERCLOVER_TARE)};
        tillerclover_pack_old_row(rows + i * TILLERCLOVER_OLD_ROW_LENGTH, &old);
    }
    printf("stack: decision %lu, hand-in %lu, take %lu, text %lu, test %lu, conversion %lu bytes\n",
           (unsigned long)decision, (unsigned long)handed_in, (unsigned long)take_depth, (unsigned long)written,
           (unsigned long)tested, (unsigned long)measured(convert));
    return 0;
}
