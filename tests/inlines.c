/* The header's inline functions beside the archive's own: each call is made twice, on two copies, once by the header and once by
 * the archive's function with arguments worked out here. Terminal, buffers and results must be the same. Lengths are those that
 * just fit, one more and one less, and some over 16 and 32 bits, in memory that is mapped and not there. Prints a line of
 * figures, and ends at the first difference. */
#define _DEFAULT_SOURCE
#include <stdio.h>
#include <string.h>
#include <sys/mman.h>

#include "chance.h"
#include "tillerclover_records.h"
#include "tillerclover_store.h"

enum {
    TURNS = 40000,
    REPLY = 1200,
    TEXT = 13100
};

/* ---- Two terminals, one for each side; where its parts begin is written out here */

typedef struct side {
    tillerclover_terminal terminal;
    uint8_t reply[REPLY];
    uint8_t text[TEXT];
} side;

static side header, archive;
static unsigned long calls, permitted, places, replies, links, taken_records, texts, large;

static uint8_t *at(size_t offset)
{
    return (uint8_t *)&archive.terminal + offset;
}

#define PARTS at(0), at(4), at(20), at(84), at(1020), at(2172)
#define TABLES at(0), at(4), at(20), at(84), at(1020)

static void same(const char *what)
{
    expect(memcmp(&header, &archive, sizeof header) == 0, what);
    calls++;
}

/* The words of an outcome in the archive's order, and the table of a DELETE by the record's resource. */
static void same_outcome(const tillerclover_outcome *o, const uint64_t *said, const uint8_t *record)
{
    expect(o->answer == said[0] && o->permission == said[1] && o->payload_offset == said[2] &&
               o->payload_length == said[3] && o->reply_length == said[4] && o->store_first == said[5] &&
               o->store_count == said[6] && o->link_set == said[7] && o->link_count == said[8],
           "a word of an outcome is another");
    const unsigned resource = said[6] == 0 ? 64 : (record[0] * 4u + record[1] / 64u) % 64;
    expect(o->store_table == (resource == 2 ? 1 : resource == 3 ? 2 : 0), "the table to store is another");
    permitted += said[0] == 0;
    places += said[6] != 0;
    replies += said[4] != 0;
    links += said[8] != 0;
}

/* ---- What is sent */

static const uint8_t OWNER[16] = {1, 2, 3, 4, 5, 6, 7, 8, 9, 10, 11, 12, 13, 14, 15, 16};
static uint8_t default_cred[23 * 2] = {0, 100, 9, 9};
static uint8_t default_ace[36 * 2];
static uint8_t anything[512];

static tillerclover_defaults defaults;

static void uuid_of(uint8_t *uuid, unsigned number)
{
    memset(uuid, 0, 16);
    uuid[any(16)] = (uint8_t)(number + 1);
    if (number == 0)
        memcpy(uuid, OWNER, 16);
}

static tillerclover_record a_store(unsigned sender)
{
    uint8_t uuid[16];
    uuid_of(uuid, any(4));
    if (any(2) == 0) {
        const tillerclover_cred row = {1 + any(26), uuid, any(3), 0, 1u << any(6)};
        return tillerclover_store_cred(sender, &row);
    }
    const tillerclover_ace row = {.number = 1 + any(34),
                                  .kind = (enum tillerclover_subject)any(3),
                                  .uuid = uuid,
                                  .role = 1 + any(2),
                                  .connection = any(2) == 0 ? TILLERCLOVER_ANON_CLEAR : TILLERCLOVER_AUTH_CRYPT,
                                  .permission = any(32),
                                  .wildcards = any(8),
                                  .set = TILLERCLOVER_SET_BIT(any(5)) | TILLERCLOVER_SET_BIT(8 + any(7)) |
                                         TILLERCLOVER_SET_BIT(16),
                                  .first = 0,
                                  .last = any(4) == 0   ? any(2000)
                                          : any(3) == 0 ? 70000
                                                        : UINT32_MAX};
    return tillerclover_store_ace(sender, &row);
}

static tillerclover_record a_record(void)
{
    const unsigned sender = any(3) == 0 ? 0 : any(8) == 0 ? 1 + any(26) : 1 + any(4);
    const enum tillerclover_resource table = any(2) == 0 ? TILLERCLOVER_CRED : TILLERCLOVER_ACL2;
    const tillerclover_role role = {1 + any(2), 0, any(3000)};
    switch (any(14)) {
    case 0:
    case 1:
    case 2:
    case 3:
        return a_store(sender);
    case 4:
        return tillerclover_delete_row(table, sender, 1 + any(34));
    case 5:
        return any(6) == 0 ? tillerclover_request_bare(TILLERCLOVER_DELETE, table, sender)
                           : tillerclover_delete_subject(sender, OWNER);
    case 6:
        return tillerclover_set_owner(sender, OWNER);
    case 7:
        return tillerclover_set_state(sender, (enum tillerclover_state)(any(12) == 0 ? 0 : 2 + any(2)));
    case 8:
    case 9:
        return tillerclover_request_bare(any(2) == 0 ? TILLERCLOVER_RETRIEVE : TILLERCLOVER_OBSERVE,
                                         (enum tillerclover_resource)any(17), sender);
    case 10:
        return tillerclover_request_bare(any(2) == 0 ? TILLERCLOVER_RETRIEVE : TILLERCLOVER_UPDATE, TILLERCLOVER_YARD,
                                         sender);
    case 11:
        return tillerclover_assert_role(sender, &role);
    case 12:
        return tillerclover_record_of(any(8), any(2) == 0 ? TILLERCLOVER_ANON_CLEAR : TILLERCLOVER_AUTH_CRYPT, any(64),
                                      sender, anything, any(300));
    default:
        return tillerclover_request(TILLERCLOVER_UPDATE, (enum tillerclover_resource)(8 + any(7)), sender, anything,
                                    any(20));
    }
}

/* Clocks around the ends of seasons, of 16 bits and of 32. */
static uint32_t a_clock(void)
{
    const unsigned which = any(6);
    return which == 0 ? UINT32_MAX - any(3) : which < 3 ? 69998 + any(5) : any(2500);
}

/* ---- The calls */

static void judge(tillerclover_record r, size_t length, size_t capacity)
{
    uint64_t said[TILLERCLOVER_SAID];
    const uint32_t clock = a_clock();
    const tillerclover_outcome o =
        tillerclover_judge(&header.terminal, &defaults, clock, r.bytes, length, header.reply, capacity);
    tillerclover_judge_at(PARTS, defaults.creds, defaults.creds_length, defaults.aces, defaults.aces_length, clock,
                          r.bytes, length, archive.reply, capacity, said);
    same_outcome(&o, said, r.bytes);
    same("judge");
}

static void hand_in(tillerclover_record r, size_t length)
{
    uint64_t said[TILLERCLOVER_SAID];
    const tillerclover_outcome o = tillerclover_hand_in(&header.terminal, r.bytes, length);
    tillerclover_hand_in_at(PARTS, r.bytes, length, said);
    same_outcome(&o, said, r.bytes);
    same("hand_in");
}

static void take(size_t capacity)
{
    uint64_t said[TILLERCLOVER_SAID], length;
    uint8_t bytes[TILLERCLOVER_RECORD_MAX];
    memset(bytes, 0xAB, sizeof bytes);
    const uint32_t clock = a_clock();
    const tillerclover_taken taken = tillerclover_take(&header.terminal, &defaults, clock, header.reply, capacity);
    tillerclover_take_at(PARTS, defaults.creds, defaults.creds_length, defaults.aces, defaults.aces_length, clock,
                         archive.reply, capacity, said, &length, bytes);
    same_outcome(&taken.outcome, said, bytes);
    expect(taken.record_length == length && memcmp(taken.record, bytes, sizeof bytes) == 0, "another record is taken");
    for (size_t i = taken.record_length; i < sizeof taken.record; i++)
        expect(taken.record[i] == 0, "zeros follow a record that is taken");
    taken_records += length != 0;
    same("take");
}

static void text(size_t capacity)
{
    uint64_t said[2];
    const tillerclover_listed listed = tillerclover_access_list(&header.terminal, header.text, capacity);
    tillerclover_access_list_at(PARTS, archive.text, capacity, said);
    expect(listed.answer == said[0] && listed.length == said[1], "another text");
    texts += said[0] == 0;
    same("access_list");
}

static void test(const uint8_t *rows, size_t length)
{
    uint64_t said[2];
    const tillerclover_tested tested = tillerclover_test_list(rows, length);
    tillerclover_test_list_at(rows, length, said);
    expect(tested.answer == said[0] && tested.row == said[1], "another test of a list");
    calls++;
}

static void convert(const uint8_t *file, size_t length, size_t capacity)
{
    uint64_t said[2];
    const tillerclover_converted converted = tillerclover_convert_list(file, length, header.text, capacity);
    tillerclover_convert_list_at(file, length, archive.text, capacity, said);
    expect(converted.answer == said[0] && converted.length == said[1], "another conversion");
    same("convert_list");
}

static void isolated(const uint8_t *senders, size_t length)
{
    uint64_t said[3];
    const tillerclover_isolation isolation = tillerclover_isolated(&header.terminal, senders, length);
    tillerclover_isolated_at(TABLES, senders, length, said);
    expect(isolation.reason == said[0] && isolation.entry == said[1] && isolation.row == said[2], "another isolation");
    same("isolated");
}

static void sound(void)
{
    expect(tillerclover_is_sound(&header.terminal) == (tillerclover_is_sound_at(PARTS) == 1), "another soundness");
    same("is_sound");
}

static void renew(unsigned which)
{
    const tillerclover_defaults *const given = which % 2 == 0 ? NULL : &defaults;
    const tillerclover_defaults used = given == NULL ? (tillerclover_defaults){anything, 0, anything, 0} : defaults;
    if (which < 2) {
        tillerclover_fresh(&header.terminal, given);
        tillerclover_fresh_at(PARTS, used.creds, used.creds_length, used.aces, used.aces_length);
    } else {
        tillerclover_clear(&header.terminal, given);
        tillerclover_clear_at(PARTS, used.creds, used.creds_length, used.aces, used.aces_length);
    }
    same("fresh or clear");
}

/* ---- Lists and files: rows as the header packs them */

static size_t a_list(uint8_t *rows)
{
    const size_t count = any(5);
    for (size_t i = 0; i < count; i++) {
        const tillerclover_record r = a_store(0);
        memcpy(rows + 36 * i, r.bytes + 4, 36);
    }
    return 36 * count + (any(8) == 0);
}

static size_t a_file(uint8_t *rows)
{
    const size_t count = any(6);
    for (size_t i = 0; i < count; i++) {
        const tillerclover_old_row row = {any(3) == 0 ? anything : OWNER, any(32), TILLERCLOVER_SET_BIT(8 + any(7))};
        tillerclover_pack_old_row(rows + 25 * i, &row);
    }
    return 25 * count + (any(12) == 0);
}

static void sent(tillerclover_record r)
{
    judge(r, r.length, REPLY);
}

/* A new terminal with partners and wide access rows, in any of three states. */
static void set_up(void)
{
    renew(any(4));
    for (unsigned i = 1; i <= 4; i++) {
        uint8_t uuid[16];
        uuid_of(uuid, i - 1);
        const tillerclover_cred cred = {i, uuid, any(3), 0, 0};
        const tillerclover_ace ace = {.number = i,
                                      .kind = TILLERCLOVER_SUBJECT_CONNECTION,
                                      .connection = i % 2 == 0 ? TILLERCLOVER_ANON_CLEAR : TILLERCLOVER_AUTH_CRYPT,
                                      .permission = any(32),
                                      .wildcards = 7,
                                      .set = UINT64_C(0xF8FE800000000000),
                                      .last = any(2) == 0 ? 70000 : UINT32_MAX};
        sent(tillerclover_store_cred(0, &cred));
        sent(tillerclover_store_ace(0, &ace));
    }
    const unsigned state = any(3);
    if (state > 0) {
        sent(tillerclover_set_owner(0, OWNER));
        sent(tillerclover_set_state(1, TILLERCLOVER_RFPRO));
    }
    if (state > 1)
        sent(tillerclover_set_state(1, TILLERCLOVER_RFNOP));
}

static void turn(void)
{
    static uint8_t rows[36 * 34], file[25 * 34];
    const tillerclover_record r = a_record();
    size_t length;
    switch (any(20)) {
    case 0:
        length = a_list(rows);
        test(rows, length);
        break;
    case 1:
        length = a_file(file);
        convert(file, length, any(2) == 0 ? TEXT : any(400));
        break;
    case 2:
        text(any(2) == 0 ? TEXT : any(600));
        break;
    case 3:
        for (size_t i = 0; i < 6; i++)
            rows[i] = i % 2 == 0 ? 0 : (uint8_t)any(27);
        isolated(rows, any(7));
        break;
    case 4:
        sound();
        break;
    case 5:
    case 6:
        take(any(3) == 0 ? any(100) : REPLY);
        break;
    case 7:
    case 8:
    case 9:
        hand_in(r, r.length);
        break;
    default:
        judge(r, r.length, any(3) == 0 ? any(100) : REPLY);
    }
    if (any(200) == 0)
        set_up();
    if (any(5000) == 0) {
        header.terminal.tables.ncreds = archive.terminal.tables.ncreds = 25;
        sound();
        renew(any(4));
    }
}

/* ---- Capacities that just fit, and lengths over 16 and 32 bits */

/* Full tables of rows whose texts are the longest: the text is TEXT_MAX long, and a byte less is too short. */
static void full(void)
{
    renew(0);
    for (unsigned i = 0; i < TILLERCLOVER_ACE_CAPACITY; i++) {
        const uint8_t uuid[16] = {255, (uint8_t)i};
        const tillerclover_ace row = {.number = 65535 - i,
                                      .kind = TILLERCLOVER_SUBJECT_UUID,
                                      .uuid = uuid,
                                      .permission = 31,
                                      .wildcards = 7,
                                      .set = UINT64_C(0xF8FE800000000000),
                                      .last = UINT32_MAX};
        const tillerclover_record r = tillerclover_store_ace(0, &row);
        judge(r, r.length, REPLY);
    }
    const tillerclover_listed listed = tillerclover_access_list(&header.terminal, header.text, TILLERCLOVER_TEXT_MAX);
    expect(listed.answer == TILLERCLOVER_PERMITTED && listed.length == TILLERCLOVER_TEXT_MAX, "the longest text fits");
    expect(tillerclover_access_list(&header.terminal, header.text, TILLERCLOVER_TEXT_MAX - 1).answer ==
               TILLERCLOVER_LIST_NO_ROOM,
           "the longest text is too long by a byte");
    memcpy(archive.text, header.text, sizeof archive.text);
    const tillerclover_record read = tillerclover_request_bare(TILLERCLOVER_RETRIEVE, TILLERCLOVER_ACL2, 0);
    for (size_t capacity = TILLERCLOVER_REPLY_MAX - 1; capacity <= TILLERCLOVER_REPLY_MAX; capacity++)
        judge(read, read.length, capacity);
    expect(tillerclover_judge(&header.terminal, NULL, 0, read.bytes, read.length, header.reply, TILLERCLOVER_REPLY_MAX)
                   .reply_length == TILLERCLOVER_REPLY_MAX,
           "the longest reply fits");
    memcpy(archive.reply, header.reply, sizeof archive.reply);
    /* a DELETE of the first row, of one in the middle, and of all */
    for (unsigned i = 0; i < 3; i++) {
        const tillerclover_record first = tillerclover_delete_row(TILLERCLOVER_ACL2, 0, 65535 - 2 * i);
        judge(first, first.length, REPLY);
    }
    const tillerclover_record all = tillerclover_request_bare(TILLERCLOVER_DELETE, TILLERCLOVER_ACL2, 0);
    judge(all, all.length, REPLY);
    for (unsigned i = 1; i <= TILLERCLOVER_CRED_CAPACITY; i++) {
        const tillerclover_cred row = {i, OWNER, 0, 0, 0};
        const tillerclover_record r = tillerclover_store_cred(0, &row);
        judge(r, r.length, REPLY);
    }
    const tillerclover_record first = tillerclover_delete_row(TILLERCLOVER_CRED, 0, 1),
                              every = tillerclover_request_bare(TILLERCLOVER_DELETE, TILLERCLOVER_CRED, 0);
    judge(first, first.length, REPLY);
    judge(every, every.length, REPLY);
}

/* A reply of 33 bytes, taken with a buffer that is a byte too short, that just fits, and that has a byte more. */
static void fits(void)
{
    const tillerclover_record r = tillerclover_request_bare(TILLERCLOVER_RETRIEVE, TILLERCLOVER_DOXM, 0);
    renew(0);
    for (size_t capacity = 31; capacity <= 35; capacity++) {
        judge(r, r.length, capacity);
        hand_in(r, r.length);
        take(capacity);
    }
}

/* The longest records, and one byte more, through judge and hand-in. */
static void long_records(void)
{
    renew(0);
    for (size_t length = 250; length <= 257; length++) {
        const tillerclover_record r = tillerclover_record_of(TILLERCLOVER_UPDATE, TILLERCLOVER_ANON_CLEAR,
                                                             TILLERCLOVER_WEIGHT, 0, anything, length - 4);
        judge(r, length, 0);
        hand_in(r, length);
        take(REPLY);
    }
}

/* Lengths whose low 16 or 32 bits are a good length. */
static void large_lengths(void)
{
    static const uint64_t over[] = {UINT64_C(1) << 16, UINT64_C(1) << 32};
    if (sizeof(size_t) < 8)
        return;
    const size_t mapped = (size_t)over[1] + 65536;
    uint8_t *memory =
        (uint8_t *)mmap(NULL, mapped, PROT_READ | PROT_WRITE, MAP_PRIVATE | MAP_ANONYMOUS | MAP_NORESERVE, -1, 0);
    expect(memory != MAP_FAILED, "memory is mapped");
    renew(0);
    const tillerclover_record r = tillerclover_request_bare(TILLERCLOVER_RETRIEVE, TILLERCLOVER_DOXM, 0);
    memcpy(memory, r.bytes, r.length);
    for (size_t i = 0; i < sizeof over / sizeof *over; i++) {
        const size_t more = (size_t)over[i];
        uint64_t said[TILLERCLOVER_SAID];
        const tillerclover_outcome o =
            tillerclover_judge(&header.terminal, NULL, 0, memory, more + r.length, header.reply, 0);
        expect(o.answer == TILLERCLOVER_BAD_LENGTH, "a record that is far too long is judged");
        expect(tillerclover_hand_in(&header.terminal, memory, more + r.length).answer == TILLERCLOVER_BAD_LENGTH,
               "a record that is far too long is kept");
        expect(tillerclover_test_list(memory, more + 36).answer == TILLERCLOVER_TEST_BAD_SIZE,
               "a list that is far too long is tested");
        expect(tillerclover_convert_list(memory, more + 25, header.text, TEXT).answer == TILLERCLOVER_CONVERT_BAD_FILE,
               "a file that is far too long is converted");
        memcpy(archive.text, header.text, sizeof archive.text);
        expect(tillerclover_isolated(&header.terminal, memory, more).reason == TILLERCLOVER_ISOLATION_NO_OWNER,
               "a list of senders that is far too long is asked about");
        /* buffers that are far longer than any reply, text or list */
        expect(tillerclover_judge(&header.terminal, NULL, 0, r.bytes, r.length, memory + 64, more + 1).reply_length ==
                   33,
               "a long buffer takes a reply");
        expect(tillerclover_access_list(&header.terminal, memory + 128, more + 1).answer == TILLERCLOVER_PERMITTED,
               "a long buffer takes a text");
        expect(tillerclover_convert_list(memory + 4096, 25, memory + 128, more + 1).answer == TILLERCLOVER_PERMITTED,
               "a long buffer takes rows");
        expect(tillerclover_hand_in(&header.terminal, r.bytes, r.length).answer == TILLERCLOVER_KEPT, "it is kept");
        expect(tillerclover_take(&header.terminal, NULL, 0, memory + 64, more + 1).outcome.reply_length == 33,
               "a long buffer takes the reply of a take");
        tillerclover_hand_in_at(PARTS, r.bytes, r.length, said);
        uint64_t length;
        uint8_t bytes[TILLERCLOVER_RECORD_MAX];
        tillerclover_take_at(PARTS, anything, 0, anything, 0, 0, archive.reply, REPLY, said, &length, bytes);
        memcpy(header.reply, archive.reply, sizeof archive.reply);
        same("long buffers");
        /* default rows: a list that is far too long counts as none */
        const tillerclover_defaults lists = {memory + 8192, more + 23, memory + 8192, more + 36};
        tillerclover_fresh(&header.terminal, &lists);
        expect(header.terminal.tables.ncreds == 0 && header.terminal.tables.naces == 0, "long lists count as none");
        renew(0);
        large += 12;
    }
    munmap(memory, mapped);
}

int main(void)
{
    for (size_t i = 0; i < sizeof anything; i++)
        anything[i] = (uint8_t)any(256);
    memset(anything, 0, 16);
    const tillerclover_ace row = {.number = 7,
                                  .kind = TILLERCLOVER_SUBJECT_ROLE,
                                  .role = 1,
                                  .permission = 2,
                                  .set = TILLERCLOVER_SET_BIT(8),
                                  .last = 900};
    tillerclover_pack_ace(default_ace, &row);
    defaults = (tillerclover_defaults){default_cred, 23, default_ace, 36};
    renew(1);
    expect(header.terminal.tables.ncreds == 1 && header.terminal.tables.naces == 1, "default rows are there");
    for (unsigned i = 0; i < TURNS; i++)
        turn();
    full();
    fits();
    long_records();
    large_lengths();
    const int n = 3;
    expect(TILLERCLOVER_STORE_LENGTH(n + 1) == 16 && 2 * TILLERCLOVER_STORE_LENGTH(n) == 28, "the length of a store");
    expect(2 * (int)(TILLERCLOVER_SET_BIT(62 | 1) & 3) == 2 && TILLERCLOVER_SET_BIT(n - 3) >> 63 == 1 &&
               TILLERCLOVER_SET_BIT(n) * 2 == UINT64_C(1) << 61,
           "the bit of a resource");
    printf("%lu calls, each by the header and by the archive's function; %lu permitted, %lu with places to store, %lu "
           "replies, %lu "
           "links, %lu records taken, %lu texts; %lu large lengths\n",
           calls, permitted, places, replies, links, taken_records, texts, large);
    expect(permitted > 1000 && places > 100 && replies > 100 && links > 50 && taken_records > 100 && texts > 100,
           "every kind of result is seen");
    return 0;
}
