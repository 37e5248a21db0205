/* The C interface against its header: layouts, edges of buffers and lengths, what a refusal leaves, and pointers to nothing.
 * What each answer is for is proved; that C sees the same bytes is tried here, on every processor. Prints nothing, and
 * exits with 1 at the first fault. */
#include <stdlib.h>
#include <string.h>

#include "expect.h"
#include "tillerclover_records.h"

enum {
    OWNER = 5,
    HAULIER = 7,
    ROLE = 7,
    OTHER_ROLE = 12,
    WORKS = 0,
    AUTHORITY = 2,
    OTHER_AUTHORITY = 3
};

static const uint8_t OWNER_UUID[TILLERCLOVER_UUID_LENGTH] = {0x5b, 0x0d, 0x3a, 0x64, 0x9c, 0x21, 0x4e, 0x7f,
                                                             0x8a, 0x15, 0x3d, 0xe2, 0x90, 0xc7, 0x46, 0x18};
static const uint8_t HAULIER_UUID[TILLERCLOVER_UUID_LENGTH] = {0xc4, 0x71, 0x0e, 0x95, 0x33, 0xda, 0x48, 0x02,
                                                               0xb6, 0x5f, 0x87, 0x1b, 0x2e, 0x60, 0xf9, 0xad};
static const uint8_t NIL[TILLERCLOVER_UUID_LENGTH];

/* ---- Records and rows */

static tillerclover_record store_cred(unsigned sender, tillerclover_cred row)
{
    return tillerclover_store_cred(sender, &row);
}

static tillerclover_record store_ace(unsigned sender, tillerclover_ace row)
{
    return tillerclover_store_ace(sender, &row);
}

static tillerclover_record bare(enum tillerclover_verb verb, enum tillerclover_resource resource, unsigned sender)
{
    return tillerclover_request_bare(verb, resource, sender);
}

/* A credential row without a role. */
static tillerclover_cred cred(unsigned number, const uint8_t uuid[TILLERCLOVER_UUID_LENGTH])
{
    return (tillerclover_cred){.number = number, .subject = uuid, .type = 1};
}

/* An access row that grants a UUID one resource, for every second. */
static tillerclover_ace ace(unsigned number, unsigned permission, enum tillerclover_resource resource,
                            const uint8_t uuid[TILLERCLOVER_UUID_LENGTH])
{
    return (tillerclover_ace){.number = number,
                              .kind = TILLERCLOVER_SUBJECT_UUID,
                              .uuid = uuid,
                              .permission = permission,
                              .set = TILLERCLOVER_SET_BIT(resource),
                              .last = UINT32_MAX};
}

/* The record with the body that leaves the authority out, and the one that leaves the period out. */
static tillerclover_record short_cred(tillerclover_record r)
{
    r.bytes[r.length - 3] = r.bytes[r.length - 1];
    r.length -= 2;
    return r;
}

static tillerclover_record short_ace(tillerclover_record r)
{
    r.length -= 8;
    return r;
}

static const uint8_t *body_of(const tillerclover_record *r)
{
    return r->bytes + TILLERCLOVER_HEADER_LENGTH;
}

/* ---- Calls on one terminal without default rows. It is at an odd address, with a byte before and after it that no call
 * may change. */

static uint8_t memory[1 + sizeof(tillerclover_terminal) + 1];
static tillerclover_terminal *const x = (tillerclover_terminal *)(memory + 1);
static uint8_t reply[TILLERCLOVER_REPLY_MAX];
static uint32_t now;

static void guarded(void)
{
    expect(memory[0] == 0x6D && memory[sizeof memory - 1] == 0x6D, "a byte beside the terminal was written");
}

static void fresh(void)
{
    tillerclover_fresh(x, NULL);
}

/* A refusal must leave every byte. */
static tillerclover_outcome judge(tillerclover_record r)
{
    static tillerclover_terminal before;
    memcpy(&before, x, sizeof before);
    tillerclover_outcome o = tillerclover_judge(x, NULL, now, r.bytes, r.length, reply, sizeof reply);
    expect(o.answer == TILLERCLOVER_PERMITTED || memcmp(x, &before, sizeof before) == 0, "a refusal wrote");
    guarded();
    return o;
}

static enum tillerclover_answer answer(tillerclover_record r)
{
    return judge(r).answer;
}

/* A record that must be permitted. */
static void must(tillerclover_record r)
{
    expect(answer(r) == TILLERCLOVER_PERMITTED, "a record that sets a test up was refused");
}

static tillerclover_outcome hand_in(tillerclover_record r)
{
    static tillerclover_terminal before;
    memcpy(&before, x, sizeof before);
    tillerclover_outcome o = tillerclover_hand_in(x, r.bytes, r.length);
    expect(memcmp(&x->tables, &before.tables, sizeof before.tables) == 0, "a hand-in changed the tables");
    expect(o.answer == TILLERCLOVER_PERMITTED || memcmp(x, &before, sizeof before) == 0, "a refusal wrote");
    guarded();
    return o;
}

static tillerclover_taken take(void)
{
    tillerclover_taken t = tillerclover_take(x, NULL, now, reply, sizeof reply);
    guarded();
    return t;
}

static int holds(const tillerclover_tables *t)
{
    return memcmp(&x->tables, t, sizeof *t) == 0;
}

/* An owned terminal in RFPRO: the owner's credential row, and a haulier's. */
static void owned(void)
{
    fresh();
    must(store_cred(0, cred(OWNER, OWNER_UUID)));
    must(store_cred(0, cred(HAULIER, HAULIER_UUID)));
    must(tillerclover_set_owner(0, OWNER_UUID));
    must(tillerclover_set_state(OWNER, TILLERCLOVER_RFPRO));
}

/* Bytes that show where they come from. */
static void pattern(void)
{
    uint8_t *bytes = (uint8_t *)&x->tables;
    for (size_t i = 0; i < sizeof x->tables; i++) {
        bytes[i] = (uint8_t)(i * 37 + i / 256 + 101);
    }
}

/* ---- The terminal: the library's layout against the header's */

/* A new terminal, whatever the memory held. */
static void new_terminals(void)
{
    static const tillerclover_waiting nothing;
    tillerclover_tables expected;
    memset(&expected, 0, sizeof expected);
    expected.state = TILLERCLOVER_RFOTM;
    for (int byte = 0; byte < 256; byte += 85) {
        memset(x, byte, sizeof *x);
        expect(!tillerclover_is_sound(x), "memory of one byte is sound");
        tillerclover_clear(x, NULL);
        expect(holds(&expected), "tables are not fresh after clearing");
        expect(memcmp(&x->waiting, &nothing, sizeof nothing) == 0, "a record waits after clearing");
        memset(x, byte, sizeof *x);
        tillerclover_fresh(x, NULL);
        expect(holds(&expected), "fresh tables have other bytes");
        expect(memcmp(&x->waiting, &nothing, sizeof nothing) == 0, "a record waits in a new terminal");
        expect(tillerclover_is_sound(x), "a new terminal is not sound");
        guarded();
    }
}

static int nothing_but_answer(const tillerclover_outcome *o)
{
    return o->permission == 0 && o->payload_offset == 0 && o->payload_length == 0 && o->reply_length == 0 &&
           o->store_table == TILLERCLOVER_NO_TABLE && o->store_first == 0 && o->store_count == 0 && o->link_set == 0 &&
           o->link_count == 0;
}

static void refused_tables(void)
{
    pattern();
    tillerclover_outcome o = judge(bare(TILLERCLOVER_RETRIEVE, TILLERCLOVER_WEIGHT, 0));
    expect(o.answer == TILLERCLOVER_NOT_SOUND && !tillerclover_is_sound(x), "tables of any bytes were taken for sound");
    expect(nothing_but_answer(&o), "a refusal has a permission, a payload, a reply, places or links");
}

/* Each field is written by the library and read here by its name. Credential row 100 + i is row i of its table, and so
 * is access row 200 + i. Both tables are full. Both forms of a body store the row. */
static void each_field(void)
{
    tillerclover_tables expected;
    tillerclover_record r;
    fresh();
    expected = x->tables;
    for (unsigned i = 0; i < TILLERCLOVER_ROW_OWNERS; i++) {
        uint8_t uuid[TILLERCLOVER_UUID_LENGTH];
        memset(uuid, (int)(0x20 + i), sizeof uuid);
        must(tillerclover_set_row_owner((enum tillerclover_resource)i, 0, uuid));
        memcpy(expected.rowners + i * sizeof uuid, uuid, sizeof uuid);
        expect(holds(&expected), "rowners stands elsewhere");
    }
    for (unsigned i = 0; i < TILLERCLOVER_CRED_CAPACITY; i++) {
        r = store_cred(0, cred(100 + i, OWNER_UUID));
        must(i % 2 ? short_cred(r) : r);
        expected.ncreds++;
        memcpy(expected.creds + i * TILLERCLOVER_CRED_ROW_LENGTH, body_of(&r), TILLERCLOVER_CRED_LENGTH);
        expect(holds(&expected), "creds or ncreds stands elsewhere");
    }
    for (unsigned i = 0; i < TILLERCLOVER_ACE_CAPACITY; i++) {
        r = store_ace(0, ace(200 + i, TILLERCLOVER_MAY_ALL, TILLERCLOVER_LAMP, OWNER_UUID));
        must(i % 2 ? short_ace(r) : r);
        expected.naces++;
        memcpy(expected.aces + i * TILLERCLOVER_ACE_LENGTH, body_of(&r), TILLERCLOVER_ACE_LENGTH);
        expect(holds(&expected), "aces or naces stands elsewhere");
    }
    must(tillerclover_set_owner(0, OWNER_UUID));
    expected.owned = 1;
    memcpy(expected.devowner, OWNER_UUID, sizeof OWNER_UUID);
    expect(holds(&expected), "owned or devowner stands elsewhere");
    must(tillerclover_set_state(100, TILLERCLOVER_RFPRO));
    must(tillerclover_set_state(100, TILLERCLOVER_RFNOP));
    expected.state = TILLERCLOVER_RFNOP;
    expect(holds(&expected), "state stands elsewhere");
}

/* Outcomes whose fields all differ, on those full tables. */
static void each_outcome(void)
{
    const tillerclover_tables before = x->tables;
    tillerclover_outcome o = judge(tillerclover_request_text(TILLERCLOVER_UPDATE, TILLERCLOVER_LAMP, 100, "on"));
    expect(o.answer == TILLERCLOVER_PERMITTED && o.permission == TILLERCLOVER_MAY_ALL,
           "answer or permission stands elsewhere");
    expect(o.payload_offset == 4 && o.payload_length == 2 && o.reply_length == 0 && o.store_first == 0 &&
               o.store_count == 0 && o.store_table == TILLERCLOVER_NO_TABLE && o.link_set == 0 && o.link_count == 0,
           "the payload stands elsewhere");
    expect(holds(&before), "a payload changed the tables");
    o = judge(bare(TILLERCLOVER_RETRIEVE, TILLERCLOVER_CRED, 100));
    expect(o.answer == TILLERCLOVER_PERMITTED && o.payload_offset == 0 && o.payload_length == 0,
           "the payload stands elsewhere");
    expect(o.reply_length == TILLERCLOVER_UUID_LENGTH + TILLERCLOVER_CRED_CAPACITY * TILLERCLOVER_CRED_LENGTH &&
               o.store_first == 0 && o.store_count == 0,
           "the reply's length stands elsewhere");
    expect(holds(&before), "a reply changed the tables");
    o = judge(store_ace(100, ace(1, 0, TILLERCLOVER_LAMP, OWNER_UUID)));
    expect(o.answer == TILLERCLOVER_WRONG_STATE && nothing_but_answer(&o), "a refusal has other fields");
}

/* One row deleted of each table: the caller stores the rows that are named, and the count. */
static void stored_rows(void)
{
    must(tillerclover_set_state(100, TILLERCLOVER_RFPRO));
    tillerclover_tables stored = x->tables;
    tillerclover_outcome o = judge(tillerclover_delete_row(TILLERCLOVER_ACL2, 100, 205));
    expect(o.answer == TILLERCLOVER_PERMITTED && o.reply_length == 0, "a row was not deleted");
    expect(o.store_table == TILLERCLOVER_ACES && o.store_first == 5 && o.store_count == TILLERCLOVER_ACE_CAPACITY - 5,
           "the places to store stand elsewhere");
    stored.naces = x->tables.naces;
    memcpy(stored.aces + o.store_first * TILLERCLOVER_ACE_LENGTH,
           x->tables.aces + o.store_first * TILLERCLOVER_ACE_LENGTH, o.store_count * TILLERCLOVER_ACE_LENGTH);
    expect(holds(&stored), "a delete changed another place");
    o = judge(tillerclover_delete_row(TILLERCLOVER_CRED, 100, 123));
    expect(o.store_table == TILLERCLOVER_CREDS && o.store_first == 23 && o.store_count == 1,
           "the last credential row stands elsewhere");
    o = judge(tillerclover_delete_row(TILLERCLOVER_CRED, 100, 1));
    expect(o.answer == TILLERCLOVER_MISSING && nothing_but_answer(&o), "a refusal names places");
    o = judge(tillerclover_delete_subject(100, HAULIER_UUID));
    expect(o.answer == TILLERCLOVER_MISSING && nothing_but_answer(&o), "a subject without rows was deleted");
    expect(hand_in(tillerclover_delete_row(TILLERCLOVER_ACL2, 100, 231)).answer == TILLERCLOVER_KEPT,
           "a record was not kept");
    o = take().outcome;
    expect(o.store_table == TILLERCLOVER_ACES && o.store_first == 30 && o.store_count == 1,
           "the places of a take stand elsewhere");
}

/* The links of the yard: one more for each row that is stored. DISPLAY has no secure endpoint. */
static void links(void)
{
    uint64_t set = 0;
    size_t count = 0;
    owned();
    must(store_ace(OWNER, ace(1, TILLERCLOVER_MAY_RETRIEVE, TILLERCLOVER_YARD, OWNER_UUID)));
    for (unsigned link = TILLERCLOVER_WEIGHT; link <= TILLERCLOVER_DISPLAY; link++) {
        must(store_ace(OWNER, ace(link, TILLERCLOVER_MAY_RETRIEVE, (enum tillerclover_resource)link, OWNER_UUID)));
        must(tillerclover_set_state(OWNER, TILLERCLOVER_RFNOP));
        if (link != TILLERCLOVER_DISPLAY) {
            set |= UINT64_C(0x8000000000000000) >> link;
            count++;
        }
        const tillerclover_tables before = x->tables;
        tillerclover_outcome o = judge(bare(TILLERCLOVER_RETRIEVE, TILLERCLOVER_YARD, OWNER));
        expect(o.answer == TILLERCLOVER_PERMITTED && o.link_set == set && o.link_count == count,
               "the links stand elsewhere");
        expect(holds(&before), "links changed the tables");
        o = judge(bare(TILLERCLOVER_OBSERVE, TILLERCLOVER_YARD, OWNER));
        expect(o.answer == TILLERCLOVER_PERMITTED && o.link_set == 0 && o.link_count == 0, "an OBSERVE has links");
        must(tillerclover_set_state(OWNER, TILLERCLOVER_RFPRO));
    }
}

/* What the wildcards and the kinds of subject are called is what the library takes them for. */
static void subjects_and_wildcards(void)
{
    static const struct {
        tillerclover_ace row;
        enum tillerclover_resource resource;
        unsigned sender;
    } FITS[] = {
        {{.kind = TILLERCLOVER_SUBJECT_CONNECTION,
          .connection = TILLERCLOVER_ANON_CLEAR,
          .wildcards = TILLERCLOVER_WILDCARD_MINUS},
         TILLERCLOVER_WEIGHT,
         0},
        {{.kind = TILLERCLOVER_SUBJECT_CONNECTION,
          .connection = TILLERCLOVER_AUTH_CRYPT,
          .wildcards = TILLERCLOVER_WILDCARD_PLUS},
         TILLERCLOVER_TARE,
         HAULIER},
        {{.kind = TILLERCLOVER_SUBJECT_ROLE,
          .role = ROLE,
          .authority = AUTHORITY,
          .wildcards = TILLERCLOVER_WILDCARD_STAR},
         TILLERCLOVER_CALIB,
         HAULIER},
        {{.kind = TILLERCLOVER_SUBJECT_UUID, .uuid = HAULIER_UUID, .wildcards = TILLERCLOVER_WILDCARD_STAR},
         TILLERCLOVER_CALIB,
         HAULIER},
    };
    for (size_t i = 0; i < sizeof FITS / sizeof *FITS; i++) {
        tillerclover_cred haulier = cred(HAULIER, HAULIER_UUID);
        tillerclover_ace row = FITS[i].row;
        row.number = 1;
        row.permission = TILLERCLOVER_MAY_RETRIEVE;
        row.last = UINT32_MAX;
        haulier.role = ROLE;
        haulier.authority = AUTHORITY;
        owned();
        must(store_cred(OWNER, haulier));
        tillerclover_record read = bare(TILLERCLOVER_RETRIEVE, FITS[i].resource, FITS[i].sender);
        must(tillerclover_set_state(OWNER, TILLERCLOVER_RFNOP));
        expect(answer(read) == TILLERCLOVER_NOT_PERMITTED, "a sender may read without a row");
        must(tillerclover_set_state(OWNER, TILLERCLOVER_RFPRO));
        must(store_ace(OWNER, row));
        must(tillerclover_set_state(OWNER, TILLERCLOVER_RFNOP));
        expect(judge(read).permission == TILLERCLOVER_MAY_RETRIEVE, "a subject or a wildcard has another number");
    }
}

/* ---- Buffers and lists */

/* The longest reply in a buffer that just fits, and in one that just does not; the bytes after it stay. */
static void replies(void)
{
    uint8_t buffer[TILLERCLOVER_REPLY_MAX + 1], before[sizeof buffer];
    tillerclover_record r = bare(TILLERCLOVER_RETRIEVE, TILLERCLOVER_ACL2, 0);
    fresh();
    for (unsigned i = 0; i < TILLERCLOVER_ACE_CAPACITY; i++) {
        must(store_ace(0, ace(200 + i, TILLERCLOVER_MAY_ALL, TILLERCLOVER_LAMP, OWNER_UUID)));
    }
    memset(buffer, 0xA5, sizeof buffer);
    memset(before, 0xA5, sizeof before);
    tillerclover_outcome o = tillerclover_judge(x, NULL, 0, r.bytes, r.length, buffer, TILLERCLOVER_REPLY_MAX - 1);
    expect(o.answer == TILLERCLOVER_NO_ROOM && nothing_but_answer(&o),
           "a reply was put into a buffer that is too short");
    expect(memcmp(buffer, before, sizeof buffer) == 0, "a refusal wrote into the buffer");
    o = tillerclover_judge(x, NULL, 0, r.bytes, r.length, buffer, TILLERCLOVER_REPLY_MAX);
    expect(o.answer == TILLERCLOVER_PERMITTED && o.reply_length == TILLERCLOVER_REPLY_MAX,
           "the longest reply has another length");
    memcpy(before, x->tables.rowners + TILLERCLOVER_ACL2 * TILLERCLOVER_UUID_LENGTH, TILLERCLOVER_UUID_LENGTH);
    memcpy(before + TILLERCLOVER_UUID_LENGTH, x->tables.aces, sizeof x->tables.aces);
    expect(memcmp(buffer, before, sizeof buffer) == 0, "the longest reply has other bytes");
}

/* The access list in a buffer that just fits, in one that just does not, and of tables that are not sound. */
static void texts(void)
{
    static const char expected[] =
        "{\"aclist2\":[{\"aceid\":1,\"subject\":{\"uuid\":\"5b0d3a64-9c21-4e7f-8a15-3de290c74618\"},"
        "\"resources\":[{\"href\":\"/weight\"}],\"permission\":2}]}";
    enum {
        LENGTH = sizeof expected - 1
    };
    uint8_t buffer[LENGTH + 1], before[sizeof buffer];
    fresh();
    must(store_ace(0, ace(1, TILLERCLOVER_MAY_RETRIEVE, TILLERCLOVER_WEIGHT, OWNER_UUID)));
    const tillerclover_tables tables = x->tables;
    memset(buffer, 0xA5, sizeof buffer);
    memset(before, 0xA5, sizeof before);
    tillerclover_listed l = tillerclover_access_list(x, buffer, LENGTH - 1);
    expect(l.answer == TILLERCLOVER_LIST_NO_ROOM && l.length == 0, "a list was put into a buffer that is too short");
    expect(memcmp(buffer, before, sizeof buffer) == 0, "a list that does not fit wrote into the buffer");
    pattern();
    l = tillerclover_access_list(x, buffer, sizeof buffer);
    expect(l.answer == TILLERCLOVER_LIST_NOT_SOUND && l.length == 0, "tables of any bytes were listed");
    expect(memcmp(buffer, before, sizeof buffer) == 0, "tables that are not sound wrote into the buffer");
    x->tables = tables;
    l = tillerclover_access_list(x, buffer, LENGTH);
    expect(l.answer == TILLERCLOVER_PERMITTED && l.length == LENGTH,
           "answer or length stands elsewhere in what is listed");
    memcpy(before, expected, LENGTH);
    expect(memcmp(buffer, before, sizeof buffer) == 0, "the list has another text");
    expect(holds(&tables), "a list changed the tables");
}

struct list {
    uint8_t rows[(TILLERCLOVER_ACE_CAPACITY + 1) * TILLERCLOVER_ACE_LENGTH];
    size_t length;
};

static void add_row(struct list *l, tillerclover_ace row)
{
    tillerclover_pack_ace(l->rows + l->length, &row);
    l->length += TILLERCLOVER_ACE_LENGTH;
}

static void expect_tested(const struct list *l, enum tillerclover_answer expected, size_t row)
{
    tillerclover_tested tested = tillerclover_test_list(l->rows, l->length);
    expect(tested.answer == expected && tested.row == row, "answer or row stands elsewhere in what is said of a list");
}

/* Lists of 32 and 33 rows, one that lost a byte, and a last row with each fault. */
static void tested_lists(void)
{
    struct list l = {.length = 0};
    const size_t last = (TILLERCLOVER_ACE_CAPACITY - 1) * TILLERCLOVER_ACE_LENGTH;
    for (unsigned i = 0; i <= TILLERCLOVER_ACE_CAPACITY; i++) {
        add_row(&l, ace(200 + i, TILLERCLOVER_MAY_ALL, TILLERCLOVER_ACL2, OWNER_UUID));
    }
    expect_tested(&l, TILLERCLOVER_TEST_BAD_SIZE, 0);
    l.length -= TILLERCLOVER_ACE_LENGTH;
    expect_tested(&l, TILLERCLOVER_PERMITTED, 0);
    l.length -= 1;
    expect_tested(&l, TILLERCLOVER_TEST_BAD_SIZE, 0);
    l.length = last;
    add_row(&l, ace(205, TILLERCLOVER_MAY_RETRIEVE, TILLERCLOVER_WEIGHT, OWNER_UUID));
    expect_tested(&l, TILLERCLOVER_TEST_NOT_STORABLE, TILLERCLOVER_ACE_CAPACITY);
    tillerclover_ace everybody = ace(1, TILLERCLOVER_MAY_UPDATE, TILLERCLOVER_ACL2, NULL);
    everybody.kind = TILLERCLOVER_SUBJECT_CONNECTION;
    everybody.first = everybody.last = 9;
    l.length = last;
    add_row(&l, everybody);
    expect_tested(&l, TILLERCLOVER_TEST_EXCESSIVE, TILLERCLOVER_ACE_CAPACITY);
    l.rows[0] = l.rows[1] = 0;
    expect_tested(&l, TILLERCLOVER_TEST_NOT_STORABLE, 1);
}

struct old_list {
    uint8_t bytes[TILLERCLOVER_ACE_CAPACITY * TILLERCLOVER_OLD_ROW_LENGTH];
    size_t length;
};

/* A row of an older terminal: anybody may retrieve WEIGHT. */
static void add_old_row(struct old_list *list)
{
    const tillerclover_old_row row = {
        .subject = NIL, .permission = TILLERCLOVER_MAY_RETRIEVE, .set = TILLERCLOVER_SET_BIT(TILLERCLOVER_WEIGHT)};
    tillerclover_pack_old_row(list->bytes + list->length, &row);
    list->length += TILLERCLOVER_OLD_ROW_LENGTH;
}

static void expect_not_converted(const struct old_list *list, size_t length, uint8_t *buffer, size_t capacity,
                                 enum tillerclover_answer expected)
{
    tillerclover_converted c = tillerclover_convert_list(list->bytes, length, buffer, capacity);
    expect(c.answer == expected && c.length == 0, "a list of the older form was converted, or has another fault");
}

/* Sixteen rows for anybody in a buffer that just fits, and in one that just does not; one row more, and bad ones. */
static void conversions(void)
{
    struct old_list list = {.length = 0};
    uint8_t buffer[TILLERCLOVER_CONVERTED_MAX + 1], before[sizeof buffer];
    memset(buffer, 0xA5, sizeof buffer);
    memset(before, 0xA5, sizeof before);
    for (unsigned i = 0; i < TILLERCLOVER_ACE_CAPACITY / 2; i++) {
        add_old_row(&list);
    }
    expect_not_converted(&list, list.length, buffer, TILLERCLOVER_CONVERTED_MAX - 1, TILLERCLOVER_CONVERT_NO_ROOM);
    expect_not_converted(&list, list.length, NULL, 0, TILLERCLOVER_CONVERT_NO_ROOM);
    expect_not_converted(&list, list.length - 1, buffer, sizeof buffer, TILLERCLOVER_CONVERT_BAD_FILE);
    add_old_row(&list);
    expect_not_converted(&list, list.length, buffer, sizeof buffer, TILLERCLOVER_CONVERT_TOO_MANY);
    list.bytes[list.length - 1] = 1;
    expect_not_converted(&list, list.length, buffer, sizeof buffer, TILLERCLOVER_CONVERT_BAD_FILE);
    expect(memcmp(buffer, before, sizeof buffer) == 0, "a refusal wrote into the buffer");

    list.length -= TILLERCLOVER_OLD_ROW_LENGTH;
    tillerclover_converted c = tillerclover_convert_list(list.bytes, list.length, buffer, TILLERCLOVER_CONVERTED_MAX);
    expect(c.answer == TILLERCLOVER_PERMITTED && c.length == TILLERCLOVER_CONVERTED_MAX,
           "answer or length stands elsewhere in what is converted");
    struct list expected = {.length = 0};
    for (unsigned i = 0; i < TILLERCLOVER_ACE_CAPACITY; i++) {
        tillerclover_ace row = ace(i + 1, TILLERCLOVER_MAY_RETRIEVE, TILLERCLOVER_WEIGHT, NULL);
        row.kind = TILLERCLOVER_SUBJECT_CONNECTION;
        row.connection = i % 2 ? TILLERCLOVER_ANON_CLEAR : TILLERCLOVER_AUTH_CRYPT;
        add_row(&expected, row);
    }
    memcpy(before, expected.rows, TILLERCLOVER_CONVERTED_MAX);
    expect(memcmp(buffer, before, sizeof buffer) == 0, "the rows have other bytes");
}

/* A build with default rows: a clear brings them. A list with half a row counts as none, and the other list stays. */
static void default_rows(void)
{
    uint8_t creds[TILLERCLOVER_CRED_LENGTH], aces[TILLERCLOVER_ACE_LENGTH];
    tillerclover_cred c = cred(OWNER, OWNER_UUID);
    tillerclover_ace a = ace(1, TILLERCLOVER_MAY_RETRIEVE, TILLERCLOVER_WEIGHT, OWNER_UUID);
    tillerclover_pack_cred(creds, &c);
    tillerclover_pack_ace(aces, &a);
    const tillerclover_defaults half = {creds, sizeof creds - 1, aces, sizeof aces};
    const tillerclover_defaults defaults = {creds, sizeof creds, aces, sizeof aces};
    fresh();
    tillerclover_tables expected = x->tables;
    expected.naces = 1;
    memcpy(expected.aces, aces, sizeof aces);
    pattern();
    tillerclover_clear(x, &half);
    expect(holds(&expected), "half a row was taken, or an access row was not");
    expected.ncreds = 1;
    memcpy(expected.creds, creds, sizeof creds);
    pattern();
    tillerclover_clear(x, &defaults);
    expect(holds(&expected), "a clear has other default rows");
    pattern();
    tillerclover_fresh(x, &defaults);
    expect(holds(&expected), "a new terminal has other default rows");
    tillerclover_record r = tillerclover_set_state(0, TILLERCLOVER_RESET);
    fresh();
    tillerclover_outcome o = tillerclover_judge(x, &defaults, 0, r.bytes, r.length, reply, sizeof reply);
    expect(o.answer == TILLERCLOVER_PERMITTED && holds(&expected), "RESET has other default rows");
    fresh();
    expect(hand_in(r).answer == TILLERCLOVER_KEPT, "a record was not kept");
    o = tillerclover_take(x, &defaults, 0, reply, sizeof reply).outcome;
    expect(o.answer == TILLERCLOVER_PERMITTED && holds(&expected), "a RESET that is taken has other default rows");
    guarded();
}

/* ---- The clock, asserted roles, the queue */

/* The clock is read as it is handed in: a row fits from its first second to its last. */
static void clocks(void)
{
    static const uint32_t first = 0x01020304, last = 0xA0B0C0D0;
    const uint32_t clock[] = {0, first - 1, first, last, last + 1, UINT32_MAX};
    tillerclover_ace season = ace(1, TILLERCLOVER_MAY_RETRIEVE, TILLERCLOVER_WEIGHT, OWNER_UUID);
    season.first = first;
    season.last = last;
    owned();
    must(store_ace(OWNER, season));
    must(tillerclover_set_state(OWNER, TILLERCLOVER_RFNOP));
    const tillerclover_tables before = x->tables;
    for (size_t i = 0; i < sizeof clock / sizeof *clock; i++) {
        now = clock[i];
        int within = first <= now && now <= last;
        expect(answer(bare(TILLERCLOVER_RETRIEVE, TILLERCLOVER_WEIGHT, OWNER)) ==
                   (within ? TILLERCLOVER_PERMITTED : TILLERCLOVER_NOT_PERMITTED),
               "the clock is read otherwise");
        expect(holds(&before), "the clock changed the tables");
    }
    now = 0;
}

static tillerclover_record assert_role(unsigned role, unsigned authority, uint32_t last)
{
    const tillerclover_role asserted = {role, authority, last};
    return tillerclover_assert_role(HAULIER, &asserted);
}

static void put_role(tillerclover_tables *t, size_t place, const tillerclover_record *r)
{
    memcpy(t->creds + TILLERCLOVER_CRED_ROW_LENGTH + TILLERCLOVER_CRED_ROLES_AT + place * TILLERCLOVER_ROLE_LENGTH,
           body_of(r), TILLERCLOVER_ROLE_LENGTH);
}

/* Asserted roles follow the body in the caller's row, in order of arrival. They are read as they were sent. */
static void roles(void)
{
    tillerclover_record one = assert_role(ROLE, AUTHORITY, 0x01020304);
    tillerclover_record two = assert_role(ROLE, OTHER_AUTHORITY, UINT32_MAX);
    tillerclover_record three = assert_role(OTHER_ROLE, WORKS, UINT32_MAX);
    owned();
    expect(answer(one) == TILLERCLOVER_WRONG_STATE, "a role was asserted in RFPRO");
    must(tillerclover_set_state(OWNER, TILLERCLOVER_RFNOP));
    tillerclover_tables expected = x->tables;
    now = 0x01020304;
    must(one);
    must(two);
    put_role(&expected, 0, &one);
    put_role(&expected, 1, &two);
    expect(holds(&expected), "asserted roles stand elsewhere");
    expect(answer(three) == TILLERCLOVER_ROLES_FULL, "a third role found a place");
    tillerclover_outcome o = judge(bare(TILLERCLOVER_RETRIEVE, TILLERCLOVER_ROLES, HAULIER));
    expect(o.permission == (TILLERCLOVER_MAY_RETRIEVE | TILLERCLOVER_MAY_UPDATE),
           "a partner has another permission on roles");
    expect(o.reply_length == TILLERCLOVER_ROLE_CAPACITY * TILLERCLOVER_ROLE_LENGTH &&
               memcmp(reply, x->tables.creds + TILLERCLOVER_CRED_ROW_LENGTH + TILLERCLOVER_CRED_ROLES_AT,
                      o.reply_length) == 0,
           "the reply of roles has other bytes");
    expect(judge(bare(TILLERCLOVER_RETRIEVE, TILLERCLOVER_ROLES, OWNER)).reply_length == 0,
           "another partner has these roles");
    now++;
    must(three);
    put_role(&expected, 0, &two);
    put_role(&expected, 1, &three);
    expect(holds(&expected), "an expired role kept its place");
    now = 0;
}

/* A record handed in is in the queue, and a take hands it out by value. A spoilt queue is refused, and stays. */
static void queued_records(void)
{
    uint8_t body[TILLERCLOVER_RECORD_MAX - TILLERCLOVER_HEADER_LENGTH];
    static tillerclover_waiting expected, before;
    uint8_t *slot = expected.bytes + TILLERCLOVER_WAITING_SLOTS_AT;
    memset(body, 0x33, sizeof body);
    tillerclover_record r = tillerclover_request(TILLERCLOVER_UPDATE, TILLERCLOVER_TARE, 0x0102, body, sizeof body);
    fresh();
    must(store_cred(0, cred(0x0102, OWNER_UUID)));
    const tillerclover_tables tables = x->tables;
    tillerclover_taken taken = take();
    expect(taken.outcome.answer == TILLERCLOVER_NOTHING_WAITING && taken.record_length == 0 && holds(&tables),
           "something was taken where nothing waits");
    tillerclover_outcome o = hand_in(r);
    expect(o.answer == TILLERCLOVER_KEPT && nothing_but_answer(&o), "a record was not kept");
    expected.bytes[TILLERCLOVER_WAITING_COUNT_AT] = 1;
    slot[TILLERCLOVER_SLOT_SENDER_AT] = 1;
    slot[TILLERCLOVER_SLOT_SENDER_AT + 1] = 2;
    slot[TILLERCLOVER_SLOT_LENGTH_AT] = 1;
    memcpy(slot + TILLERCLOVER_SLOT_RECORD_AT, r.bytes, r.length);
    expect(memcmp(&x->waiting, &expected, sizeof expected) == 0, "a waiting record stands elsewhere");
    before = x->waiting;
    expect(hand_in(r).answer == TILLERCLOVER_OCCUPIED, "a second record of one sender was kept");
    x->waiting.bytes[sizeof before - 1] = 1;
    taken = take();
    expect(taken.outcome.answer == TILLERCLOVER_NOT_SOUND && taken.record_length == 0 && !tillerclover_is_sound(x),
           "memory of any bytes was taken for sound");
    expect(answer(r) == TILLERCLOVER_NOT_SOUND, "a record was judged beside memory that is not sound");
    expect(tillerclover_access_list(x, reply, sizeof reply).answer == TILLERCLOVER_LIST_NOT_SOUND,
           "a list beside such memory");
    x->waiting.bytes[sizeof before - 1] = 0;
    expect(memcmp(&x->waiting, &before, sizeof before) == 0, "a refusal changed the memory");
    taken = take();
    expect(taken.outcome.answer == TILLERCLOVER_NOT_PERMITTED && nothing_but_answer(&taken.outcome),
           "a record was let through");
    expect(taken.record_length == r.length && memcmp(taken.record, r.bytes, r.length) == 0,
           "the record that is taken stands elsewhere");
    memset(&expected, 0, sizeof expected);
    expected.bytes[TILLERCLOVER_WAITING_ROUND_AT] = 1;
    expected.bytes[TILLERCLOVER_WAITING_ROUND_AT + 1] = 1;
    expected.bytes[TILLERCLOVER_WAITING_ROUND_AT + 2] = 2;
    expect(memcmp(&x->waiting, &expected, sizeof expected) == 0,
           "a place was not emptied, or the round stands elsewhere");
    expect(TILLERCLOVER_WAITING_SLOTS_AT + (TILLERCLOVER_CRED_CAPACITY + 1) * TILLERCLOVER_SLOT_LENGTH ==
               sizeof x->waiting,
           "the memory has another size");
}

/* What the header says of sound queues: any order of slots, any number in the round. */
static void sound_queues(void)
{
    fresh();
    must(store_cred(0, cred(OWNER, OWNER_UUID)));
    must(store_cred(0, cred(HAULIER, HAULIER_UUID)));
    tillerclover_record first = bare(TILLERCLOVER_RETRIEVE, TILLERCLOVER_PSTAT, OWNER);
    tillerclover_record second = bare(TILLERCLOVER_RETRIEVE, TILLERCLOVER_PSTAT, HAULIER);
    uint8_t *at = x->waiting.bytes + TILLERCLOVER_WAITING_ROUND_AT;
    expect(hand_in(second).answer == TILLERCLOVER_KEPT && hand_in(first).answer == TILLERCLOVER_KEPT,
           "a record was not kept");
    const tillerclover_waiting both = x->waiting;
    expect(tillerclover_is_sound(x) && tillerclover_record_sender(take().record) == OWNER, "slots have an order");
    x->waiting = both;
    at[0] = 1, at[1] = 0, at[2] = 0;
    expect(tillerclover_is_sound(x) && tillerclover_record_sender(take().record) == OWNER,
           "after the unauthenticated another turn comes");
    x->waiting = both;
    at[0] = 1, at[1] = 0, at[2] = OWNER;
    expect(tillerclover_is_sound(x) && tillerclover_record_sender(take().record) == HAULIER,
           "the round stands elsewhere");
    x->waiting = both;
    at[0] = 1, at[1] = 9, at[2] = 9;
    expect(tillerclover_is_sound(x) && tillerclover_record_sender(take().record) == OWNER,
           "a round of no credential row does not begin anew");
    x->waiting = both;
    at[0] = 2;
    expect(!tillerclover_is_sound(x), "a round begins with 2");
    x->waiting = both;
    at[2] = 1;
    expect(!tillerclover_is_sound(x), "a number stands in a round that begins anew");
}

/* ---- Pointers to nothing */

/* No bytes, by each pointer that goes with a length: null, past the end of an array, and any other. None is read or
 * written through. */
static void no_bytes(uint8_t *nothing)
{
    const tillerclover_defaults none = {nothing, 0, nothing, 0};
    tillerclover_record read = bare(TILLERCLOVER_RETRIEVE, TILLERCLOVER_CRED, 0);
    fresh();
    const tillerclover_tables expected = x->tables;
    pattern();
    tillerclover_fresh(x, &none);
    expect(holds(&expected), "no list gave rows");
    pattern();
    tillerclover_clear(x, &none);
    expect(holds(&expected), "no list gave rows");
    tillerclover_outcome o = tillerclover_judge(x, &none, 0, nothing, 0, nothing, 0);
    expect(o.answer == TILLERCLOVER_BAD_LENGTH, "an empty record was not refused for its length");
    o = tillerclover_hand_in(x, nothing, 0);
    expect(o.answer == TILLERCLOVER_BAD_LENGTH, "an empty record was not refused for its length");
    o = tillerclover_judge(x, &none, 0, read.bytes, read.length, nothing, 0);
    expect(o.answer == TILLERCLOVER_NO_ROOM, "a reply was put into no buffer");
    o = tillerclover_hand_in(x, read.bytes, read.length);
    tillerclover_taken taken = tillerclover_take(x, &none, 0, nothing, 0);
    expect(o.answer == TILLERCLOVER_PERMITTED && taken.outcome.answer == TILLERCLOVER_NO_ROOM,
           "a reply was put into no buffer");
    tillerclover_listed l = tillerclover_access_list(x, nothing, 0);
    expect(l.answer == TILLERCLOVER_LIST_NO_ROOM && l.length == 0, "a list was put into no buffer");
    tillerclover_tested tested = tillerclover_test_list(nothing, 0);
    expect(tested.answer == TILLERCLOVER_PERMITTED && tested.row == 0, "a list of no rows was refused");
    tillerclover_converted c = tillerclover_convert_list(nothing, 0, nothing, 0);
    expect(c.answer == TILLERCLOVER_PERMITTED && c.length == 0, "no file gave rows");
}

int main(void)
{
    static uint8_t array[1];
    memory[0] = memory[sizeof memory - 1] = 0x6D;
    new_terminals();
    refused_tables();
    each_field();
    each_outcome();
    stored_rows();
    links();
    subjects_and_wildcards();
    replies();
    texts();
    tested_lists();
    conversions();
    default_rows();
    clocks();
    roles();
    queued_records();
    sound_queues();
    no_bytes(NULL);
    no_bytes(array + 1);
    uint8_t *none = malloc(0);
    no_bytes(none);
    free(none);
    return 0;
}
