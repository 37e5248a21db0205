/* include/tillerclover_records.h: the bytes of records and rows, worked out by hand, and the words of the answers. Prints
 * nothing, and exits with 1 at the first fault. */
#include <limits.h>
#include <stdio.h>
#include <stdlib.h>

#include "expect.h"
#include "tillerclover_records.h"

/* The record is a header of four bytes, written in hexadecimal, and a body. */
static void expect_record(tillerclover_record r, const char *bytes, const char *what)
{
    char text[2 * TILLERCLOVER_RECORD_ROOM + 1];
    for (size_t i = 0; i < r.length; i++) {
        snprintf(text + 2 * i, 3, "%02x", r.bytes[i]);
    }
    expect(strcmp(text, bytes) == 0, what);
}

static const uint8_t UUID[TILLERCLOVER_UUID_LENGTH] = {0x10, 0x11, 0x12, 0x13, 0x14, 0x15, 0x16, 0x17,
                                                       0x18, 0x19, 0x1a, 0x1b, 0x1c, 0x1d, 0x1e, 0x1f};
static const uint8_t NIL[TILLERCLOVER_UUID_LENGTH];
#define UUID_TEXT "101112131415161718191a1b1c1d1e1f"
#define NIL_TEXT "00000000000000000000000000000000"

static void rows(void)
{
    const tillerclover_cred cred = {0x0102, UUID, 0x0304, 0x0506, 32};
    tillerclover_ace ace = {.number = 0x0708,
                            .kind = TILLERCLOVER_SUBJECT_UUID,
                            .uuid = UUID,
                            .role = 0x0304,
                            .authority = 0x0506,
                            .connection = TILLERCLOVER_AUTH_CRYPT,
                            .permission = TILLERCLOVER_MAY_RETRIEVE | TILLERCLOVER_MAY_NOTIFY,
                            .wildcards = TILLERCLOVER_WILDCARD_PLUS | TILLERCLOVER_WILDCARD_STAR,
                            .set = TILLERCLOVER_SET_BIT(TILLERCLOVER_DOXM) | TILLERCLOVER_SET_BIT(TILLERCLOVER_YARD),
                            .first = 0x01020304,
                            .last = 0xA0B0C0D0};
    const tillerclover_role role = {0x0304, 0x0506, 0xA0B0C0D0};
    const tillerclover_old_row old = {UUID, TILLERCLOVER_MAY_ALL, TILLERCLOVER_SET_BIT(TILLERCLOVER_WEIGHT)};
    expect_record(tillerclover_store_cred(0, &cred),
                  "40800000"
                  "0102" UUID_TEXT "0304"
                  "0506"
                  "80",
                  "a credential row");
    expect_record(tillerclover_store_ace(5, &ace),
                  "50c00005"
                  "0708"
                  "2540"
                  "8000800000000000" UUID_TEXT "01020304"
                  "a0b0c0d0",
                  "a row of a UUID");
    ace.kind = TILLERCLOVER_SUBJECT_ROLE;
    expect_record(tillerclover_store_ace(5, &ace),
                  "50c00005"
                  "0708"
                  "6540"
                  "8000800000000000"
                  "000000000000000000000000"
                  "05060304"
                  "01020304"
                  "a0b0c0d0",
                  "a row of a role");
    ace.kind = TILLERCLOVER_SUBJECT_CONNECTION;
    expect_record(tillerclover_store_ace(5, &ace),
                  "50c00005"
                  "0708"
                  "a540"
                  "8000800000000000"
                  "000000000000000000000000"
                  "00000001"
                  "01020304"
                  "a0b0c0d0",
                  "a row of a connection");
    expect_record(tillerclover_assert_role(7, &role),
                  "51000007"
                  "0506"
                  "0304"
                  "a0b0c0d0",
                  "an asserted role");
    uint8_t bytes[TILLERCLOVER_OLD_ROW_LENGTH];
    tillerclover_pack_old_row(bytes, &old);
    expect_record(tillerclover_request(TILLERCLOVER_CREATE, TILLERCLOVER_DOXM, 0, bytes, sizeof bytes),
                  "00000000" UUID_TEXT "f8"
                  "0080000000000000",
                  "an old row");
}

static void records(void)
{
    expect_record(tillerclover_set_owner(0, UUID),
                  "40000000"
                  "80" UUID_TEXT,
                  "an owner");
    expect_record(tillerclover_set_owner(0, NIL),
                  "40000000"
                  "00" NIL_TEXT,
                  "no owner");
    for (size_t i = 0; i < sizeof UUID; i++) {
        uint8_t one[TILLERCLOVER_UUID_LENGTH] = {0};
        one[i] = 1;
        expect(tillerclover_set_owner(0, one).bytes[4] == 0x80, "an owner whose UUID has one byte that is not 0");
    }
    expect_record(tillerclover_set_row_owner(TILLERCLOVER_ACL2, 5, UUID), "50c00005" UUID_TEXT, "a row owner");
    expect_record(tillerclover_set_row_owner(TILLERCLOVER_ROLES, 5, UUID), "51000005" UUID_TEXT,
                  "a row owner of roles");
    expect_record(tillerclover_set_state(5, TILLERCLOVER_SRESET),
                  "50400005"
                  "80",
                  "a state");
    expect_record(tillerclover_delete_row(TILLERCLOVER_CRED, 5, 0x0102),
                  "70800005"
                  "0102",
                  "a row to delete");
    expect_record(tillerclover_delete_subject(5, UUID), "70800005" UUID_TEXT, "a subject to delete");
    expect_record(tillerclover_request_bare(TILLERCLOVER_OBSERVE, TILLERCLOVER_DISPLAY, 0), "83800000", "no body");
    expect_record(tillerclover_request_text(TILLERCLOVER_UPDATE, TILLERCLOVER_TARE, 0xFFFF, "kg"),
                  "5240ffff"
                  "6b67",
                  "a text");
    /* A field keeps the bits that it has room for. */
    expect_record(tillerclover_record_of(8 + 7, TILLERCLOVER_ANON_CLEAR, 64 + 63, 0x10001, NULL, 0), "efc00001",
                  "numbers that are too large");
    tillerclover_record r = tillerclover_request_bare(TILLERCLOVER_UPDATE, TILLERCLOVER_YARD, 0x0102);
    expect(tillerclover_record_verb(r.bytes) == TILLERCLOVER_UPDATE &&
               tillerclover_record_connection(r.bytes) == TILLERCLOVER_AUTH_CRYPT &&
               tillerclover_record_resource(r.bytes) == TILLERCLOVER_YARD &&
               tillerclover_record_sender(r.bytes) == 0x0102,
           "the fields of a record");
    r = tillerclover_request_bare(TILLERCLOVER_UPDATE, TILLERCLOVER_YARD, 0);
    expect(tillerclover_record_connection(r.bytes) == TILLERCLOVER_ANON_CLEAR, "the connection of nobody");
    for (unsigned verb = 0; verb < 8; verb++) {
        for (unsigned resource = 0; resource < 64; resource++) {
            r = tillerclover_record_of(verb, TILLERCLOVER_AUTH_CRYPT, resource, 1000 * verb + resource, NULL, 0);
            expect(tillerclover_record_verb(r.bytes) == verb && tillerclover_record_resource(r.bytes) == resource &&
                       tillerclover_record_sender(r.bytes) == 1000 * verb + resource,
                   "the fields of a record with every verb and resource");
        }
    }
}

/* No body, the longest one, and longer ones: one byte too many is kept, for the library to refuse, and no more is read. Each
 * body has memory of its own, whose end the sanitizers watch, and begins at any place. */
static void lengths(void)
{
    static const size_t longer[] = {1000, UINT16_MAX, SIZE_MAX / 2, SIZE_MAX - 4, SIZE_MAX};
    for (size_t i = 0; i < 260 + sizeof longer / sizeof *longer; i++) {
        const size_t length = i < 260 ? i : longer[i - 260], kept = length < 253 ? length : 253, shift = i % 8;
        uint8_t *memory = malloc(shift + kept + 1);
        expect(memory != NULL, "no memory");
        memset(memory, 'x', shift + kept);
        memory[shift + kept] = 0;
        tillerclover_record r =
            tillerclover_request_text(TILLERCLOVER_UPDATE, TILLERCLOVER_TARE, 7, (char *)memory + shift);
        expect(r.length == 4 + kept, "a text");
        memory = realloc(memory, shift + kept + (kept == 0));
        r = tillerclover_request(TILLERCLOVER_UPDATE, TILLERCLOVER_TARE, 7, kept == 0 ? NULL : memory + shift, length);
        expect(r.length == 4 + kept && (kept == 0 || r.bytes[3 + kept] == 'x'), "a body");
        expect(kept == 253 || r.bytes[4 + kept] == 0, "a byte behind the record");
        free(memory);
    }
}

/* A row whose UUID lies in the bytes that it is packed into, wherever in them: as with a UUID elsewhere. */
static void places(void)
{
    uint8_t bytes[TILLERCLOVER_ACE_LENGTH], other[TILLERCLOVER_ACE_LENGTH];
    for (size_t at = 0; at + sizeof UUID <= sizeof bytes; at++) {
        tillerclover_ace ace = {
            .number = 9, .kind = TILLERCLOVER_SUBJECT_UUID, .uuid = UUID, .permission = 31, .last = 5};
        tillerclover_pack_ace(other, &ace);
        ace.uuid = memcpy(bytes + at, UUID, sizeof UUID);
        tillerclover_pack_ace(bytes, &ace);
        expect(memcmp(bytes, other, TILLERCLOVER_ACE_LENGTH) == 0, "an access row in its place");
        tillerclover_cred cred = {9, UUID, 1, 2, 4};
        tillerclover_pack_cred(other, &cred);
        cred.subject = memcpy(bytes + at, UUID, sizeof UUID);
        tillerclover_pack_cred(bytes, &cred);
        expect(memcmp(bytes, other, TILLERCLOVER_CRED_LENGTH) == 0, "a credential row in its place");
        tillerclover_old_row old = {UUID, 31, 1};
        tillerclover_pack_old_row(other, &old);
        old.subject = memcpy(bytes + at, UUID, sizeof UUID);
        tillerclover_pack_old_row(bytes, &old);
        expect(memcmp(bytes, other, TILLERCLOVER_OLD_ROW_LENGTH) == 0, "an old row in its place");
    }
}

/* A field keeps the bits that it has room for, and no field spills into another. */
static void large_numbers(void)
{
    const unsigned most = UINT_MAX;
    const tillerclover_cred cred = {most, UUID, most, most, most};
    const tillerclover_ace ace = {
        .number = most, .kind = (enum tillerclover_subject)3, .permission = most, .wildcards = most};
    const tillerclover_role role = {most, most, UINT32_MAX};
    expect_record(tillerclover_store_cred(0x10000, &cred),
                  "50800000"
                  "ffff" UUID_TEXT "ffff"
                  "ffff"
                  "fc",
                  "a credential row of large numbers");
    expect_record(tillerclover_store_ace(most, &ace),
                  "50c0ffffffffffc0"
                  "0000000000000000" NIL_TEXT "0000000000000000",
                  "an access row of large numbers");
    expect_record(tillerclover_assert_role(0x20007, &role), "51000007ffffffffffffffff", "a role of large numbers");
    expect_record(tillerclover_set_state(7, (enum tillerclover_state)most), "50400007e0", "a state of large numbers");
    expect_record(tillerclover_delete_row((enum tillerclover_resource)most, 7, most), "7fc00007ffff",
                  "a row of a large number");
}

/* The words of an answer that the compiler does not know beforehand. */
static const char *text_of(unsigned number)
{
    static volatile unsigned answer;
    answer = number;
    return tillerclover_answer_text((enum tillerclover_answer)answer);
}

static void words(void)
{
    expect(strcmp(text_of(TILLERCLOVER_PERMITTED), "permitted") == 0 &&
               strcmp(text_of(TILLERCLOVER_NOTHING_WAITING), "nothing waits") == 0,
           "an answer has other words");
    for (unsigned i = 0; i < 32; i++) {
        for (unsigned j = 0; j < i; j++) {
            expect(strcmp(text_of(i), text_of(j)) != 0 || j > TILLERCLOVER_NOTHING_WAITING,
                   "two answers have the same words");
        }
    }
}

int main(void)
{
    rows();
    records();
    lengths();
    places();
    large_numbers();
    words();
    return 0;
}
