/* Tillerclover: records and rows by what they say, packed and read back, and answers in words, for C11 and for C++11 and
 * later. Names of verbs, resources and states, and UUIDs as text: tillerclover_words.h.
 *
 * Nothing here decides: the library checks every field of what is packed. There is nothing to link; the functions are this
 * header's own. A field keeps the low bits that it has room for, so a number that is too large is another number.
 *
 *     tillerclover_record tare = tillerclover_request_text(TILLERCLOVER_UPDATE, TILLERCLOVER_TARE, 7, "7420 kg");
 *     outcome = tillerclover_judge(&terminal, NULL, now, tare.bytes, tare.length, reply, sizeof reply);
 *     puts(tillerclover_answer_text(outcome.answer));
 */
#ifndef TILLERCLOVER_RECORDS_H
#define TILLERCLOVER_RECORDS_H

#include <string.h>

#include "tillerclover.h"

#ifdef __cplusplus
extern "C" {
#endif

/* ---- Answers */

/* An answer in a few words, as the command `tillerclover` prints it; docs/ANSWERS.md says what to do. */
static inline const char *tillerclover_answer_text(enum tillerclover_answer answer)
{
    switch (answer) {
    case TILLERCLOVER_PERMITTED:
        return "permitted";
    case TILLERCLOVER_NOT_SOUND:
        return "tables not sound";
    case TILLERCLOVER_BAD_LENGTH:
        return "record too short or too long";
    case TILLERCLOVER_NO_VERB:
        return "no such verb";
    case TILLERCLOVER_ZERO_BIT_SET:
        return "a zero bit of the header is set";
    case TILLERCLOVER_MISMATCH:
        return "connection and credential number disagree";
    case TILLERCLOVER_UNKNOWN_RESOURCE:
        return "unknown resource";
    case TILLERCLOVER_NO_CREDENTIAL:
        return "no such credential";
    case TILLERCLOVER_NOT_PERMITTED:
        return "not permitted";
    case TILLERCLOVER_NOT_OFFERED:
        return "verb not offered";
    case TILLERCLOVER_MALFORMED:
        return "body malformed";
    case TILLERCLOVER_WRONG_STATE:
        return "not in this device state";
    case TILLERCLOVER_BAD_TARGET:
        return "target state not on the list";
    case TILLERCLOVER_MISSING:
        return "no such row";
    case TILLERCLOVER_FULL:
        return "table full";
    case TILLERCLOVER_NO_ROOM:
        return "buffer too short for the reply";
    case TILLERCLOVER_NO_ENDPOINT:
        return "no endpoint for the connection";
    case TILLERCLOVER_LIST_NOT_SOUND:
        return "no text: tables not sound";
    case TILLERCLOVER_LIST_NO_ROOM:
        return "no text: buffer too short";
    case TILLERCLOVER_TEST_BAD_SIZE:
        return "list of a bad size";
    case TILLERCLOVER_TEST_NOT_STORABLE:
        return "row not storable, or its number repeated";
    case TILLERCLOVER_TEST_EXCESSIVE:
        return "row gives too much";
    case TILLERCLOVER_ROLES_FULL:
        return "both places for asserted roles are taken";
    case TILLERCLOVER_CONVERT_BAD_FILE:
        return "no list of an older terminal";
    case TILLERCLOVER_CONVERT_TOO_MANY:
        return "too many rows";
    case TILLERCLOVER_CONVERT_NO_ROOM:
        return "buffer too short for the rows";
    case TILLERCLOVER_OCCUPIED:
        return "another record of this sender waits";
    case TILLERCLOVER_NOTHING_WAITING:
        return "nothing waits";
    }
    return "no answer";
}

/* ---- Numbers of 16, 32 and 64 bits, the most significant byte first */

/* Writes a number to the bytes from `at` on. */
static inline void tillerclover_put_16(uint8_t *at, unsigned number)
{
    at[0] = (uint8_t)(number >> 8 & 255);
    at[1] = (uint8_t)(number & 255);
}

static inline void tillerclover_put_32(uint8_t *at, uint32_t number)
{
    tillerclover_put_16(at, (unsigned)(number >> 16));
    tillerclover_put_16(at + 2, (unsigned)(number & 65535));
}

static inline void tillerclover_put_64(uint8_t *at, uint64_t number)
{
    tillerclover_put_32(at, (uint32_t)(number >> 32));
    tillerclover_put_32(at + 4, (uint32_t)(number & UINT32_MAX));
}

/* Reads a number from the bytes from `at` on. */
static inline unsigned tillerclover_get_16(const uint8_t *at)
{
    return (unsigned)at[0] << 8 | at[1];
}

static inline uint32_t tillerclover_get_32(const uint8_t *at)
{
    return (uint32_t)tillerclover_get_16(at) << 16 | tillerclover_get_16(at + 2);
}

static inline uint64_t tillerclover_get_64(const uint8_t *at)
{
    return (uint64_t)tillerclover_get_32(at) << 32 | tillerclover_get_32(at + 4);
}

/* ---- Rows, as the bodies that store them; these are also the rows of lists and of default rows
 *
 * A row's UUID may lie in the bytes that the row is packed into: a row of a reply can be changed in its place. */

/* A credential row. `subject` is a UUID; role 0 is none. */
typedef struct tillerclover_cred {
    unsigned number;
    const uint8_t *subject;
    unsigned role, authority, type;
} tillerclover_cred;

/* An access row. Its subject is the UUID, the role with its authority, or the connection, by `kind`; the others are not
 * looked at. It fits from the second `first` to the second `last`, both included: zeros are only the second 0. */
typedef struct tillerclover_ace {
    unsigned number;
    enum tillerclover_subject kind;
    const uint8_t *uuid;
    unsigned role, authority;
    enum tillerclover_connection connection;
    unsigned permission, wildcards;
    uint64_t set;
    uint32_t first, last;
} tillerclover_ace;

/* A role that a partner asserts for itself, up to the last second and with it. */
typedef struct tillerclover_role {
    unsigned role, authority;
    uint32_t last;
} tillerclover_role;

/* A row of an older terminal's list. The nil UUID means anybody. */
typedef struct tillerclover_old_row {
    const uint8_t *subject;
    unsigned permission;
    uint64_t set;
} tillerclover_old_row;

/* TILLERCLOVER_CRED_LENGTH bytes. */
static inline void tillerclover_pack_cred(uint8_t *body, const tillerclover_cred *row)
{
    memmove(body + TILLERCLOVER_CRED_SUBJECT_AT, row->subject, TILLERCLOVER_UUID_LENGTH);
    tillerclover_put_16(body + TILLERCLOVER_CRED_NUMBER_AT, row->number);
    tillerclover_put_16(body + TILLERCLOVER_CRED_ROLE_AT, row->role);
    tillerclover_put_16(body + TILLERCLOVER_CRED_AUTHORITY_AT, row->authority);
    body[TILLERCLOVER_CRED_TYPE_AT] = (uint8_t)((row->type & 63) << TILLERCLOVER_CRED_TYPE_SHIFT);
}

/* TILLERCLOVER_ACE_LENGTH bytes. */
static inline void tillerclover_pack_ace(uint8_t *body, const tillerclover_ace *row)
{
    if (row->kind == TILLERCLOVER_SUBJECT_UUID) {
        memmove(body + TILLERCLOVER_ACE_SUBJECT_AT, row->uuid, TILLERCLOVER_UUID_LENGTH);
    } else {
        memset(body + TILLERCLOVER_ACE_SUBJECT_AT, 0, TILLERCLOVER_UUID_LENGTH);
    }
    if (row->kind == TILLERCLOVER_SUBJECT_ROLE) {
        tillerclover_put_16(body + TILLERCLOVER_ACE_AUTHORITY_AT, row->authority);
        tillerclover_put_16(body + TILLERCLOVER_ACE_ROLE_AT, row->role);
    } else if (row->kind == TILLERCLOVER_SUBJECT_CONNECTION) {
        body[TILLERCLOVER_ACE_CONNECTION_AT] = (uint8_t)((unsigned)row->connection & 1);
    }
    tillerclover_put_16(body + TILLERCLOVER_ACE_NUMBER_AT, row->number);
    tillerclover_put_16(body + TILLERCLOVER_ACE_WORD, ((unsigned)row->kind & 3) << TILLERCLOVER_ACE_KIND_SHIFT |
                                                          (row->permission & 31) << TILLERCLOVER_ACE_PERMISSION_SHIFT |
                                                          (row->wildcards & 7) << TILLERCLOVER_ACE_WILDCARDS_SHIFT);
    tillerclover_put_64(body + TILLERCLOVER_ACE_SET_AT, row->set);
    tillerclover_put_32(body + TILLERCLOVER_ACE_FIRST_AT, row->first);
    tillerclover_put_32(body + TILLERCLOVER_ACE_LAST_AT, row->last);
}

/* TILLERCLOVER_ROLE_LENGTH bytes. */
static inline void tillerclover_pack_role(uint8_t *body, const tillerclover_role *role)
{
    tillerclover_put_16(body + TILLERCLOVER_ASSERTED_AUTHORITY_AT, role->authority);
    tillerclover_put_16(body + TILLERCLOVER_ASSERTED_ROLE_AT, role->role);
    tillerclover_put_32(body + TILLERCLOVER_ASSERTED_LAST_AT, role->last);
}

/* TILLERCLOVER_OLD_ROW_LENGTH bytes. */
static inline void tillerclover_pack_old_row(uint8_t *bytes, const tillerclover_old_row *row)
{
    memmove(bytes + TILLERCLOVER_OLD_SUBJECT_AT, row->subject, TILLERCLOVER_UUID_LENGTH);
    bytes[TILLERCLOVER_OLD_PERMISSION_AT] = (uint8_t)((row->permission & 31) << TILLERCLOVER_OLD_PERMISSION_SHIFT);
    tillerclover_put_64(bytes + TILLERCLOVER_OLD_SET_AT, row->set);
}

/* ---- Rows read back: what a reply, a list or the tables hold, as the structs above
 *
 * Bytes of any content are read. A UUID is not copied: it points into the bytes that were read. Packed again, what was read
 * is the same bytes except for zero bits that were set, and for the part of a subject that its kind does not use. */

/* Of TILLERCLOVER_CRED_LENGTH bytes: a body, a row of a reply, or the first part of a row of the tables. */
static inline tillerclover_cred tillerclover_unpack_cred(const uint8_t *body)
{
    tillerclover_cred row;
    row.number = tillerclover_get_16(body + TILLERCLOVER_CRED_NUMBER_AT);
    row.subject = body + TILLERCLOVER_CRED_SUBJECT_AT;
    row.role = tillerclover_get_16(body + TILLERCLOVER_CRED_ROLE_AT);
    row.authority = tillerclover_get_16(body + TILLERCLOVER_CRED_AUTHORITY_AT);
    row.type = (unsigned)body[TILLERCLOVER_CRED_TYPE_AT] >> TILLERCLOVER_CRED_TYPE_SHIFT;
    return row;
}

/* Of TILLERCLOVER_ACE_LENGTH bytes. Each part of the subject is read, whatever the kind: look at the part that it names. */
static inline tillerclover_ace tillerclover_unpack_ace(const uint8_t *body)
{
    const unsigned word = tillerclover_get_16(body + TILLERCLOVER_ACE_WORD);
    tillerclover_ace row;
    row.number = tillerclover_get_16(body + TILLERCLOVER_ACE_NUMBER_AT);
    row.kind = (enum tillerclover_subject)(word >> TILLERCLOVER_ACE_KIND_SHIFT & 3);
    row.uuid = body + TILLERCLOVER_ACE_SUBJECT_AT;
    row.role = tillerclover_get_16(body + TILLERCLOVER_ACE_ROLE_AT);
    row.authority = tillerclover_get_16(body + TILLERCLOVER_ACE_AUTHORITY_AT);
    row.connection =
        (body[TILLERCLOVER_ACE_CONNECTION_AT] & 1) != 0 ? TILLERCLOVER_AUTH_CRYPT : TILLERCLOVER_ANON_CLEAR;
    row.permission = word >> TILLERCLOVER_ACE_PERMISSION_SHIFT & 31;
    row.wildcards = word >> TILLERCLOVER_ACE_WILDCARDS_SHIFT & 7;
    row.set = tillerclover_get_64(body + TILLERCLOVER_ACE_SET_AT);
    row.first = tillerclover_get_32(body + TILLERCLOVER_ACE_FIRST_AT);
    row.last = tillerclover_get_32(body + TILLERCLOVER_ACE_LAST_AT);
    return row;
}

/* Of TILLERCLOVER_ROLE_LENGTH bytes. */
static inline tillerclover_role tillerclover_unpack_role(const uint8_t *body)
{
    tillerclover_role role;
    role.role = tillerclover_get_16(body + TILLERCLOVER_ASSERTED_ROLE_AT);
    role.authority = tillerclover_get_16(body + TILLERCLOVER_ASSERTED_AUTHORITY_AT);
    role.last = tillerclover_get_32(body + TILLERCLOVER_ASSERTED_LAST_AT);
    return role;
}

/* Of TILLERCLOVER_OLD_ROW_LENGTH bytes. */
static inline tillerclover_old_row tillerclover_unpack_old_row(const uint8_t *bytes)
{
    tillerclover_old_row row;
    row.subject = bytes + TILLERCLOVER_OLD_SUBJECT_AT;
    row.permission = (unsigned)bytes[TILLERCLOVER_OLD_PERMISSION_AT] >> TILLERCLOVER_OLD_PERMISSION_SHIFT;
    row.set = tillerclover_get_64(bytes + TILLERCLOVER_OLD_SET_AT);
    return row;
}

/* ---- Rows of the tables, one by one
 *
 *     for (size_t i = 0; i < tillerclover_cred_count(&terminal.tables); i++) {
 *         tillerclover_cred row = tillerclover_unpack_cred(tillerclover_cred_row(&terminal.tables, i));
 *         ..
 *     }
 *
 * Tables that are not sound may hold anything; no byte outside them is read. */

/* How many rows are held, at most as many as there is room for. */
static inline size_t tillerclover_cred_count(const tillerclover_tables *tables)
{
    return tables->ncreds < TILLERCLOVER_CRED_CAPACITY ? tables->ncreds : (size_t)TILLERCLOVER_CRED_CAPACITY;
}

static inline size_t tillerclover_ace_count(const tillerclover_tables *tables)
{
    return tables->naces < TILLERCLOVER_ACE_CAPACITY ? tables->naces : (size_t)TILLERCLOVER_ACE_CAPACITY;
}

/* The row with this index, from 0; NULL if no such row is held. */
static inline const uint8_t *tillerclover_cred_row(const tillerclover_tables *tables, size_t index)
{
    return index < tillerclover_cred_count(tables) ? tables->creds + index * TILLERCLOVER_CRED_ROW_LENGTH : NULL;
}

static inline const uint8_t *tillerclover_ace_row(const tillerclover_tables *tables, size_t index)
{
    return index < tillerclover_ace_count(tables) ? tables->aces + index * TILLERCLOVER_ACE_LENGTH : NULL;
}

/* One of the two roles that a credential row's partner asserted, `slot` 0 or 1; role 0 if there is none. */
static inline tillerclover_role tillerclover_asserted_role(const uint8_t *cred_row, size_t slot)
{
    static const uint8_t none[TILLERCLOVER_ROLE_LENGTH] = {0};
    return tillerclover_unpack_role(slot < TILLERCLOVER_ROLE_CAPACITY
                                        ? cred_row + TILLERCLOVER_CRED_LENGTH + slot * TILLERCLOVER_ROLE_LENGTH
                                        : none);
}

/* The first row with this number; NULL if none has it. The library does not ask these: it looks for itself. */
static inline const uint8_t *tillerclover_find_cred(const tillerclover_tables *tables, unsigned number)
{
    for (size_t i = 0; i < tillerclover_cred_count(tables); i++) {
        const uint8_t *row = tillerclover_cred_row(tables, i);
        if (tillerclover_get_16(row + TILLERCLOVER_CRED_NUMBER_AT) == number) {
            return row;
        }
    }
    return NULL;
}

static inline const uint8_t *tillerclover_find_ace(const tillerclover_tables *tables, unsigned number)
{
    for (size_t i = 0; i < tillerclover_ace_count(tables); i++) {
        const uint8_t *row = tillerclover_ace_row(tables, i);
        if (tillerclover_get_16(row + TILLERCLOVER_ACE_NUMBER_AT) == number) {
            return row;
        }
    }
    return NULL;
}

/* ---- Records */

enum {
    /* One byte too many: a longer body is cut here, and the library refuses the record for its length. */
    TILLERCLOVER_RECORD_ROOM = TILLERCLOVER_RECORD_MAX + 1
};

/* A packed record. */
typedef struct tillerclover_record {
    size_t length;
    uint8_t bytes[TILLERCLOVER_RECORD_ROOM];
} tillerclover_record;

/* A record with these fields, whether they make sense or not. `sender` is a credential number, or 0 for the
 * unauthenticated. */
static inline tillerclover_record tillerclover_record_of(unsigned verb, enum tillerclover_connection connection,
                                                         unsigned resource, unsigned sender, const uint8_t *body,
                                                         size_t length)
{
    tillerclover_record record;
    memset(&record, 0, sizeof record);
    const size_t most = (size_t)TILLERCLOVER_RECORD_ROOM - (size_t)TILLERCLOVER_HEADER_LENGTH;
    if (length > most) {
        length = most;
    }
    tillerclover_put_16(record.bytes + TILLERCLOVER_HEADER_WORD, (verb & 7) << TILLERCLOVER_VERB_SHIFT |
                                                                     ((unsigned)connection & 1)
                                                                         << TILLERCLOVER_CONNECTION_SHIFT |
                                                                     (resource & 63) << TILLERCLOVER_RESOURCE_SHIFT);
    tillerclover_put_16(record.bytes + TILLERCLOVER_SENDER_AT, sender);
    if (length != 0) {
        memcpy(record.bytes + TILLERCLOVER_HEADER_LENGTH, body, length);
    }
    record.length = TILLERCLOVER_HEADER_LENGTH + length;
    return record;
}

/* Fields of a record, of which at least the header is there. */
static inline unsigned tillerclover_record_verb(const uint8_t *record)
{
    return tillerclover_get_16(record + TILLERCLOVER_HEADER_WORD) >> TILLERCLOVER_VERB_SHIFT;
}

static inline enum tillerclover_connection tillerclover_record_connection(const uint8_t *record)
{
    return tillerclover_get_16(record + TILLERCLOVER_HEADER_WORD) >> TILLERCLOVER_CONNECTION_SHIFT & 1
               ? TILLERCLOVER_AUTH_CRYPT
               : TILLERCLOVER_ANON_CLEAR;
}

static inline unsigned tillerclover_record_resource(const uint8_t *record)
{
    return tillerclover_get_16(record + TILLERCLOVER_HEADER_WORD) >> TILLERCLOVER_RESOURCE_SHIFT & 63;
}

static inline unsigned tillerclover_record_sender(const uint8_t *record)
{
    return tillerclover_get_16(record + TILLERCLOVER_SENDER_AT);
}

/* ---- Records by what they ask for
 *
 * A sender with a credential number sends over AUTH_CRYPT, 0 over ANON_CLEAR. */

/* A record with any body, with a text, and with none. */
static inline tillerclover_record tillerclover_request(enum tillerclover_verb verb, enum tillerclover_resource resource,
                                                       unsigned sender, const uint8_t *body, size_t length)
{
    return tillerclover_record_of(verb, sender != 0 ? TILLERCLOVER_AUTH_CRYPT : TILLERCLOVER_ANON_CLEAR, resource,
                                  sender, body, length);
}

static inline tillerclover_record tillerclover_request_text(enum tillerclover_verb verb,
                                                            enum tillerclover_resource resource, unsigned sender,
                                                            const char *text)
{
    return tillerclover_request(verb, resource, sender, (const uint8_t *)text, strlen(text));
}

static inline tillerclover_record tillerclover_request_bare(enum tillerclover_verb verb,
                                                            enum tillerclover_resource resource, unsigned sender)
{
    return tillerclover_request(verb, resource, sender, NULL, 0);
}

/* The device owner; the nil UUID for none. */
static inline tillerclover_record tillerclover_set_owner(unsigned sender, const uint8_t *uuid)
{
    static const uint8_t nil[TILLERCLOVER_UUID_LENGTH] = {0};
    uint8_t body[TILLERCLOVER_DOXM_LENGTH];
    unsigned owned = memcmp(uuid, nil, sizeof nil) != 0;
    body[0] = (uint8_t)(owned << TILLERCLOVER_DOXM_OWNED_SHIFT);
    memcpy(body + TILLERCLOVER_DOXM_OWNER_AT, uuid, TILLERCLOVER_UUID_LENGTH);
    return tillerclover_request(TILLERCLOVER_UPDATE, TILLERCLOVER_DOXM, sender, body, sizeof body);
}

/* The row owner of DOXM, PSTAT, CRED or ACL2; the nil UUID for none. */
static inline tillerclover_record tillerclover_set_row_owner(enum tillerclover_resource resource, unsigned sender,
                                                             const uint8_t *uuid)
{
    return tillerclover_request(TILLERCLOVER_UPDATE, resource, sender, uuid, TILLERCLOVER_UUID_LENGTH);
}

/* The device state to go to. */
static inline tillerclover_record tillerclover_set_state(unsigned sender, enum tillerclover_state target)
{
    uint8_t body[TILLERCLOVER_PSTAT_LENGTH];
    body[0] = (uint8_t)(((unsigned)target & 7) << TILLERCLOVER_PSTAT_TARGET_SHIFT);
    return tillerclover_request(TILLERCLOVER_UPDATE, TILLERCLOVER_PSTAT, sender, body, sizeof body);
}

/* A row to store: it is added, or takes the place of the row with its number. */
static inline tillerclover_record tillerclover_store_cred(unsigned sender, const tillerclover_cred *row)
{
    uint8_t body[TILLERCLOVER_CRED_LENGTH];
    tillerclover_pack_cred(body, row);
    return tillerclover_request(TILLERCLOVER_UPDATE, TILLERCLOVER_CRED, sender, body, sizeof body);
}

static inline tillerclover_record tillerclover_store_ace(unsigned sender, const tillerclover_ace *row)
{
    uint8_t body[TILLERCLOVER_ACE_LENGTH];
    tillerclover_pack_ace(body, row);
    return tillerclover_request(TILLERCLOVER_UPDATE, TILLERCLOVER_ACL2, sender, body, sizeof body);
}

/* A role that the sender asserts for itself. */
static inline tillerclover_record tillerclover_assert_role(unsigned sender, const tillerclover_role *role)
{
    uint8_t body[TILLERCLOVER_ROLE_LENGTH];
    tillerclover_pack_role(body, role);
    return tillerclover_request(TILLERCLOVER_UPDATE, TILLERCLOVER_ROLES, sender, body, sizeof body);
}

/* The row of CRED or ACL2 with this number. A DELETE without a body takes all rows: tillerclover_request_bare. */
static inline tillerclover_record tillerclover_delete_row(enum tillerclover_resource table, unsigned sender,
                                                          unsigned number)
{
    uint8_t body[2];
    tillerclover_put_16(body, number);
    return tillerclover_request(TILLERCLOVER_DELETE, table, sender, body, sizeof body);
}

/* All credential rows of a subject. */
static inline tillerclover_record tillerclover_delete_subject(unsigned sender, const uint8_t *uuid)
{
    return tillerclover_request(TILLERCLOVER_DELETE, TILLERCLOVER_CRED, sender, uuid, TILLERCLOVER_UUID_LENGTH);
}

#ifdef __cplusplus
}
#endif
#endif
