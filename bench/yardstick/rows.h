/* The yardstick's rows: the fields of credential and access rows, whether a record could store a row, and rows by number.
 * The header tillerclover.h names the fields' places. */
#ifndef YARDSTICK_ROWS_H
#define YARDSTICK_ROWS_H

#include "bytes.h"
#include "directory.h"

/* ---- Of the word of an access row: kind (2 bits), permission (5), wildcards (3), zeros (6) */

static inline unsigned ace_kind(uint16_t fields)
{
    return fields >> TILLERCLOVER_ACE_KIND_SHIFT;
}

static inline uint8_t ace_permission(uint16_t fields)
{
    return fields >> TILLERCLOVER_ACE_PERMISSION_SHIFT & TILLERCLOVER_MAY_ALL;
}

/* All that the row reaches, by its set and by its wildcards. */
static inline uint64_t ace_reach(const uint8_t *row, uint16_t fields)
{
    return be64(row + TILLERCLOVER_ACE_SET_AT) | reached[fields >> TILLERCLOVER_ACE_WILDCARDS_SHIFT & WILDCARDS];
}

/* The asserted roles of a credential row, two in all. */
static inline const uint8_t *first_role(const uint8_t *cred)
{
    return cred + TILLERCLOVER_CRED_ROLES_AT;
}

static inline const uint8_t *second_role(const uint8_t *cred)
{
    return cred + TILLERCLOVER_CRED_ROLES_AT + TILLERCLOVER_ROLE_LENGTH;
}

/* ---- Rows that a record could store */

static inline bool cred_storable(const uint8_t *row)
{
    uint8_t type = row[TILLERCLOVER_CRED_TYPE_AT];
    return be16(row + TILLERCLOVER_CRED_NUMBER_AT) != 0 && !is_nil(row + TILLERCLOVER_CRED_SUBJECT_AT) &&
           (be16(row + TILLERCLOVER_CRED_ROLE_AT) != 0 || be16(row + TILLERCLOVER_CRED_AUTHORITY_AT) == 0) &&
           (type & (type - 1)) == 0 && (type & ((1 << TILLERCLOVER_CRED_TYPE_SHIFT) - 1)) == 0;
}

/* The first is used before the second, one that is not used is zero, and the two are not equal. */
static inline bool asserted_sound(const uint8_t *row)
{
    const uint8_t *first = first_role(row);
    const uint8_t *second = second_role(row);
    if (be16(first + TILLERCLOVER_ASSERTED_ROLE_AT) == 0)
        return (word(first) | word(second)) == 0;
    if (be16(second + TILLERCLOVER_ASSERTED_ROLE_AT) == 0)
        return word(second) == 0;
    /* authority and role */
    return be32(first) != be32(second);
}

static inline bool ace_subject_storable(const uint8_t *row, unsigned kind)
{
    const uint8_t *subject = row + TILLERCLOVER_ACE_SUBJECT_AT;
    switch (kind) {
    case TILLERCLOVER_SUBJECT_UUID:
        return !is_nil(subject);
    case TILLERCLOVER_SUBJECT_ROLE:
        return word(subject) == 0 && be32(subject + 8) == 0 && be16(row + TILLERCLOVER_ACE_ROLE_AT) != 0;
    case TILLERCLOVER_SUBJECT_CONNECTION:
        return word(subject) == 0 && be64(subject + 8) <= TILLERCLOVER_AUTH_CRYPT;
    default:
        return false;
    }
}

static inline bool ace_storable(const uint8_t *row)
{
    uint16_t fields = be16(row + TILLERCLOVER_ACE_WORD);
    return be16(row + TILLERCLOVER_ACE_NUMBER_AT) != 0 &&
           (fields & ((1 << TILLERCLOVER_ACE_WILDCARDS_SHIFT) - 1)) == 0 &&
           (be64(row + TILLERCLOVER_ACE_SET_AT) & ~KNOWN) == 0 && ace_subject_storable(row, ace_kind(fields)) &&
           be32(row + TILLERCLOVER_ACE_FIRST_AT) <= be32(row + TILLERCLOVER_ACE_LAST_AT);
}

/* ---- Rows by number, which is first in every row and slot */

static inline const uint8_t *find_row(const uint8_t *rows, size_t count, size_t size, unsigned number)
{
    const uint8_t *end = rows + count * size;
    for (; rows < end; rows += size)
        if (be16(rows) == number)
            return rows;
    return NULL;
}

/* The low bytes that were seen. Only a row whose low byte was seen is compared with the rows before it. */
typedef struct seen {
    uint64_t bits[4];
} seen;

static inline bool seen_before(seen *s, const uint8_t *rows, const uint8_t *row, size_t size)
{
    uint64_t *bits = &s->bits[row[1] / 64];
    uint64_t bit = UINT64_C(1) << row[1] % 64;
    if (*bits & bit)
        return find_row(rows, (size_t)(row - rows) / size, size, be16(row)) != NULL;
    *bits |= bit;
    return false;
}

#endif
