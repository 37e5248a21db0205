/* The yardstick's lists: the test of a list before it is loaded, and access rows made of an older terminal's list.
 * Neither looks at a terminal. */
#ifndef YARDSTICK_LISTS_H
#define YARDSTICK_LISTS_H

#include "rows.h"

/* ---- The test of a list */

/* A role or a connection is given create, update or delete on a security resource; no wildcard reaches one. */
static inline bool excessive(const uint8_t *row)
{
    enum {
        ALTERS = TILLERCLOVER_MAY_CREATE | TILLERCLOVER_MAY_UPDATE | TILLERCLOVER_MAY_DELETE
    };
    uint16_t fields = be16(row + TILLERCLOVER_ACE_WORD);
    return ace_kind(fields) != TILLERCLOVER_SUBJECT_UUID && (ace_permission(fields) & ALTERS) &&
           (be64(row + TILLERCLOVER_ACE_SET_AT) & SECURITY);
}

static inline uint8_t test_list(const uint8_t *rows, uint64_t length, uint64_t *place)
{
    uint64_t count = length / TILLERCLOVER_ACE_LENGTH;
    *place = 0;
    if (length % TILLERCLOVER_ACE_LENGTH != 0 || count > TILLERCLOVER_ACE_CAPACITY)
        return TILLERCLOVER_TEST_BAD_SIZE;
    seen numbers = {{0}};
    const uint8_t *row = rows;
    for (uint64_t i = 1; i <= count; i++, row += TILLERCLOVER_ACE_LENGTH) {
        *place = i;
        if (!ace_storable(row) || seen_before(&numbers, rows, row, TILLERCLOVER_ACE_LENGTH))
            return TILLERCLOVER_TEST_NOT_STORABLE;
        if (excessive(row))
            return TILLERCLOVER_TEST_EXCESSIVE;
    }
    *place = 0;
    return TILLERCLOVER_PERMITTED;
}

/* ---- An older terminal's list */

static inline bool for_anybody(const uint8_t *old)
{
    return is_nil(old + TILLERCLOVER_OLD_SUBJECT_AT);
}

/* The rows that the file becomes; more than any table holds where it is bad. */
static inline size_t rows_made(const uint8_t *file, uint64_t length)
{
    size_t made = 0;
    for (const uint8_t *old = file, *end = file + length; old < end; old += TILLERCLOVER_OLD_ROW_LENGTH) {
        if ((old[TILLERCLOVER_OLD_PERMISSION_AT] & ((1 << TILLERCLOVER_OLD_PERMISSION_SHIFT) - 1)) != 0 ||
            (be64(old + TILLERCLOVER_OLD_SET_AT) & ~KNOWN) != 0)
            return SIZE_MAX;
        made += for_anybody(old) ? 2 : 1;
    }
    return made;
}

/* A row for every second, without its subject. */
static inline void put_old(uint8_t *row, unsigned number, enum tillerclover_subject kind, const uint8_t *old)
{
    unsigned permission = old[TILLERCLOVER_OLD_PERMISSION_AT] >> TILLERCLOVER_OLD_PERMISSION_SHIFT;
    put16(row + TILLERCLOVER_ACE_NUMBER_AT, number);
    put16(row + TILLERCLOVER_ACE_WORD,
          (unsigned)kind << TILLERCLOVER_ACE_KIND_SHIFT | permission << TILLERCLOVER_ACE_PERMISSION_SHIFT);
    memcpy(row + TILLERCLOVER_ACE_SET_AT, old + TILLERCLOVER_OLD_SET_AT, sizeof(uint64_t));
    memset(row + TILLERCLOVER_ACE_FIRST_AT, 0, 4);
    memset(row + TILLERCLOVER_ACE_LAST_AT, 255, 4);
}

static inline void put_connection(uint8_t *row, unsigned number, enum tillerclover_connection connection,
                                  const uint8_t *old)
{
    put_old(row, number, TILLERCLOVER_SUBJECT_CONNECTION, old);
    memset(row + TILLERCLOVER_ACE_SUBJECT_AT, 0, TILLERCLOVER_UUID_LENGTH);
    row[TILLERCLOVER_ACE_CONNECTION_AT] = (uint8_t)connection;
}

static inline void put_rows(uint8_t *row, const uint8_t *file, uint64_t length)
{
    unsigned number = 1;
    for (const uint8_t *old = file, *end = file + length; old < end; old += TILLERCLOVER_OLD_ROW_LENGTH) {
        if (for_anybody(old)) {
            put_connection(row, number++, TILLERCLOVER_AUTH_CRYPT, old);
            row += TILLERCLOVER_ACE_LENGTH;
            put_connection(row, number++, TILLERCLOVER_ANON_CLEAR, old);
            row += TILLERCLOVER_ACE_LENGTH;
            continue;
        }
        put_old(row, number++, TILLERCLOVER_SUBJECT_UUID, old);
        memcpy(row + TILLERCLOVER_ACE_SUBJECT_AT, old + TILLERCLOVER_OLD_SUBJECT_AT, TILLERCLOVER_UUID_LENGTH);
        row += TILLERCLOVER_ACE_LENGTH;
    }
}

static inline uint8_t convert_list(const uint8_t *file, uint64_t length, uint8_t *rows, uint64_t capacity,
                                   uint64_t *written)
{
    size_t made;
    *written = 0;
    if (length % TILLERCLOVER_OLD_ROW_LENGTH != 0 || (made = rows_made(file, length)) == SIZE_MAX)
        return TILLERCLOVER_CONVERT_BAD_FILE;
    if (made > TILLERCLOVER_ACE_CAPACITY)
        return TILLERCLOVER_CONVERT_TOO_MANY;
    if (made * TILLERCLOVER_ACE_LENGTH > capacity)
        return TILLERCLOVER_CONVERT_NO_ROOM;
    put_rows(rows, file, length);
    *written = made * TILLERCLOVER_ACE_LENGTH;
    return TILLERCLOVER_PERMITTED;
}

#endif
