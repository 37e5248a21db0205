/* The yardstick's office text: the access rows as OCF's JSON, in a buffer.
 * The length is found beforehand only where the buffer is shorter than the longest text. */
#ifndef YARDSTICK_OFFICE_H
#define YARDSTICK_OFFICE_H

#include "rows.h"

/* ---- Pieces of text: each returns the place after it */

static inline uint8_t *put(uint8_t *to, const char *text, size_t length)
{
    memcpy(to, text, length);
    return to + length;
}

#define PUT(to, text) put(to, text, sizeof text - 1)

enum {
    /* of a number of 16 bits */
    DIGITS_MAX = 5
};

static inline uint8_t *put_decimal(uint8_t *to, unsigned number)
{
    char digits[DIGITS_MAX], *first = digits + DIGITS_MAX;
    do {
        *--first = (char)('0' + number % 10);
        number /= 10;
    } while (number != 0);
    return put(to, first, (size_t)(digits + DIGITS_MAX - first));
}

static inline uint8_t *put_hex(uint8_t *to, const uint8_t *bytes, size_t length)
{
    static const char digits[] = "0123456789abcdef";
    for (size_t i = 0; i < length; i++) {
        *to++ = (uint8_t)digits[bytes[i] >> 4];
        *to++ = (uint8_t)digits[bytes[i] & 15];
    }
    return to;
}

/* In the form 8-4-4-4-12. */
static inline uint8_t *put_uuid(uint8_t *to, const uint8_t *uuid)
{
    to = put_hex(to, uuid, 4);
    *to++ = '-';
    to = put_hex(to, uuid + 4, 2);
    *to++ = '-';
    to = put_hex(to, uuid + 6, 2);
    *to++ = '-';
    to = put_hex(to, uuid + 8, 2);
    *to++ = '-';
    return put_hex(to, uuid + 10, 6);
}

/* ---- A row */

static inline uint8_t *put_subject(uint8_t *to, const uint8_t *row, unsigned kind)
{
    switch (kind) {
    case TILLERCLOVER_SUBJECT_UUID:
        to = PUT(to, "{\"uuid\":\"");
        to = put_uuid(to, row + TILLERCLOVER_ACE_SUBJECT_AT);
        break;
    case TILLERCLOVER_SUBJECT_ROLE:
        to = PUT(to, "{\"authority\":\"");
        to = put_decimal(to, be16(row + TILLERCLOVER_ACE_AUTHORITY_AT));
        to = PUT(to, "\",\"role\":\"");
        to = put_decimal(to, be16(row + TILLERCLOVER_ACE_ROLE_AT));
        break;
    default:
        to = PUT(to, "{\"conntype\":\"");
        to = row[TILLERCLOVER_ACE_CONNECTION_AT] ? PUT(to, "auth-crypt") : PUT(to, "anon-clear");
    }
    return PUT(to, "\"}");
}

typedef struct name {
    const char *text;
    size_t length;
} name;

/* The names by number, each as it is in the list of resources. */
#define NAME(text)                                                                                                     \
    {                                                                                                                  \
        "{\"href\":\"" text "\"},", sizeof "{\"href\":\"" text "\"}," - 1                                              \
    }
static const name names[RESOURCES] = {
    [TILLERCLOVER_DOXM] = NAME("/oic/sec/doxm"),   [TILLERCLOVER_PSTAT] = NAME("/oic/sec/pstat"),
    [TILLERCLOVER_CRED] = NAME("/oic/sec/cred"),   [TILLERCLOVER_ACL2] = NAME("/oic/sec/acl2"),
    [TILLERCLOVER_ROLES] = NAME("/oic/sec/roles"), [TILLERCLOVER_WEIGHT] = NAME("/weight"),
    [TILLERCLOVER_TARE] = NAME("/tare"),           [TILLERCLOVER_ZERO] = NAME("/zero"),
    [TILLERCLOVER_TICKET] = NAME("/ticket"),       [TILLERCLOVER_LAMP] = NAME("/lamp"),
    [TILLERCLOVER_CALIB] = NAME("/calib"),         [TILLERCLOVER_DISPLAY] = NAME("/display"),
    [TILLERCLOVER_YARD] = NAME("/yard"),
};

/* The set from its top bit on, then the wildcards; the last comma goes. */
static inline uint8_t *put_resources(uint8_t *to, const uint8_t *row, unsigned wildcards)
{
    const uint8_t *start = to;
    for (uint64_t set = be64(row + TILLERCLOVER_ACE_SET_AT); set != 0;) {
        unsigned number = (unsigned)__builtin_clzll(set);
        to = put(to, names[number].text, names[number].length);
        set &= ~BIT(number);
    }
    if (wildcards & TILLERCLOVER_WILDCARD_PLUS)
        to = PUT(to, "{\"wc\":\"+\"},");
    if (wildcards & TILLERCLOVER_WILDCARD_MINUS)
        to = PUT(to, "{\"wc\":\"-\"},");
    if (wildcards & TILLERCLOVER_WILDCARD_STAR)
        to = PUT(to, "{\"wc\":\"*\"},");
    return to - (to != start);
}

static inline uint8_t *put_row(uint8_t *to, const uint8_t *row)
{
    uint16_t fields = be16(row + TILLERCLOVER_ACE_WORD);
    to = PUT(to, "{\"aceid\":");
    to = put_decimal(to, be16(row + TILLERCLOVER_ACE_NUMBER_AT));
    to = PUT(to, ",\"subject\":");
    to = put_subject(to, row, ace_kind(fields));
    to = PUT(to, ",\"resources\":[");
    to = put_resources(to, row, fields >> TILLERCLOVER_ACE_WILDCARDS_SHIFT & WILDCARDS);
    to = PUT(to, "],\"permission\":");
    to = put_decimal(to, ace_permission(fields));
    return PUT(to, "},");
}

/* The text has no period: a row that does not hold for every second is left out. */
static inline bool in_text(const uint8_t *row)
{
    return be32(row + TILLERCLOVER_ACE_FIRST_AT) == 0 && be32(row + TILLERCLOVER_ACE_LAST_AT) == UINT32_MAX;
}

/* ---- The text */

enum {
    /* of one row with its comma: a full table of the longest rows, without what is around it */
    ROW_TEXT_MAX = (TILLERCLOVER_TEXT_MAX - (int)sizeof "{\"aclist2\":[]}" + 2) / TILLERCLOVER_ACE_CAPACITY
};

static inline uint8_t *put_text(uint8_t *to, const tillerclover_tables *t)
{
    const uint8_t *row = t->aces, *end = row + (size_t)t->naces * TILLERCLOVER_ACE_LENGTH;
    to = PUT(to, "{\"aclist2\":[");
    const uint8_t *start = to;
    for (; row < end; row += TILLERCLOVER_ACE_LENGTH)
        if (in_text(row))
            to = put_row(to, row);
    to -= to != start;
    return PUT(to, "]}");
}

/* The length of the text: each row is written to a buffer of its own. */
static inline size_t text_length(const tillerclover_tables *t)
{
    uint8_t scratch[ROW_TEXT_MAX];
    const uint8_t *row = t->aces, *end = row + (size_t)t->naces * TILLERCLOVER_ACE_LENGTH;
    size_t length = 0;
    for (; row < end; row += TILLERCLOVER_ACE_LENGTH)
        if (in_text(row))
            length += (size_t)(put_row(scratch, row) - scratch);
    return length - (length != 0) + sizeof "{\"aclist2\":[]}" - 1;
}

static inline uint8_t access_list(const tillerclover_tables *t, uint8_t *text, uint64_t capacity, uint64_t *length)
{
    *length = 0;
    if (capacity < TILLERCLOVER_TEXT_MAX && capacity < text_length(t))
        return TILLERCLOVER_LIST_NO_ROOM;
    *length = (uint64_t)(put_text(text, t) - text);
    return TILLERCLOVER_PERMITTED;
}

#endif
