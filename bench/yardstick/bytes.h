/* The yardstick's bytes: numbers with their most significant byte first, and bytes that are all zero.
 * Nothing here knows of rows. */
#ifndef YARDSTICK_BYTES_H
#define YARDSTICK_BYTES_H

#include "tillerclover.h"

#include <string.h>

static inline uint16_t be16(const uint8_t *p)
{
    return (uint16_t)(p[0] << 8 | p[1]);
}

static inline uint32_t be32(const uint8_t *p)
{
    return (uint32_t)p[0] << 24 | (uint32_t)p[1] << 16 | (uint32_t)p[2] << 8 | p[3];
}

static inline uint64_t be64(const uint8_t *p)
{
    return (uint64_t)be32(p) << 32 | be32(p + 4);
}

static inline void put16(uint8_t *p, unsigned number)
{
    p[0] = (uint8_t)(number >> 8);
    p[1] = (uint8_t)number;
}

/* Eight bytes in the processor's own order: to compare, and to see whether any bit is set. */
static inline uint64_t word(const uint8_t *p)
{
    uint64_t value;
    memcpy(&value, p, sizeof value);
    return value;
}

/* Bytes that should be zero mostly are: so there is one test at the end, and none on the way. */
static inline bool all_zero(const uint8_t *p, size_t length)
{
    enum {
        WORDS = 8
    };
    uint64_t any[WORDS] = {0}, rest = 0;
    for (; length >= sizeof any; p += sizeof any, length -= sizeof any)
        for (size_t i = 0; i < WORDS; i++)
            any[i] |= word(p + i * sizeof any[i]);
    for (; length >= sizeof rest; p += sizeof rest, length -= sizeof rest)
        rest |= word(p);
    for (; length > 0; p++, length--)
        rest |= *p;
    for (size_t i = 0; i < WORDS; i++)
        rest |= any[i];
    return rest == 0;
}

static inline bool same_uuid(const uint8_t *a, const uint8_t *b)
{
    return ((word(a) ^ word(b)) | (word(a + 8) ^ word(b + 8))) == 0;
}

static inline bool is_nil(const uint8_t *uuid)
{
    return (word(uuid) | word(uuid + 8)) == 0;
}

#endif
