#include <string.h>

#include "store.h"

/* The file: eight bytes that say what it is, the state, and a checksum of all that comes before it. Rename makes a
 * store whole; the checksum is for memory that loses a bit in a place that the library takes for sound, as in a UUID.
 */
struct image {
    uint8_t kind[8];
    tillerclover_terminal state;
    uint8_t checksum[4];
};
_Static_assert(sizeof(struct image) == 8 + sizeof(tillerclover_terminal) + 4, "the file has no padding");

/* With the version of the format: a file of another one is not taken. */
static const uint8_t KIND[8] = {
    't', 'i', 'l', 'l', 'e', 'r', '0' + TILLERCLOVER_FORMAT / 10, '0' + TILLERCLOVER_FORMAT % 10,
};

/* CRC-32 as in gzip, the low byte first. */
static void checksum(const void *bytes, size_t length, uint8_t sum[4])
{
    const uint8_t *p = bytes;
    uint32_t crc = UINT32_MAX;
    for (size_t i = 0; i < length; i++) {
        crc ^= p[i];
        for (int bit = 0; bit < 8; bit++) {
            crc = crc >> 1 ^ (crc & 1 ? UINT32_C(0xEDB88320) : 0);
        }
    }
    crc = ~crc;
    for (int i = 0; i < 4; i++) {
        sum[i] = (uint8_t)(crc >> 8 * i);
    }
}

enum found store_open(struct file *f, const char *path, tillerclover_terminal *state)
{
    /* one byte more, to see a file that is longer */
    uint8_t bytes[sizeof(struct image) + 1];
    struct image image;
    uint8_t sum[4];
    file_open(f, path, 0);
    if (f->descriptor < 0) {
        return FOUND_NOTHING;
    }
    size_t length = file_read(f, bytes, sizeof bytes);
    if (length != sizeof image) {
        return FOUND_DAMAGED;
    }
    memcpy(&image, bytes, sizeof image);
    checksum(&image, offsetof(struct image, checksum), sum);
    if (memcmp(image.kind, KIND, sizeof KIND) != 0 || memcmp(image.checksum, sum, sizeof sum) != 0) {
        return FOUND_DAMAGED;
    }
    *state = image.state;
    return FOUND_WHOLE;
}

void store_write(struct file *f, const tillerclover_terminal *state)
{
    struct image image = {.state = *state};
    memcpy(image.kind, KIND, sizeof KIND);
    checksum(&image, offsetof(struct image, checksum), image.checksum);
    file_replace(f, &image, sizeof image);
}
