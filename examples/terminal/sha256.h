/* SHA-256 (FIPS 180-4), for the journal: the core is built without OpenSSL, which is the fronts'. */
#ifndef SHA256_H
#define SHA256_H

#include <stddef.h>
#include <stdint.h>

enum {
    SHA256_LENGTH = 32,
    SHA256_BLOCK = 64
};

struct sha256 {
    uint32_t state[8];
    uint8_t block[SHA256_BLOCK];
    /* bytes so far */
    uint64_t length;
};

void sha256_begin(struct sha256 *s);
void sha256_add(struct sha256 *s, const void *bytes, size_t length);
void sha256_end(struct sha256 *s, uint8_t sum[SHA256_LENGTH]);

#endif
