/* The keys of the partners: which identity may open a session, and which credential it then has. */
#ifndef KEYS_H
#define KEYS_H

#include <stdbool.h>
#include <stddef.h>
#include <stdint.h>

enum {
    KEYS_MOST = 64,
    KEY_LEAST = 16,
    KEY_MOST = 64,
    KEYS_ERROR = 256,
    /* bytes of a key file, at most */
    KEYS_FILE = 1 << 16
};

struct key {
    /* the credential number, which is also the identity, in decimal */
    unsigned number;
    char identity[8];
    char secret[KEY_MOST + 1];
};

struct keys {
    size_t length;
    struct key list[KEYS_MOST];
};

/* Reads a file with a line for each key: credential number, one space, key of 16 to 64 characters without a space.
 * Empty lines and lines that begin with # are passed over. False: it has any other line; `error` says what is wrong, and
 * the keys are those from before. */
bool keys_read(struct keys *keys, int file, char error[KEYS_ERROR]);

/* The key of an identity, or NULL. */
const struct key *keys_find(const struct keys *keys, const uint8_t *identity, size_t length);

/* The key of a credential, or NULL. */
const struct key *keys_of(const struct keys *keys, unsigned number);

#endif
