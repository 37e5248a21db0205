/* What the programs that play a partner of the example terminal share: its identity and key, and messages in hexadecimal. */
#ifndef PARTNER_H
#define PARTNER_H

#include <openssl/ssl.h>
#include <stdint.h>
#include <stdio.h>
#include <string.h>

static const char *key_now, *number_now;

static unsigned give_key(SSL *ssl, const char *hint, char *identity, unsigned identity_room, unsigned char *key,
                         unsigned room)
{
    (void)ssl;
    (void)hint;
    snprintf(identity, identity_room, "%s", number_now);
    snprintf((char *)key, room, "%s", key_now);
    return (unsigned)strlen(key_now);
}

static size_t from_hex(const char *line, uint8_t *bytes, size_t room)
{
    size_t many = 0;
    unsigned byte;
    while (many < room && sscanf(line + 2 * many, "%2x", &byte) == 1) {
        bytes[many++] = (uint8_t)byte;
    }
    return many;
}

#endif
