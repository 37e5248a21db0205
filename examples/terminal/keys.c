#include <errno.h>
#include <stdio.h>
#include <stdlib.h>
#include <string.h>
#include <unistd.h>

#include "keys.h"

/* NUMBER KEY, with no other byte before, between or after them. */
static bool parse(const char *line, struct key *key)
{
    size_t digits = strspn(line, "0123456789");
    if (digits < 1 || digits > 5 || line[0] == '0' || line[digits] != ' ') {
        return false;
    }
    const char *secret = line + digits + 1;
    size_t length = 0;
    while (secret[length] > ' ' && secret[length] <= '~') {
        length++;
    }
    if (length < KEY_LEAST || length > KEY_MOST || (secret[length] != '\n' && secret[length] != 0)) {
        return false;
    }
    key->number = (unsigned)strtoul(line, NULL, 10);
    memcpy(key->identity, line, digits);
    memcpy(key->secret, secret, length);
    return key->number <= UINT16_MAX;
}

static bool add(struct keys *keys, const char *line, unsigned place, char error[KEYS_ERROR])
{
    struct key key = {0};
    bool added = false;
    if (!parse(line, &key)) {
        snprintf(error, KEYS_ERROR,
                 "the key file, line %u: not a credential number, a space and a key of %d to %d characters", place,
                 KEY_LEAST, KEY_MOST);
    } else if (keys_of(keys, key.number) != NULL) {
        snprintf(error, KEYS_ERROR, "the key file, line %u: credential %u has a key already", place, key.number);
    } else if (keys->length == KEYS_MOST) {
        snprintf(error, KEYS_ERROR, "the key file has more than %d keys", KEYS_MOST);
    } else {
        keys->list[keys->length++] = key;
        added = true;
    }
    explicit_bzero(&key, sizeof key);
    return added;
}

/* Reads the lines of a text that ends with a zero after its last byte. */
static bool read_lines(struct keys *keys, char *text, size_t length, char error[KEYS_ERROR])
{
    bool good = true;
    unsigned place = 1;
    for (size_t at = 0; good && at < length; place++) {
        char *line = text + at, *end = memchr(line, '\n', length - at);
        size_t many = end != NULL ? (size_t)(end - line) : length - at;
        line[many] = 0;
        /* A zero byte would hide what comes after it. */
        const char *seen = strlen(line) == many ? line : "?";
        good = many == 0 || line[0] == '#' || add(keys, seen, place, error);
        at += many + 1;
    }
    return good;
}

bool keys_read(struct keys *keys, int file, char error[KEYS_ERROR])
{
    static char text[KEYS_FILE + 1];
    static struct keys found;
    size_t length = 0;
    ssize_t many = 1;
    while (many > 0 && length < KEYS_FILE) {
        many = read(file, text + length, KEYS_FILE - length);
        length += many > 0 ? (size_t)many : 0;
    }
    found = (struct keys){0};
    bool good = many >= 0;
    if (!good) {
        snprintf(error, KEYS_ERROR, "the key file cannot be read: %s", strerror(errno));
    }
    good = good && read_lines(&found, text, length, error);
    if (good) {
        *keys = found;
    }
    explicit_bzero(text, sizeof text);
    explicit_bzero(&found, sizeof found);
    return good;
}

const struct key *keys_find(const struct keys *keys, const uint8_t *identity, size_t length)
{
    for (size_t i = 0; i < keys->length; i++) {
        const struct key *key = &keys->list[i];
        if (length == strlen(key->identity) && memcmp(identity, key->identity, length) == 0) {
            return key;
        }
    }
    return NULL;
}

const struct key *keys_of(const struct keys *keys, unsigned number)
{
    for (size_t i = 0; i < keys->length; i++) {
        if (keys->list[i].number == number) {
            return &keys->list[i];
        }
    }
    return NULL;
}
