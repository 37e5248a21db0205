/* Tillerclover: verbs, resources, states and permissions by their names, UUIDs and versions as text, and back, for C11 and for
 * C++11 and later.
 *
 * Nothing here decides, and there is nothing to link. The names are those of the papers and of the command `tillerclover`. A
 * number without a name gives NULL. A text that is no name gives TILLERCLOVER_NO_NUMBER; small and capital letters count
 * alike. Every text has an end, a byte 0, and may have any content before it.
 *
 *     int resource = tillerclover_resource_of("/tare");                     9
 *     puts(tillerclover_resource_text(9));                                  /tare
 *     char letters[TILLERCLOVER_PERMISSION_TEXT];
 *     puts(tillerclover_permission_text(letters, outcome.permission));      -RU--
 */
#ifndef TILLERCLOVER_WORDS_H
#define TILLERCLOVER_WORDS_H

#include "tillerclover.h"

#ifdef __cplusplus
extern "C" {
#endif

enum {
    /* what a text gives that is no name */
    TILLERCLOVER_NO_NUMBER = -1,
    /* bytes of the texts, with the byte 0 at their end */
    TILLERCLOVER_PERMISSION_TEXT = 6,
    TILLERCLOVER_UUID_TEXT = 37
};

/* ---- Names by number */

/* A number and its name. */
typedef struct tillerclover_name {
    int number;
    const char *name;
} tillerclover_name;

/* A small letter for a capital one of A to Z; any other as it is. */
static inline char tillerclover_small_letter(char letter)
{
    return letter >= 'A' && letter <= 'Z' ? (char)(letter - 'A' + 'a') : letter;
}

/* Whether two names are the same; small and capital letters count alike. */
static inline bool tillerclover_same_name(const char *a, const char *b)
{
    while (*a != 0 && tillerclover_small_letter(*a) == tillerclover_small_letter(*b)) {
        a++;
        b++;
    }
    return *a == 0 && *b == 0;
}

/* The name of a number in a table of `count` names; NULL if it has none. */
static inline const char *tillerclover_name_of(const tillerclover_name *names, size_t count, unsigned number)
{
    for (size_t i = 0; i < count; i++) {
        if ((unsigned)names[i].number == number) {
            return names[i].name;
        }
    }
    return NULL;
}

/* The number of a name in a table of `count` names; TILLERCLOVER_NO_NUMBER if it has none. */
static inline int tillerclover_number_of(const tillerclover_name *names, size_t count, const char *name)
{
    for (size_t i = 0; i < count; i++) {
        if (tillerclover_same_name(names[i].name, name)) {
            return names[i].number;
        }
    }
    return TILLERCLOVER_NO_NUMBER;
}

/* Two functions over one table of names: from a number to its name, and back. */
#define TILLERCLOVER_NAMES(kind, ...)                                                                                  \
    static inline const char *tillerclover_##kind##_text(unsigned number)                                              \
    {                                                                                                                  \
        static const tillerclover_name names[] = {__VA_ARGS__};                                                        \
        return tillerclover_name_of(names, sizeof names / sizeof *names, number);                                      \
    }                                                                                                                  \
    static inline int tillerclover_##kind##_of(const char *name)                                                       \
    {                                                                                                                  \
        static const tillerclover_name names[] = {__VA_ARGS__};                                                        \
        return tillerclover_number_of(names, sizeof names / sizeof *names, name);                                      \
    }

/* tillerclover_verb_text, tillerclover_verb_of; so for connections, resources and states */
TILLERCLOVER_NAMES(verb, {TILLERCLOVER_CREATE, "CREATE"}, {TILLERCLOVER_RETRIEVE, "RETRIEVE"},
                   {TILLERCLOVER_UPDATE, "UPDATE"}, {TILLERCLOVER_DELETE, "DELETE"}, {TILLERCLOVER_OBSERVE, "OBSERVE"})

TILLERCLOVER_NAMES(connection, {TILLERCLOVER_ANON_CLEAR, "anon-clear"}, {TILLERCLOVER_AUTH_CRYPT, "auth-crypt"})

TILLERCLOVER_NAMES(resource, {TILLERCLOVER_DOXM, "/oic/sec/doxm"}, {TILLERCLOVER_PSTAT, "/oic/sec/pstat"},
                   {TILLERCLOVER_CRED, "/oic/sec/cred"}, {TILLERCLOVER_ACL2, "/oic/sec/acl2"},
                   {TILLERCLOVER_ROLES, "/oic/sec/roles"}, {TILLERCLOVER_WEIGHT, "/weight"},
                   {TILLERCLOVER_TARE, "/tare"}, {TILLERCLOVER_ZERO, "/zero"}, {TILLERCLOVER_TICKET, "/ticket"},
                   {TILLERCLOVER_LAMP, "/lamp"}, {TILLERCLOVER_CALIB, "/calib"}, {TILLERCLOVER_DISPLAY, "/display"},
                   {TILLERCLOVER_YARD, "/yard"})

TILLERCLOVER_NAMES(state, {TILLERCLOVER_RESET, "RESET"}, {TILLERCLOVER_RFOTM, "RFOTM"}, {TILLERCLOVER_RFPRO, "RFPRO"},
                   {TILLERCLOVER_RFNOP, "RFNOP"}, {TILLERCLOVER_SRESET, "SRESET"})

#undef TILLERCLOVER_NAMES

/* ---- Permissions by their letters */

/* The five letters CRUDN, a dash for each bit that is not set; gives `text` back. */
static inline const char *tillerclover_permission_text(char *text, unsigned permission)
{
    for (unsigned bit = 0; bit < 5; bit++) {
        text[bit] = (permission >> bit & 1) != 0 ? "CRUDN"[bit] : '-';
    }
    text[5] = 0;
    return text;
}

/* The bits of letters in any order; dashes are left out. TILLERCLOVER_NO_NUMBER for any other letter. */
static inline int tillerclover_permission_of(const char *text)
{
    unsigned permission = 0;
    for (; *text != 0; text++) {
        if (*text == '-') {
            continue;
        }
        unsigned bit = 0;
        while (bit < 5 && tillerclover_small_letter("CRUDN"[bit]) != tillerclover_small_letter(*text)) {
            bit++;
        }
        if (bit == 5) {
            return TILLERCLOVER_NO_NUMBER;
        }
        permission |= 1u << bit;
    }
    return (int)permission;
}

/* ---- UUIDs as text */

/* In the form 8-4-4-4-12, in small letters; gives `text` back. */
static inline const char *tillerclover_uuid_text(char *text, const uint8_t *uuid)
{
    char *at = text;
    for (size_t i = 0; i < TILLERCLOVER_UUID_LENGTH; i++) {
        if (i == 4 || i == 6 || i == 8 || i == 10) {
            *at++ = '-';
        }
        *at++ = "0123456789abcdef"[uuid[i] >> 4];
        *at++ = "0123456789abcdef"[uuid[i] & 15];
    }
    *at = 0;
    return text;
}

/* The value of a hexadecimal digit; 16 for any other letter. */
static inline unsigned tillerclover_digit(char letter)
{
    const char small = tillerclover_small_letter(letter);
    if (small >= '0' && small <= '9') {
        return (unsigned)(small - '0');
    }
    return small >= 'a' && small <= 'f' ? (unsigned)(small - 'a') + 10 : 16;
}

/* Reads 32 digits, with the four dashes of the form 8-4-4-4-12 or without any. False for any other text; `uuid` then has any
 * content. */
static inline bool tillerclover_uuid_of(uint8_t *uuid, const char *text)
{
    bool dashes = false;
    for (size_t i = 0; i < TILLERCLOVER_UUID_LENGTH; i++) {
        if (i == 4) {
            dashes = *text == '-';
        }
        if (dashes && (i == 4 || i == 6 || i == 8 || i == 10) && *text++ != '-') {
            return false;
        }
        const unsigned high = tillerclover_digit(text[0]);
        if (high == 16) {
            return false;
        }
        const unsigned low = tillerclover_digit(text[1]);
        if (low == 16) {
            return false;
        }
        uuid[i] = (uint8_t)(high << 4 | low);
        text += 2;
    }
    return *text == 0;
}

/* ---- Versions */

#define TILLERCLOVER_TEXT_OF_(number) #number
#define TILLERCLOVER_TEXT_OF(number) TILLERCLOVER_TEXT_OF_(number)

/* This header's interface, as "2.0"; whether the archive belongs to it says tillerclover_identified. */
#define TILLERCLOVER_VERSION_TEXT                                                                                      \
    TILLERCLOVER_TEXT_OF(TILLERCLOVER_INTERFACE_MAJOR) "." TILLERCLOVER_TEXT_OF(TILLERCLOVER_INTERFACE_MINOR)

#ifdef __cplusplus
}
#endif
#endif
