/* What include/tillerclover_records.h reads of rows and tables, and the names of include/tillerclover_words.h, on random and
 * hostile bytes. Each line is a kind, an input in hexadecimal and what the header makes of it; the binding's test `words` reads
 * the lines and makes the same of the inputs. Each input has memory of its own, whose end the sanitizers watch. */
#include <stdio.h>
#include <stdlib.h>
#include <string.h>

#include "chance.h"
#include "tillerclover_records.h"
#include "tillerclover_words.h"

enum {
    TURNS = 4000
};

static void hexadecimal(const void *bytes, size_t length)
{
    for (size_t i = 0; i < length; i++)
        printf("%02x", ((const uint8_t *)bytes)[i]);
}

/* Memory with random bytes; one in four is all zeros except for a few. */
static uint8_t *bytes_of(size_t length)
{
    uint8_t *bytes = malloc(length);
    expect(bytes != NULL, "memory");
    const unsigned few = any(4) == 0 ? 1 : 256;
    for (size_t i = 0; i < length; i++)
        bytes[i] = few == 1 && any(8) != 0 ? 0 : (uint8_t)any(256);
    return bytes;
}

static void begin(const char *kind, const void *bytes, size_t length)
{
    printf("%s\t", kind);
    hexadecimal(bytes, length);
    putchar('\t');
}

/* ---- Rows */

static void cred(const uint8_t *bytes)
{
    const tillerclover_cred row = tillerclover_unpack_cred(bytes);
    printf("%u ", row.number);
    hexadecimal(row.subject, TILLERCLOVER_UUID_LENGTH);
    printf(" %u %u %u", row.role, row.authority, row.type);
    uint8_t again[TILLERCLOVER_CRED_LENGTH];
    tillerclover_pack_cred(again, &row);
    expect((again[22] ^ bytes[22]) < 4 && memcmp(again, bytes, 22) == 0, "a credential row packed again is the same");
}

static void ace(const uint8_t *bytes)
{
    const tillerclover_ace row = tillerclover_unpack_ace(bytes);
    printf("%u %u ", row.number, (unsigned)row.kind);
    hexadecimal(row.uuid, TILLERCLOVER_UUID_LENGTH);
    printf(" %u %u %u %u %u %016llx %lu %lu", row.role, row.authority, (unsigned)row.connection, row.permission,
           row.wildcards, (unsigned long long)row.set, (unsigned long)row.first, (unsigned long)row.last);
    uint8_t again[TILLERCLOVER_ACE_LENGTH];
    tillerclover_pack_ace(again, &row);
    expect(memcmp(again, bytes, 3) == 0 && memcmp(again + 4, bytes + 4, 8) == 0 &&
               memcmp(again + 28, bytes + 28, 8) == 0 &&
               (row.kind != TILLERCLOVER_SUBJECT_UUID || memcmp(again + 12, bytes + 12, 16) == 0),
           "an access row packed again is the same");
}

static void rows(void)
{
    for (unsigned turn = 0; turn < TURNS; turn++) {
        uint8_t *bytes = bytes_of(TILLERCLOVER_CRED_LENGTH);
        begin("cred", bytes, TILLERCLOVER_CRED_LENGTH);
        cred(bytes);
        putchar('\n');
        free(bytes);
        bytes = bytes_of(TILLERCLOVER_ACE_LENGTH);
        begin("ace", bytes, TILLERCLOVER_ACE_LENGTH);
        ace(bytes);
        putchar('\n');
        free(bytes);
        bytes = bytes_of(TILLERCLOVER_ROLE_LENGTH);
        const tillerclover_role role = tillerclover_unpack_role(bytes);
        begin("role", bytes, TILLERCLOVER_ROLE_LENGTH);
        printf("%u %u %lu\n", role.role, role.authority, (unsigned long)role.last);
        free(bytes);
        bytes = bytes_of(TILLERCLOVER_OLD_ROW_LENGTH);
        const tillerclover_old_row old = tillerclover_unpack_old_row(bytes);
        begin("old", bytes, TILLERCLOVER_OLD_ROW_LENGTH);
        hexadecimal(old.subject, TILLERCLOVER_UUID_LENGTH);
        printf(" %u %016llx\n", old.permission, (unsigned long long)old.set);
        free(bytes);
    }
}

/* ---- Tables of any content: the rows one by one, their asserted roles, and those found by number */

static void tables(void)
{
    for (unsigned turn = 0; turn < 200; turn++) {
        tillerclover_tables *t = (tillerclover_tables *)bytes_of(sizeof *t);
        if (turn % 2 == 0) {
            t->ncreds = (uint8_t)any(TILLERCLOVER_CRED_CAPACITY + 2);
            t->naces = (uint8_t)any(TILLERCLOVER_ACE_CAPACITY + 2);
        }
        begin("tables", t, sizeof *t);
        for (size_t i = 0; i < tillerclover_cred_count(t); i++) {
            const uint8_t *row = tillerclover_cred_row(t, i);
            const tillerclover_role first = tillerclover_asserted_role(row, 0),
                                    second = tillerclover_asserted_role(row, 1);
            const unsigned number = tillerclover_unpack_cred(row).number;
            const uint8_t *found = tillerclover_find_cred(t, number);
            printf("%u %u %u %ld ", number, first.role, second.role,
                   (long)((found - t->creds) / TILLERCLOVER_CRED_ROW_LENGTH));
            expect(tillerclover_asserted_role(row, 2).role == 0, "there is no third role");
        }
        printf("/ ");
        for (size_t i = 0; i < tillerclover_ace_count(t); i++) {
            const unsigned number = tillerclover_unpack_ace(tillerclover_ace_row(t, i)).number;
            const uint8_t *found = tillerclover_find_ace(t, number);
            printf("%u %ld ", number, (long)((found - t->aces) / TILLERCLOVER_ACE_LENGTH));
        }
        putchar('\n');
        expect(tillerclover_cred_row(t, tillerclover_cred_count(t)) == NULL &&
                   tillerclover_ace_row(t, tillerclover_ace_count(t)) == NULL &&
                   tillerclover_cred_row(t, SIZE_MAX) == NULL && tillerclover_ace_row(t, SIZE_MAX) == NULL &&
                   tillerclover_find_cred(t, 65536) == NULL && tillerclover_find_ace(t, 65536) == NULL,
               "there is no row past the last");
        free(t);
    }
}

/* ---- Names, both ways */

struct kind {
    const char *name;
    const char *(*text)(unsigned);
    int (*number)(const char *);
};

static const struct kind KINDS[] = {
    {"verb", tillerclover_verb_text, tillerclover_verb_of},
    {"connection", tillerclover_connection_text, tillerclover_connection_of},
    {"resource", tillerclover_resource_text, tillerclover_resource_of},
    {"state", tillerclover_state_text, tillerclover_state_of},
};

/* A text in memory that ends with it: a name with a change, or anything. */
static char *text_of(const struct kind *k)
{
    const char *name = k->text(any(18));
    if (name == NULL)
        name = "-CRUDNcrudn/oic";
    char *text = malloc(strlen(name) + 3);
    expect(text != NULL, "memory");
    strcpy(text, name);
    const size_t at = any((unsigned)strlen(name));
    switch (any(6)) {
    case 0:
        text[at] = (char)(1 + any(127));
        break;
    case 1:
        text[at] = 0;
        break;
    case 2:
        text[at] ^= 32;
        break;
    case 3:
        strcat(text, "x");
        break;
    default:
        break;
    }
    return realloc(text, strlen(text) + 1);
}

static void names(void)
{
    for (size_t k = 0; k < sizeof KINDS / sizeof *KINDS; k++) {
        for (unsigned number = 0; number < 256; number++) {
            const char *text = KINDS[k].text(number);
            printf("%s\t%02x\t%s\n", KINDS[k].name, number, text == NULL ? "none" : text);
            expect(text == NULL || KINDS[k].number(text) == (int)number, "a name gives its number back");
        }
        expect(KINDS[k].text(256) == NULL && KINDS[k].text(~0u) == NULL, "large numbers have no name");
        for (unsigned turn = 0; turn < TURNS; turn++) {
            char *text = text_of(&KINDS[k]);
            printf("%s-of\t", KINDS[k].name);
            hexadecimal(text, strlen(text));
            printf("\t%d\n", KINDS[k].number(text));
            free(text);
        }
    }
}

static void permissions(void)
{
    char text[TILLERCLOVER_PERMISSION_TEXT];
    for (unsigned permission = 0; permission < 32; permission++)
        printf("permission\t%02x\t%s\n", permission, tillerclover_permission_text(text, permission));
    for (unsigned turn = 0; turn < TURNS; turn++) {
        char letters[8];
        const unsigned length = any(8);
        for (unsigned i = 0; i < length; i++)
            letters[i] = any(20) == 0 ? (char)(1 + any(127)) : "CRUDNcrudn-"[any(11)];
        letters[length] = 0;
        printf("permission-of\t");
        hexadecimal(letters, length);
        printf("\t%d\n", tillerclover_permission_of(letters));
    }
}

/* The line of a text that may be a UUID. */
static void uuid_of(const char *text)
{
    uint8_t back[TILLERCLOVER_UUID_LENGTH];
    printf("uuid-of\t");
    hexadecimal(text, strlen(text));
    putchar('\t');
    if (tillerclover_uuid_of(back, text))
        hexadecimal(back, sizeof back);
    else
        printf("none");
    putchar('\n');
}

/* Each letter instead of a digit. */
static void digits(void)
{
    for (int letter = 1; letter < 128; letter++) {
        char text[TILLERCLOVER_UUID_TEXT] = "00112233-4455-6677-8899-aabbccddeeff";
        text[letter % 2 == 0 ? 0 : 35] = (char)letter;
        uuid_of(text);
    }
}

static void uuids(void)
{
    for (unsigned turn = 0; turn < TURNS; turn++) {
        uint8_t *uuid = bytes_of(TILLERCLOVER_UUID_LENGTH), back[TILLERCLOVER_UUID_LENGTH];
        char *text = malloc(TILLERCLOVER_UUID_TEXT + 2);
        expect(text != NULL, "memory");
        begin("uuid", uuid, TILLERCLOVER_UUID_LENGTH);
        puts(tillerclover_uuid_text(text, uuid));
        expect(tillerclover_uuid_of(back, text) && memcmp(back, uuid, sizeof back) == 0, "a UUID is read back");
        const unsigned at = any(TILLERCLOVER_UUID_TEXT);
        switch (any(5)) {
        case 0:
            text[at] = (char)any(128);
            text[36] = 0;
            break;
        case 1:
            memmove(text + at, text + at + 1, TILLERCLOVER_UUID_TEXT - at - (at < 36));
            text[35] = 0;
            break;
        case 2:
            strcat(text, turn % 2 == 0 ? "0" : "-");
            break;
        case 3:
            for (char *from = text, *to = text; (*to = *from) != 0; from++)
                to += *from != '-';
            break;
        default:
            text[at] ^= 32;
            text[36] = 0;
        }
        text = realloc(text, strlen(text) + 1);
        uuid_of(text);
        free(text);
        free(uuid);
    }
}

int main(void)
{
    rows();
    tables();
    names();
    permissions();
    uuids();
    digits();
    expect(strcmp(TILLERCLOVER_VERSION_TEXT, "2.0") != 0 || TILLERCLOVER_INTERFACE == 2000, "the version as text");
    printf("version\t%04x\t%s\n", (unsigned)TILLERCLOVER_INTERFACE, TILLERCLOVER_VERSION_TEXT);
    return 0;
}
