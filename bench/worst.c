/* How long a call can take: a search for the tables, records and waiting records on which each C function takes the most
 * instructions. It shows a lower bound of the longest call; docs/BENCHMARKS.md has the bound from above.
 *
 * An input is a string of bytes, its genes, and every string is an input: a sound terminal, a record, a list, a clock. The
 * search changes a few genes at a time, or makes all rows alike, and keeps what takes at least as long. bench/worst.sh runs it.
 *
 *     worst FILE                   counts the cases of FILE: a line each, of a function and its genes
 *     worst FILE ROUNDS SEED       searches from them, that many tries for each function, and prints the worst in this form
 */
#include "counter.h"

#include "tillerclover_records.h"
#include "tillerclover_yards.h"

/* ---- The genes */

enum {
    /* the terminal and the call, then two for each credential row and four for each access row */
    HEAD = 32,
    OF_CRED = 2,
    OF_ACE = 4,
    CREDS = TILLERCLOVER_CRED_CAPACITY,
    ACES = TILLERCLOVER_ACE_CAPACITY,
    GENES = HEAD + CREDS * OF_CRED + ACES * OF_ACE
};

/* the genes of the terminal and the call */
enum {
    G_NCREDS,
    G_NACES,
    G_STATE,
    G_OWNED,
    G_WAITING,
    G_NUMBERS,
    G_CLOCK,
    G_VERB,
    G_RESOURCE,
    G_SENDER,
    G_BODY,
    G_LENGTH,
    G_NUMBER,
    G_KEPT,
    G_ROUND,
    G_OWNER,
    G_ROW_OWNERS,
    G_SPOIL = G_ROW_OWNERS + TILLERCLOVER_ROW_OWNERS,
    G_LIST,
    G_CAPACITY,
    G_SENDERS
};

static uint8_t genes[GENES];

static const uint8_t RESOURCES[] = {0, 1, 2, 3, 4, 8, 9, 10, 11, 12, 13, 14, 16};

/* ---- What the genes say */

static tillerclover_terminal built, x;
static tillerclover_record record;
static uint32_t clock_now;
static uint8_t buffer[TILLERCLOVER_TEXT_MAX], list[ACES * TILLERCLOVER_ACE_LENGTH],
    old[ACES * TILLERCLOVER_OLD_ROW_LENGTH];
static uint8_t senders[(CREDS + 1) * TILLERCLOVER_SENDER_LENGTH];
static size_t capacity, many_senders, old_rows;

/* Often all of them. */
static unsigned many(uint8_t gene, unsigned most)
{
    return gene < 192 ? most : gene % (most + 1);
}

/* UUIDs that differ in the last byte, or in the first. */
static const uint8_t *uuid(uint8_t gene)
{
    static uint8_t bytes[4][TILLERCLOVER_UUID_LENGTH];
    static unsigned turn;
    uint8_t *one = bytes[turn++ % 4];
    memset(one, 0x11, TILLERCLOVER_UUID_LENGTH);
    one[gene & 1 ? 0 : TILLERCLOVER_UUID_LENGTH - 1] = (uint8_t)(1 + gene / 2 % 64);
    return one;
}

/* Numbers one after the other, or with one low byte, or with one high byte. */
static unsigned number(unsigned place, unsigned way)
{
    switch (way % 4) {
    case 0:
        return place + 1;
    case 1:
        return (place + 1) * 256 + 1;
    case 2:
        return 65535 - place;
    default:
        return (place + 1) * 257;
    }
}

static unsigned cred_number(unsigned place)
{
    return number(place, genes[G_NUMBERS]);
}

static unsigned ace_number(unsigned place)
{
    return number(place, genes[G_NUMBERS] / 4u);
}

static void build_cred(unsigned place)
{
    const uint8_t *gene = genes + HEAD + place * OF_CRED;
    uint8_t *row = built.tables.creds + place * TILLERCLOVER_CRED_ROW_LENGTH;
    unsigned type = gene[0] / 8 % 8;
    tillerclover_cred cred = {cred_number(place), uuid(gene[1]), gene[0] % 4u, gene[0] % 4 ? gene[0] / 4 % 2u : 0u,
                              type ? 1u << (type - 1) % 6 : 0u};
    tillerclover_pack_cred(row, &cred);
    for (unsigned i = 0; i < gene[0] / 64u % 3; i++) {
        tillerclover_role role = {1 + i + gene[1] % 3u, i, gene[1] < 128 ? UINT32_MAX : 500};
        tillerclover_pack_role(row + TILLERCLOVER_CRED_ROLES_AT + i * TILLERCLOVER_ROLE_LENGTH, &role);
    }
}

static tillerclover_ace ace_of(unsigned place)
{
    const uint8_t *gene = genes + HEAD + CREDS * OF_CRED + place * OF_ACE;
    tillerclover_ace row;
    memset(&row, 0, sizeof row);
    row.number = ace_number(place);
    row.kind = (enum tillerclover_subject)(gene[0] % 3);
    row.uuid = uuid(gene[1]);
    row.role = gene[1] & 1 ? 60000u + gene[1] : 1 + gene[1] / 2 % 4u;
    row.authority = gene[1] & 1 ? 60000u + gene[1] : gene[1] / 8 % 3u;
    row.connection = gene[1] & 1 ? TILLERCLOVER_AUTH_CRYPT : TILLERCLOVER_ANON_CLEAR;
    row.permission = gene[2] % 32u;
    row.wildcards = gene[2] / 32u;
    row.set = 0;
    for (unsigned i = 0; i < sizeof RESOURCES; i++) {
        if (gene[3] == 255 || (i < 8 ? gene[3] >> i & 1 : gene[0] / 4 >> (i - 8) & 1)) {
            row.set |= TILLERCLOVER_SET_BIT(RESOURCES[i]);
        }
    }
    row.first = gene[0] >= 252 ? 400 : 0;
    row.last = gene[0] >= 252 ? 600 : UINT32_MAX;
    return row;
}

/* A sender: nobody, or a credential row's partner. */
static unsigned sender_by(uint8_t gene)
{
    unsigned partners = built.tables.ncreds;
    return gene < 16 || partners == 0 ? 0 : cred_number(gene < 144 ? partners - 1 : gene % partners);
}

static tillerclover_record record_by(unsigned sender)
{
    enum tillerclover_resource resource = (enum tillerclover_resource)RESOURCES[genes[G_RESOURCE] % sizeof RESOURCES];
    enum tillerclover_verb verb = (enum tillerclover_verb)(genes[G_VERB] % 5);
    unsigned place = genes[G_NUMBER] % 33u, role_number = genes[G_NUMBER] % 8u;
    tillerclover_cred cred = {cred_number(place % 25), uuid(genes[G_LENGTH]), genes[G_NUMBER] / 64u, 0, 1};
    tillerclover_ace ace = ace_of(place % ACES);
    tillerclover_role role = {1 + role_number, genes[G_LENGTH] % 3u, UINT32_MAX};
    ace.number = ace_number(place);
    switch (genes[G_BODY] % 12) {
    case 0:
        return tillerclover_set_owner(sender, uuid(genes[G_LENGTH]));
    case 1:
        return tillerclover_set_row_owner((enum tillerclover_resource)(genes[G_RESOURCE] % 5), sender,
                                          uuid(genes[G_LENGTH]));
    case 2:
        return tillerclover_set_state(sender, (enum tillerclover_state)(genes[G_NUMBER] % 5));
    case 3:
        return tillerclover_store_cred(sender, &cred);
    case 4:
        return tillerclover_store_ace(sender, &ace);
    case 5:
        return tillerclover_assert_role(sender, &role);
    case 6:
        return tillerclover_delete_row(genes[G_RESOURCE] & 1 ? TILLERCLOVER_CRED : TILLERCLOVER_ACL2, sender,
                                       genes[G_RESOURCE] & 1 ? cred_number(place % CREDS) : ace_number(place % ACES));
    case 7:
        return tillerclover_delete_subject(sender, uuid(genes[G_LENGTH]));
    case 8:
    case 9: {
        tillerclover_record one = tillerclover_request_bare(verb, resource, sender);
        size_t length = genes[G_LENGTH] < 128 ? TILLERCLOVER_RECORD_MAX : 4u + genes[G_LENGTH];
        for (size_t i = one.length; i < length && i < TILLERCLOVER_RECORD_MAX; i++) {
            one.bytes[i] = 0x55;
        }
        one.length = length < TILLERCLOVER_RECORD_MAX ? length : TILLERCLOVER_RECORD_MAX;
        return one;
    }
    default:
        return tillerclover_request_bare(verb, resource, sender);
    }
}

/* Records that wait, one of each seat; the one of the last seat is the record of the call. */
static void build_waiting(void)
{
    uint8_t *bytes = built.waiting.bytes;
    unsigned seats = built.tables.ncreds + 1u, waiting = many(genes[G_WAITING], seats);
    bytes[TILLERCLOVER_WAITING_COUNT_AT] = (uint8_t)waiting;
    if (genes[G_ROUND] < 192) {
        bytes[TILLERCLOVER_WAITING_ROUND_AT] = 1;
        tillerclover_put_16(bytes + TILLERCLOVER_WAITING_ROUND_AT + 1,
                            genes[G_ROUND] < 64 ? genes[G_ROUND] * 256u : sender_by(genes[G_ROUND]));
    }
    for (unsigned i = 0; i < waiting; i++) {
        uint8_t *slot = bytes + TILLERCLOVER_WAITING_SLOTS_AT + i * TILLERCLOVER_SLOT_LENGTH;
        unsigned seat = genes[G_KEPT] & 1 ? i : seats - 1 - i;
        unsigned sender = seat == 0 ? 0 : cred_number(seat - 1);
        tillerclover_record kept = record_by(sender);
        if (genes[G_KEPT] & 2) {
            kept = tillerclover_request_bare(TILLERCLOVER_UPDATE, TILLERCLOVER_WEIGHT, sender);
            size_t length = 4u + genes[G_KEPT] / 4u * 4u;
            while (kept.length < length) {
                kept.bytes[kept.length++] = 0x55;
            }
        }
        tillerclover_put_16(slot + TILLERCLOVER_SLOT_SENDER_AT, sender);
        tillerclover_put_16(slot + TILLERCLOVER_SLOT_LENGTH_AT, (unsigned)kept.length);
        memcpy(slot + TILLERCLOVER_SLOT_RECORD_AT, kept.bytes, kept.length);
    }
}

static void build_lists(void)
{
    for (unsigned i = 0; i < ACES; i++) {
        tillerclover_ace row = ace_of(i);
        /* rows that a list may have: nobody gets write access to a security resource */
        row.permission &= genes[G_LIST] & 1 ? 31u : 2u;
        row.set &= genes[G_LIST] & 2 ? ~UINT64_C(0) : ~(UINT64_C(31) << 59);
        tillerclover_pack_ace(list + i * TILLERCLOVER_ACE_LENGTH, &row);
        const uint8_t *gene = genes + HEAD + CREDS * OF_CRED + i * OF_ACE;
        static const uint8_t ANYBODY[TILLERCLOVER_UUID_LENGTH] = {0};
        tillerclover_old_row older = {genes[G_LIST] & 4 ? ANYBODY : uuid(gene[1]), gene[2] % 32u, row.set};
        tillerclover_pack_old_row(old + i * TILLERCLOVER_OLD_ROW_LENGTH, &older);
    }
    old_rows = genes[G_LIST] & 4 ? ACES / 2 : ACES;
}

static void build(void)
{
    tillerclover_tables *t = &built.tables;
    memset(&built, 0, sizeof built);
    t->ncreds = (uint8_t)many(genes[G_NCREDS], CREDS);
    t->naces = (uint8_t)many(genes[G_NACES], ACES);
    t->state = (uint8_t)(1 + genes[G_STATE] % 4);
    t->owned = t->state != TILLERCLOVER_RFOTM || genes[G_OWNED] & 1;
    if (t->owned) {
        memcpy(t->devowner, uuid(genes[G_OWNER]), TILLERCLOVER_UUID_LENGTH);
    }
    for (unsigned i = 0; i < TILLERCLOVER_ROW_OWNERS; i++) {
        memcpy(t->rowners + i * TILLERCLOVER_UUID_LENGTH, uuid(genes[G_ROW_OWNERS + i]), TILLERCLOVER_UUID_LENGTH);
    }
    for (unsigned i = 0; i < t->ncreds; i++) {
        build_cred(i);
    }
    for (unsigned i = 0; i < t->naces; i++) {
        tillerclover_ace row = ace_of(i);
        tillerclover_pack_ace(t->aces + i * TILLERCLOVER_ACE_LENGTH, &row);
    }
    record = record_by(sender_by(genes[G_SENDER]));
    build_waiting();
    build_lists();
    clock_now = genes[G_CLOCK] < 128 ? 500 : genes[G_CLOCK] * 4u;
    capacity = genes[G_CAPACITY] < 224 ? sizeof buffer : TILLERCLOVER_TEXT_MAX - 1u - genes[G_CAPACITY];
    many_senders = 1 + genes[G_SENDERS] % (t->ncreds + 1u);
    for (unsigned i = 0; i < many_senders; i++) {
        unsigned sender = i < t->ncreds ? cred_number(i) : 0;
        tillerclover_put_16(senders + i * TILLERCLOVER_SENDER_LENGTH, sender);
    }
    /* a fault that is seen late */
    if (genes[G_SPOIL] == 255) {
        built.waiting.bytes[sizeof built.waiting.bytes - 1] ^= 1;
    }
    if (genes[G_SPOIL] == 254 && t->naces > 1) {
        memcpy(t->aces + (t->naces - 1u) * TILLERCLOVER_ACE_LENGTH, t->aces, 2);
    }
    if (!tillerclover_is_sound(&built) && genes[G_SPOIL] < 254) {
        printf("worst: the genes make no sound terminal\n");
        exit(2);
    }
}

/* ---- The functions */

static int answer;
static uint64_t said[TILLERCLOVER_SAID], taken_length;

static uint8_t *counts(void)
{
    return (uint8_t *)&x.tables;
}

static void is_sound(void)
{
    tillerclover_tables *t = &x.tables;
    answer = (int)tillerclover_is_sound_at(counts(), t->devowner, t->rowners, t->creds, t->aces, x.waiting.bytes);
}

static void judge(void)
{
    tillerclover_tables *t = &x.tables;
    tillerclover_judge_at(counts(), t->devowner, t->rowners, t->creds, t->aces, x.waiting.bytes, list, 0, list, 0,
                          clock_now, record.bytes, record.length, buffer, capacity, said);
    answer = (int)said[0];
}

static void hand_in(void)
{
    tillerclover_tables *t = &x.tables;
    tillerclover_hand_in_at(counts(), t->devowner, t->rowners, t->creds, t->aces, x.waiting.bytes, record.bytes,
                            record.length, said);
    answer = (int)said[0];
}

static void take(void)
{
    tillerclover_tables *t = &x.tables;
    tillerclover_take_at(counts(), t->devowner, t->rowners, t->creds, t->aces, x.waiting.bytes, list, 0, list, 0,
                         clock_now, buffer, capacity, said, &taken_length, record.bytes);
    answer = (int)said[0];
}

static void text(void)
{
    tillerclover_tables *t = &x.tables;
    tillerclover_access_list_at(counts(), t->devowner, t->rowners, t->creds, t->aces, x.waiting.bytes, buffer, capacity,
                                said);
    answer = (int)said[0];
}

static void test(void)
{
    tillerclover_test_list_at(list, sizeof list, said);
    answer = (int)said[0];
}

static void convert(void)
{
    tillerclover_convert_list_at(old, old_rows * TILLERCLOVER_OLD_ROW_LENGTH, buffer, sizeof buffer, said);
    answer = (int)said[0];
}

static void isolated(void)
{
    answer = (int)tillerclover_isolated(&x, senders, many_senders * TILLERCLOVER_SENDER_LENGTH).reason;
}

static void clear(void)
{
    tillerclover_tables *t = &x.tables;
    tillerclover_clear_at(counts(), t->devowner, t->rowners, t->creds, t->aces, x.waiting.bytes, list,
                          TILLERCLOVER_DEFAULTS_MAX * TILLERCLOVER_CRED_LENGTH, list,
                          TILLERCLOVER_DEFAULTS_MAX * TILLERCLOVER_ACE_LENGTH);
    answer = 0;
}

static const struct {
    const char *name;
    void (*call)(void);
} FUNCTIONS[] = {
    {"is_sound", is_sound}, {"judge", judge},          {"hand_in", hand_in},   {"take", take},   {"access_list", text},
    {"test_list", test},    {"convert_list", convert}, {"isolated", isolated}, {"clear", clear},
};

enum {
    KINDS = sizeof FUNCTIONS / sizeof *FUNCTIONS
};

/* The instructions of a call on what the genes say. */
static unsigned long measured(unsigned function)
{
    build();
    x = built;
    return (unsigned long)counted(FUNCTIONS[function].call);
}

/* ---- The search */

static uint64_t seed = 1;

static unsigned any(unsigned below)
{
    seed ^= seed << 13;
    seed ^= seed >> 7;
    seed ^= seed << 17;
    return (unsigned)(seed >> 32) % below;
}

/* All rows of a table like one of them, or with one gene of it. */
static void alike(unsigned first, unsigned width, unsigned rows)
{
    unsigned one = any(rows), gene = any(width + 1);
    for (unsigned row = 0; row < rows; row++) {
        for (unsigned i = 0; i < width; i++) {
            if (gene == i || gene == width) {
                genes[first + row * width + i] = genes[first + one * width + i];
            }
        }
    }
}

static void mutate(void)
{
    switch (any(6)) {
    case 0:
        alike(HEAD, OF_CRED, CREDS);
        break;
    case 1:
        alike(HEAD + CREDS * OF_CRED, OF_ACE, ACES);
        break;
    case 2:
        genes[HEAD + any(GENES - HEAD)] = (uint8_t)any(256);
        break;
    default:
        genes[any(any(2) ? HEAD : GENES)] = (uint8_t)any(256);
        if (any(3) == 0) {
            genes[any(HEAD)] = (uint8_t)any(256);
        }
    }
}

typedef struct found {
    unsigned long most;
    int answer;
    uint8_t genes[GENES];
} found;

static found worst[KINDS];

static void keep(unsigned function)
{
    unsigned long now = measured(function);
    if (now >= worst[function].most) {
        worst[function].most = now;
        worst[function].answer = answer;
        memcpy(worst[function].genes, genes, sizeof genes);
    }
}

static void print(unsigned function)
{
    printf("%s ", FUNCTIONS[function].name);
    for (unsigned i = 0; i < GENES; i++) {
        printf("%02x", worst[function].genes[i]);
    }
    printf("\n# %s: %lu instructions, answer %d\n", FUNCTIONS[function].name, worst[function].most,
           worst[function].answer);
    fflush(stdout);
}

/* Climbs from the worst so far, and now and then from genes at random. */
static void search(unsigned function, unsigned long rounds)
{
    for (unsigned long i = 0; i < rounds; i++) {
        if (worst[function].most == 0 || i % 64 == 63) {
            for (unsigned j = 0; j < GENES; j++) {
                genes[j] = (uint8_t)any(j == G_SPOIL ? 254 : 256);
            }
        } else {
            memcpy(genes, worst[function].genes, sizeof genes);
            for (unsigned changes = 1 + any(3); changes > 0; changes--) {
                mutate();
            }
        }
        keep(function);
    }
    print(function);
}

/* ---- The cases of a file */

static void read_cases(const char *path, int say)
{
    FILE *file = fopen(path, "r");
    static char line[64 + 2 * GENES];
    while (file && fgets(line, sizeof line, file)) {
        char *hex = strchr(line, ' ');
        for (unsigned function = 0; hex && function < KINDS; function++) {
            size_t length = (size_t)(hex - line);
            if (strlen(FUNCTIONS[function].name) == length && memcmp(line, FUNCTIONS[function].name, length) == 0) {
                for (unsigned i = 0; i < GENES; i++) {
                    char two[3] = {hex[1 + 2 * i], hex[2 + 2 * i], 0};
                    genes[i] = (uint8_t)strtoul(two, NULL, 16);
                }
                keep(function);
                if (say) {
                    printf("%-12s %8lu instructions, answer %d\n", FUNCTIONS[function].name, measured(function),
                           answer);
                }
            }
        }
    }
    if (file) {
        fclose(file);
    }
}

#ifndef CASES
int main(int argc, char **argv)
{
    const char *path = argc > 1 ? argv[1] : "bench/worst.txt";
    unsigned long rounds = argc > 2 ? strtoul(argv[2], NULL, 10) : 0;
    seed = argc > 3 ? strtoul(argv[3], NULL, 10) : 1;
#else
int main(void)
{
    const char *path = CASES;
    unsigned long rounds = ROUNDS;
    seed = SEED;
#endif
    start_counter();
    read_cases(path, rounds == 0);
    for (unsigned function = 0; rounds > 0 && function < KINDS; function++) {
        search(function, rounds);
    }
    return 0;
}
