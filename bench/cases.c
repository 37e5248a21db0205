/* Counts the instructions of the cases of docs/BENCHMARKS.md on a processor where their own program does not run.
 * `bench --inputs` writes them, a line each: case, tables, function, clock, then a record or a list, and the terminal, in hexadecimal
 * digits after a dot. Prints a line each: case, tables, instructions. bench/cortex-m4.sh runs it.
 */
#include "counter.h"

#include "tillerclover.h"

static tillerclover_terminal x;
static uint8_t bytes[TILLERCLOVER_ACE_CAPACITY * TILLERCLOVER_ACE_LENGTH], buffer[TILLERCLOVER_TEXT_MAX],
    taken[TILLERCLOVER_RECORD_MAX];
static uint64_t length, said[TILLERCLOVER_SAID], taken_length;
static uint32_t at;

static void judge(void)
{
    tillerclover_tables *t = &x.tables;
    tillerclover_judge_at((uint8_t *)t, t->devowner, t->rowners, t->creds, t->aces, x.waiting.bytes, bytes, 0, bytes, 0,
                          at, bytes, length, buffer, TILLERCLOVER_REPLY_MAX, said);
}

static void hand_in(void)
{
    tillerclover_tables *t = &x.tables;
    tillerclover_hand_in_at((uint8_t *)t, t->devowner, t->rowners, t->creds, t->aces, x.waiting.bytes, bytes, length,
                            said);
}

static void take(void)
{
    tillerclover_tables *t = &x.tables;
    tillerclover_take_at((uint8_t *)t, t->devowner, t->rowners, t->creds, t->aces, x.waiting.bytes, bytes, 0, bytes, 0,
                         at, buffer, TILLERCLOVER_REPLY_MAX, said, &taken_length, taken);
}

static void access_list(void)
{
    tillerclover_tables *t = &x.tables;
    tillerclover_access_list_at((uint8_t *)t, t->devowner, t->rowners, t->creds, t->aces, x.waiting.bytes, buffer,
                                sizeof buffer, said);
}

static void test_list(void)
{
    tillerclover_test_list_at(bytes, length, said);
}

static void convert_list(void)
{
    tillerclover_convert_list_at(bytes, length, buffer, TILLERCLOVER_CONVERTED_MAX, said);
}

static const struct {
    const char *name;
    void (*call)(void);
} FUNCTIONS[] = {
    {"judge", judge},         {"hand_in", hand_in},           {"take", take}, {"access_list", access_list},
    {"test_list", test_list}, {"convert_list", convert_list},
};

/* The bytes of hexadecimal digits after a dot, as many as there are. */
static uint64_t read_bytes(const char *digits, uint8_t *to, size_t capacity)
{
    size_t many = 0;
    for (digits++; digits[0] && digits[1] && many < capacity; digits += 2) {
        char two[3] = {digits[0], digits[1], 0};
        to[many++] = (uint8_t)strtoul(two, NULL, 16);
    }
    return many;
}

int main(void)
{
    /* a terminal, a record or a list, and the words before them */
    static char line[2 * (sizeof x + sizeof bytes) + 256];
    FILE *file = fopen(CASES, "r");
    start_counter();
    while (file && fgets(line, sizeof line, file)) {
        char *words[6] = {NULL};
        unsigned many = 0;
        for (char *word = strtok(line, " \n"); word && many < 6; word = strtok(NULL, " \n")) {
            words[many++] = word;
        }
        for (unsigned i = 0; many == 6 && i < sizeof FUNCTIONS / sizeof *FUNCTIONS; i++) {
            if (strcmp(words[2], FUNCTIONS[i].name) == 0) {
                at = (uint32_t)strtoul(words[3], NULL, 10);
                length = read_bytes(words[4], bytes, sizeof bytes);
                read_bytes(words[5], (uint8_t *)&x, sizeof x);
                printf("%s %s %lu\n", words[0], words[1], (unsigned long)counted(FUNCTIONS[i].call));
            }
        }
    }
    return file ? 0 : 2;
}
