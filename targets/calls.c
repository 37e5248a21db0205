/* Calls of the library that give the same on every processor: the vectors that the second model wrote, which say what each
 * call gives, and calls at random, whose results make one digest. Prints a line for each, and exits with 1 at a difference.
 *
 *     calls VECTORS CALLS       or compiled with -DVECTORS and -DCALLS, for a processor without a command line
 */
#include <stdio.h>
#include <stdlib.h>

#include "random.h"

static void stop(const char *what, unsigned long at)
{
    printf("calls: %s, at %lu\n", what, at);
    exit(1);
}

/* ---- The vectors: entries after a tag byte, as model/src/vectors.rs says */

static uint8_t bytes[1 << 19];
static size_t length, at;

static const uint8_t *take_bytes(size_t many)
{
    if (many > length - at) {
        stop("the vectors are cut", (unsigned long)at);
    }
    at += many;
    return bytes + at - many;
}

static uint64_t number(size_t many)
{
    uint64_t value = 0;
    const uint8_t *from = take_bytes(many);
    for (size_t i = 0; i < many; i++) {
        value = value << 8 | from[i];
    }
    return value;
}

/* A part without the zeros at its end, after its length. */
static void part(uint8_t *to, size_t most)
{
    size_t many = (size_t)number(2);
    if (many > most) {
        stop("a part is too long", (unsigned long)at);
    }
    memset(to, 0, most);
    memcpy(to, take_bytes(many), many);
}

static void read_tables(tillerclover_tables *t)
{
    const size_t head = offsetof(tillerclover_tables, creds);
    memcpy(t, take_bytes(head), head);
    part(t->creds, sizeof t->creds);
    part(t->aces, sizeof t->aces);
}

static void expect(int holds, const char *what)
{
    if (!holds) {
        stop(what, (unsigned long)at);
    }
}

/* The outcome and the reply that follow are those that were given. */
static void expect_outcome(const tillerclover_outcome *o)
{
    expect(o->answer == number(1), "another answer");
    expect(o->permission == number(1), "another permission");
    expect(o->payload_offset == number(2) && o->payload_length == number(2), "another payload");
    size_t long_reply = (size_t)number(2);
    expect(o->reply_length == long_reply, "a reply of another length");
    expect(o->store_first == number(1) && o->store_count == number(1), "other places to store");
    expect(o->link_set == number(8) && o->link_count == number(1), "other links");
    expect(memcmp(reply, take_bytes(long_reply), long_reply) == 0, "another reply");
}

static void judged(void)
{
    uint32_t clock = (uint32_t)number(4);
    size_t many = (size_t)number(2);
    const uint8_t *record = take_bytes(many);
    size_t capacity = (size_t)number(2);
    tillerclover_outcome o = tillerclover_judge(&x, &defaults, clock, record, many, reply, capacity);
    expect_outcome(&o);
}

static void taken(void)
{
    uint32_t clock = (uint32_t)number(4);
    tillerclover_taken t = tillerclover_take(&x, &defaults, clock, reply, (size_t)number(2));
    expect_outcome(&t.outcome);
    size_t many = (size_t)number(2);
    expect(t.record_length == many && memcmp(t.record, take_bytes(many), many) == 0, "another record is taken");
}

static void handed_in(void)
{
    size_t many = (size_t)number(2);
    const uint8_t *record = take_bytes(many);
    expect(tillerclover_hand_in(&x, record, many).answer == number(1), "another answer to a hand-in");
}

static void tested(void)
{
    size_t many = (size_t)number(2);
    tillerclover_tested t = tillerclover_test_list(take_bytes(many), many);
    expect(t.answer == number(1) && t.row == number(1), "a list is tested otherwise");
}

static void converted(void)
{
    size_t many = (size_t)number(2);
    const uint8_t *file = take_bytes(many);
    tillerclover_converted c = tillerclover_convert_list(file, many, reply, (size_t)number(2));
    expect(c.answer == number(1), "a list is converted with another answer");
    many = (size_t)number(2);
    expect(c.length == many && memcmp(reply, take_bytes(many), many) == 0, "a list is converted otherwise");
}

static void entry(unsigned tag)
{
    static tillerclover_terminal other;
    switch (tag) {
    case 0:
        read_tables(&x.tables);
        break;
    case 1:
        judged();
        break;
    case 2:
        read_tables(&other.tables);
        expect(memcmp(&x.tables, &other.tables, sizeof x.tables) == 0, "other tables");
        break;
    case 3:
        defaults.creds_length = (size_t)number(1);
        defaults.creds = take_bytes(defaults.creds_length);
        defaults.aces_length = (size_t)number(1);
        defaults.aces = take_bytes(defaults.aces_length);
        break;
    case 4:
        tested();
        break;
    case 5:
        converted();
        break;
    case 6:
        part(x.waiting.bytes, sizeof x.waiting);
        break;
    case 7:
        part(other.waiting.bytes, sizeof other.waiting);
        expect(memcmp(&x.waiting, &other.waiting, sizeof x.waiting) == 0, "other records wait");
        break;
    case 8:
        handed_in();
        break;
    case 9:
        taken();
        break;
    default:
        stop("an unknown entry", (unsigned long)at);
    }
}

static void vectors(const char *path)
{
    unsigned long entries = 0;
    FILE *file = fopen(path, "rb");
    length = file == NULL ? 0 : fread(bytes, 1, sizeof bytes, file);
    if (length == 0 || length == sizeof bytes || ferror(file)) {
        stop("the vectors cannot be read", (unsigned long)length);
    }
    fclose(file);
    for (at = 0; at < length; entries++) {
        entry((unsigned)number(1));
    }
    printf("vectors: %lu entries as the model has them\n", entries);
}

/* The calls of random.h: every answer was given, and their digest is one for all targets. */
static void at_random(unsigned long calls)
{
    unsigned missing = random_calls(calls);
    if (missing != ALL_ANSWERS) {
        stop("an answer was never given", missing);
    }
    printf("random: %lu calls, all answers, digest %08lx%08lx\n", calls, (unsigned long)(digest >> 32),
           (unsigned long)(digest & UINT32_MAX));
}

#ifdef VECTORS
int main(void)
{
    vectors(VECTORS);
    at_random(CALLS);
    return 0;
}
#else
int main(int many, char **words)
{
    if (many != 3) {
        fprintf(stderr, "usage: calls VECTORS CALLS\n");
        return 2;
    }
    vectors(words[1]);
    at_random(strtoul(words[2], NULL, 10));
    return 0;
}
#endif
