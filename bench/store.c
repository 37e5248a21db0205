/* What the store costs: bytes written for what happens to a terminal, and the time of a run by the length of the image.
 *
 *     cc -std=c11 -O2 -Iinclude bench/store.c target/staticlib/libterminal.a -o target/bench-store
 */
#define _POSIX_C_SOURCE 199309L
#include <stdio.h>
#include <stdlib.h>
#include <string.h>
#include <time.h>

#include "tillerclover_records.h"
#include "tillerclover_store.h"

enum {
    TABLES = sizeof(tillerclover_tables),
    WHOLE = sizeof(tillerclover_terminal),
    MOST = 32768
};

static uint8_t device[2][TILLERCLOVER_STORE_LENGTH(WHOLE)];
static tillerclover_terminal x;

static unsigned run(uint8_t *store, uint64_t n, const uint8_t *image)
{
    uint64_t from = 0, place;
    uint8_t byte;
    unsigned writes = 0;
    while (tillerclover_store_next(store, TILLERCLOVER_STORE_LENGTH(n), image, n, from, &place, &byte) ==
           TILLERCLOVER_STORE_WRITE) {
        store[place] = byte;
        from = place + 1;
        writes++;
    }
    return writes;
}

/* The bytes that the two ways of storing write now. */
static void stored(const char *what)
{
    unsigned tables = run(device[0], TABLES, (const uint8_t *)&x), whole = run(device[1], WHOLE, (const uint8_t *)&x);
    printf("| %s | %u | %u |\n", what, tables, whole);
}

static void silently(void)
{
    run(device[0], TABLES, (const uint8_t *)&x);
    run(device[1], WHOLE, (const uint8_t *)&x);
}

static void judge(tillerclover_record r)
{
    uint8_t reply[TILLERCLOVER_REPLY_MAX];
    tillerclover_outcome o = tillerclover_judge(&x, NULL, 0, r.bytes, r.length, reply, sizeof reply);
    if (o.answer != TILLERCLOVER_PERMITTED) {
        fprintf(stderr, "bench: %s\n", tillerclover_answer_text(o.answer));
        exit(1);
    }
}

static void uuid(uint8_t bytes[TILLERCLOVER_UUID_LENGTH], unsigned number)
{
    for (unsigned i = 0; i < TILLERCLOVER_UUID_LENGTH; i++)
        bytes[i] = (uint8_t)(number * 37 + i * 101 + 1);
}

static void cred(unsigned number)
{
    uint8_t subject[TILLERCLOVER_UUID_LENGTH];
    uuid(subject, number);
    judge(tillerclover_store_cred(0, &(tillerclover_cred){.number = number, .subject = subject, .type = 1}));
}

static void ace(unsigned number)
{
    uint8_t subject[TILLERCLOVER_UUID_LENGTH];
    uuid(subject, number);
    judge(tillerclover_store_ace(0, &(tillerclover_ace){.number = number,
                                                        .kind = TILLERCLOVER_SUBJECT_UUID,
                                                        .uuid = subject,
                                                        .permission = 4,
                                                        .set = TILLERCLOVER_SET_BIT(TILLERCLOVER_TARE),
                                                        .last = UINT32_MAX}));
}

/* A record of 64 bytes is handed in and taken; its bytes depend on `seed`. */
static void take_turn(unsigned seed, int print)
{
    uint8_t body[60], reply[TILLERCLOVER_REPLY_MAX];
    for (size_t i = 0; i < sizeof body; i++)
        body[i] = (uint8_t)(i + seed * 61);
    tillerclover_record r = tillerclover_request(TILLERCLOVER_UPDATE, TILLERCLOVER_TARE, 0, body, sizeof body);
    if (tillerclover_hand_in(&x, r.bytes, r.length).answer != TILLERCLOVER_KEPT)
        exit(1);
    print ? stored("a record of 64 bytes is handed in, after another one was taken") : silently();
    if (tillerclover_take(&x, NULL, 0, reply, sizeof reply).record_length != r.length)
        exit(1);
    print ? stored("it is taken, and changes no table") : silently();
    if (tillerclover_take(&x, NULL, 0, reply, sizeof reply).record_length != 0)
        exit(1);
    print ? stored("a poll while nothing waits") : silently();
}

static void costs(void)
{
    memset(device, 0xff, sizeof device);
    tillerclover_fresh(&x, NULL);
    printf("| what happens | tables alone | with what waits |\n|---|---|---|\n");
    stored("the first image, on memory of bytes 255");
    silently();
    cred(1);
    stored("the second image on it: a credential row is stored");
    for (unsigned i = 2; i < TILLERCLOVER_CRED_CAPACITY; i++) {
        cred(i);
        silently();
    }
    for (unsigned i = 1; i < TILLERCLOVER_ACE_CAPACITY; i++) {
        ace(i);
        silently();
    }
    ace(TILLERCLOVER_ACE_CAPACITY);
    stored("an access row is stored, the 32nd");
    cred(TILLERCLOVER_CRED_CAPACITY);
    stored("a credential row is stored, the 24th");
    judge(tillerclover_delete_row(TILLERCLOVER_CRED, 0, 1));
    stored("a DELETE in front: 24 credential rows");
    judge(tillerclover_delete_row(TILLERCLOVER_ACL2, 0, 1));
    stored("a DELETE in front: 32 access rows");
    judge(tillerclover_delete_row(TILLERCLOVER_ACL2, 0, TILLERCLOVER_ACE_CAPACITY));
    stored("a DELETE of the last access row, and the image before lacks the DELETE in front");
    take_turn(1, 0);
    take_turn(2, 1);
    tillerclover_clear(&x, NULL);
    stored("full tables are cleared");
    stored("the same image again");
}

static double now(void)
{
    struct timespec t;
    clock_gettime(CLOCK_PROCESS_CPUTIME_ID, &t);
    return (double)t.tv_sec * 1e6 + (double)t.tv_nsec / 1e3;
}

/* The least of many runs. */
static double least(uint8_t *store, uint8_t *image, uint64_t n, int kind)
{
    double best = 1e9;
    for (int turn = 1; turn < 60; turn++) {
        memset(store, 0, TILLERCLOVER_STORE_LENGTH(n));
        memset(image, 0, n);
        if (kind == 0)
            memset(image, turn, n);
        else if (kind == 1)
            image[n - 1] = (uint8_t)turn;
        double start = now();
        run(store, n, image);
        double took = now() - start;
        best = took < best ? took : best;
    }
    return best;
}

int main(void)
{
    static uint8_t store[TILLERCLOVER_STORE_LENGTH(MOST)], image[MOST];
    costs();
    printf("\n| bytes of the image | all differ | the last one differs | none differs |\n|---|---|---|---|\n");
    for (uint64_t n = TABLES; n <= MOST; n *= 2)
        printf("| %llu | %.1f us | %.1f us | %.1f us |\n", (unsigned long long)n, least(store, image, n, 0),
               least(store, image, n, 1), least(store, image, n, 2));
    return 0;
}
