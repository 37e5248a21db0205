/* The self test of include/tillerclover_self_test.h: the library passes it, and libraries that err in one function do not.
 *
 * The header's inline functions call the functions of this file instead of the archive's. Each passes its call on, and errs if
 * it is the one that is to err: in a word, in a byte of the terminal or of the buffer, or in what it says of the terminal.
 */
#define tillerclover_fresh_at wrong_fresh_at
#define tillerclover_clear_at wrong_clear_at
#define tillerclover_is_sound_at wrong_is_sound_at
#define tillerclover_judge_at wrong_judge_at
#define tillerclover_hand_in_at wrong_hand_in_at
#define tillerclover_take_at wrong_take_at
#define tillerclover_access_list_at wrong_access_list_at
#define tillerclover_test_list_at wrong_test_list_at
#define tillerclover_convert_list_at wrong_convert_list_at
#define tillerclover_isolated_at wrong_isolated_at
#define tillerclover_identity wrong_identity
#include "tillerclover_self_test.h"

#include <stdio.h>
#include <stdlib.h>
#include <string.h>

#define TABLES uint8_t *counts, uint8_t *devowner, uint8_t *rowners, uint8_t *creds, uint8_t *aces
#define READ_TABLES                                                                                                    \
    const uint8_t *counts, const uint8_t *devowner, const uint8_t *rowners, const uint8_t *creds, const uint8_t *aces
#define LISTS const uint8_t *dc, uint64_t dcl, const uint8_t *da, uint64_t dal
#define PARTS counts, devowner, rowners, creds, aces

void right_fresh_at(TABLES, uint8_t *queue, LISTS) __asm__("tillerclover_fresh_at");
void right_clear_at(TABLES, uint8_t *queue, LISTS) __asm__("tillerclover_clear_at");
uint64_t right_is_sound_at(READ_TABLES, const uint8_t *queue) __asm__("tillerclover_is_sound_at");
void right_judge_at(TABLES, uint8_t *queue, LISTS, uint32_t clock, const uint8_t *record, uint64_t length,
                    uint8_t *reply, uint64_t capacity, uint64_t *said) __asm__("tillerclover_judge_at");
void right_hand_in_at(READ_TABLES, uint8_t *queue, const uint8_t *record, uint64_t length,
                      uint64_t *said) __asm__("tillerclover_hand_in_at");
void right_take_at(TABLES, uint8_t *queue, LISTS, uint32_t clock, uint8_t *reply, uint64_t capacity, uint64_t *said,
                   uint64_t *length, uint8_t *bytes) __asm__("tillerclover_take_at");
void right_access_list_at(READ_TABLES, const uint8_t *queue, uint8_t *text, uint64_t capacity,
                          uint64_t *said) __asm__("tillerclover_access_list_at");
void right_test_list_at(const uint8_t *rows, uint64_t length, uint64_t *said) __asm__("tillerclover_test_list_at");
void right_convert_list_at(const uint8_t *file, uint64_t length, uint8_t *rows, uint64_t capacity,
                           uint64_t *said) __asm__("tillerclover_convert_list_at");
void right_isolated_at(READ_TABLES, const uint8_t *senders, uint64_t length,
                       uint64_t *said) __asm__("tillerclover_isolated_at");
uint64_t right_identity(void) __asm__("tillerclover_identity");

/* ---- Faults */

enum {
    FRESH,
    CLEAR,
    IS_SOUND,
    JUDGE,
    HAND_IN,
    TAKE,
    ACCESS_LIST,
    TEST_LIST,
    CONVERT_LIST,
    ISOLATED,
    IDENTITY,
    FUNCTIONS,
    NO_FUNCTION = FUNCTIONS
};

static unsigned faulty = NO_FUNCTION, word;
static tillerclover_terminal scratch, fresh;
static uint8_t buffer[TILLERCLOVER_SELF_TEST_BUFFER];

/* A word of what a function says is one more, or for the number after them the last byte of the queue. */
static void err(unsigned function, uint64_t *said, unsigned words, uint8_t *byte)
{
    if (function != faulty) {
        return;
    }
    if (word < words) {
        said[word]++;
    } else if (byte != NULL) {
        *byte ^= 1;
    }
}

void wrong_fresh_at(TABLES, uint8_t *queue, LISTS)
{
    right_fresh_at(PARTS, queue, dc, dcl, da, dal);
    err(FRESH, NULL, 0, queue + TILLERCLOVER_WAITING_LENGTH - 1);
}

void wrong_clear_at(TABLES, uint8_t *queue, LISTS)
{
    right_clear_at(PARTS, queue, dc, dcl, da, dal);
    err(CLEAR, NULL, 0, aces);
}

uint64_t wrong_is_sound_at(READ_TABLES, const uint8_t *queue)
{
    return right_is_sound_at(PARTS, queue) ^ (faulty == IS_SOUND);
}

void wrong_judge_at(TABLES, uint8_t *queue, LISTS, uint32_t clock, const uint8_t *record, uint64_t length,
                    uint8_t *reply, uint64_t capacity, uint64_t *said)
{
    right_judge_at(PARTS, queue, dc, dcl, da, dal, clock, record, length, reply, capacity, said);
    err(JUDGE, said, TILLERCLOVER_SAID, word == TILLERCLOVER_SAID ? reply : creds + 40);
}

void wrong_hand_in_at(READ_TABLES, uint8_t *queue, const uint8_t *record, uint64_t length, uint64_t *said)
{
    right_hand_in_at(PARTS, queue, record, length, said);
    err(HAND_IN, said, TILLERCLOVER_SAID, queue + 300);
}

void wrong_take_at(TABLES, uint8_t *queue, LISTS, uint32_t clock, uint8_t *reply, uint64_t capacity, uint64_t *said,
                   uint64_t *length, uint8_t *bytes)
{
    right_take_at(PARTS, queue, dc, dcl, da, dal, clock, reply, capacity, said, length, bytes);
    err(TAKE, said, TILLERCLOVER_SAID, word == TILLERCLOVER_SAID ? bytes : queue + 1);
}

void wrong_access_list_at(READ_TABLES, const uint8_t *queue, uint8_t *text, uint64_t capacity, uint64_t *said)
{
    right_access_list_at(PARTS, queue, text, capacity, said);
    err(ACCESS_LIST, said, 2, text + 5);
}

void wrong_test_list_at(const uint8_t *rows, uint64_t length, uint64_t *said)
{
    right_test_list_at(rows, length, said);
    err(TEST_LIST, said, 2, NULL);
}

void wrong_convert_list_at(const uint8_t *file, uint64_t length, uint8_t *rows, uint64_t capacity, uint64_t *said)
{
    right_convert_list_at(file, length, rows, capacity, said);
    err(CONVERT_LIST, said, 2, rows + 1);
}

void wrong_isolated_at(const uint8_t counts[4], const uint8_t devowner[16], const uint8_t rowners[64],
                       const uint8_t creds[936], const uint8_t aces[1152], const uint8_t *senders, uint64_t length,
                       uint64_t said[3])
{
    right_isolated_at(PARTS, senders, length, said);
    err(ISOLATED, said, 3, NULL);
}

uint64_t wrong_identity(void)
{
    return right_identity() + (faulty == IDENTITY);
}

/* ---- The test */

static void expect(int holds, const char *what)
{
    if (!holds) {
        printf("self_test: %s: function %u, word %u\n", what, faulty, word);
        exit(1);
    }
}

int main(void)
{
    static const unsigned faults[FUNCTIONS] = {
        1, 1, 1, TILLERCLOVER_SAID + 2, TILLERCLOVER_SAID + 1, TILLERCLOVER_SAID + 2, 3, 2, 3, 3, 1};
    unsigned noticed = 0;
    for (unsigned byte = 0; byte < 256; byte += 85) {
        for (size_t i = 0; i < sizeof scratch; i++) {
            ((uint8_t *)&scratch)[i] = (uint8_t)byte;
        }
        expect(tillerclover_self_test(&scratch, buffer) == 0, "the library fails its own test");
        tillerclover_fresh(&fresh, NULL);
        expect(memcmp(&scratch, &fresh, sizeof fresh) == 0, "the terminal is new afterwards");
    }
    for (faulty = 0; faulty < FUNCTIONS; faulty++) {
        for (word = 0; word < faults[faulty]; word++) {
            unsigned failed = tillerclover_self_test(&scratch, buffer);
            expect(failed != 0, "a wrong library passes");
            expect((faulty == IDENTITY) == (failed > TILLERCLOVER_KNOWN_STEPS), "another step is named");
            noticed++;
        }
    }
    printf("self_test: %u steps; %u wrong libraries, each noticed\n", (unsigned)TILLERCLOVER_KNOWN_STEPS, noticed);
    return 0;
}
