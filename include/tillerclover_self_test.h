/* Tillerclover: a self test with known answers, for C11 and for C++11 and later.
 *
 * A program makes it when it starts, or an assessor does: 70 calls from a new terminal on, with every function of tillerclover.h
 * and of tillerclover_yards.h. What each gives is known from the second model, which has the rules from the papers and not from
 * the library (model/src/known.rs). A step compares the answer, and with one number all else: the words, the reply, the record
 * that is taken, and every byte of the terminal afterwards.
 *
 *     static tillerclover_terminal scratch;
 *     static uint8_t buffer[TILLERCLOVER_SELF_TEST_BUFFER];
 *     unsigned failed = tillerclover_self_test(&scratch, buffer);
 *     if (failed != 0)
 *         stop("the library does not answer as it was proved to, from step", failed);
 *
 * It notices a damaged archive, one that was compiled for another processor, and memory that does not keep its bytes. It is no
 * proof: it tries 70 calls. It has 1.5 KB of constants, and keeps nothing. The terminal that it is given is a new one
 * afterwards, and what it held is lost; so give it none that is in use.
 */
#ifndef TILLERCLOVER_SELF_TEST_H
#define TILLERCLOVER_SELF_TEST_H

#include "tillerclover.h"
#include "tillerclover_known.h"
#include "tillerclover_yards.h"

#ifdef __cplusplus
extern "C" {
#endif

enum {
    /* the bytes of the buffer that the test is given */
    TILLERCLOVER_SELF_TEST_BUFFER = TILLERCLOVER_REPLY_MAX,
    /* what a step begins with: the call, its answer, the digest, the clock, and how many bytes follow */
    TILLERCLOVER_KNOWN_HEAD = 11,
    /* the buffer of a reply that is too short */
    TILLERCLOVER_KNOWN_SHORT = 8
};

/* The calls, by the number that a step has. */
enum tillerclover_known_call {
    TILLERCLOVER_KNOWN_JUDGE = 0,
    TILLERCLOVER_KNOWN_HAND_IN = 1,
    TILLERCLOVER_KNOWN_TAKE = 2,
    TILLERCLOVER_KNOWN_JUDGE_SHORT = 3,
    TILLERCLOVER_KNOWN_ACCESS_LIST = 4,
    TILLERCLOVER_KNOWN_TEST_LIST = 5,
    TILLERCLOVER_KNOWN_CONVERT_LIST = 6,
    TILLERCLOVER_KNOWN_ISOLATED = 7,
    TILLERCLOVER_KNOWN_CLEAR = 8,
    TILLERCLOVER_KNOWN_SPOIL = 9,
    TILLERCLOVER_KNOWN_IS_SOUND = 10
};

/* ---- The digest: FNV-1a of 32 bits */

/* The digest over these bytes too, and over a number as eight bytes, the most significant first. */
static inline uint32_t tillerclover_known_bytes(uint32_t digest, const uint8_t *bytes, size_t length)
{
    for (size_t i = 0; i < length; i++) {
        digest = (digest ^ bytes[i]) * UINT32_C(16777619);
    }
    return digest;
}

static inline uint32_t tillerclover_known_number(uint32_t digest, uint64_t number)
{
    for (unsigned i = 0; i < 8; i++) {
        digest = (digest ^ (uint8_t)(number >> (56 - 8 * i))) * UINT32_C(16777619);
    }
    return digest;
}

/* The words after the answer, the reply, and the record that was taken. */
static inline uint32_t tillerclover_known_outcome(uint32_t digest, const tillerclover_outcome *outcome,
                                                  const uint8_t *reply, size_t record_length, const uint8_t *record)
{
    digest = tillerclover_known_number(digest, outcome->permission);
    digest = tillerclover_known_number(digest, outcome->payload_offset);
    digest = tillerclover_known_number(digest, outcome->payload_length);
    digest = tillerclover_known_number(digest, outcome->reply_length);
    digest = tillerclover_known_number(digest, (uint64_t)outcome->store_table);
    digest = tillerclover_known_number(digest, outcome->store_first);
    digest = tillerclover_known_number(digest, outcome->store_count);
    digest = tillerclover_known_number(digest, outcome->link_set);
    digest = tillerclover_known_number(digest, outcome->link_count);
    if (outcome->reply_length <= TILLERCLOVER_SELF_TEST_BUFFER) {
        digest = tillerclover_known_bytes(digest, reply, outcome->reply_length);
    }
    digest = tillerclover_known_number(digest, record_length);
    if (record_length <= TILLERCLOVER_RECORD_MAX) {
        digest = tillerclover_known_bytes(digest, record, record_length);
    }
    return digest;
}

/* A text or rows in the buffer. */
static inline uint32_t tillerclover_known_text(uint32_t digest, const uint8_t *buffer, size_t length)
{
    digest = tillerclover_known_number(digest, length);
    return length <= TILLERCLOVER_SELF_TEST_BUFFER ? tillerclover_known_bytes(digest, buffer, length) : digest;
}

/* ---- The steps */

/* A record, judged directly, handed in or taken: its answer; what else it gives goes into the digest. */
static inline unsigned tillerclover_known_record(tillerclover_terminal *terminal, uint8_t *buffer, unsigned call,
                                                 uint32_t clock, const uint8_t *bytes, size_t length, uint32_t *digest)
{
    tillerclover_taken taken;
    taken.record_length = 0;
    if (call == TILLERCLOVER_KNOWN_TAKE) {
        taken = tillerclover_take(terminal, NULL, clock, buffer, TILLERCLOVER_SELF_TEST_BUFFER);
    } else if (call == TILLERCLOVER_KNOWN_HAND_IN) {
        taken.outcome = tillerclover_hand_in(terminal, bytes, length);
    } else {
        taken.outcome = tillerclover_judge(terminal, NULL, clock, bytes, length, buffer,
                                           call == TILLERCLOVER_KNOWN_JUDGE_SHORT ? TILLERCLOVER_KNOWN_SHORT
                                                                                  : TILLERCLOVER_SELF_TEST_BUFFER);
    }
    *digest = tillerclover_known_outcome(*digest, &taken.outcome, buffer, taken.record_length, taken.record);
    return (unsigned)taken.outcome.answer;
}

/* A list: its answer; what else it gives goes into the digest. */
static inline unsigned tillerclover_known_list(const tillerclover_terminal *terminal, uint8_t *buffer, unsigned call,
                                               const uint8_t *bytes, size_t length, uint32_t *digest)
{
    if (call == TILLERCLOVER_KNOWN_TEST_LIST) {
        tillerclover_tested tested = tillerclover_test_list(bytes, length);
        *digest = tillerclover_known_number(*digest, tested.row);
        return (unsigned)tested.answer;
    }
    if (call == TILLERCLOVER_KNOWN_ISOLATED) {
        tillerclover_isolation isolation = tillerclover_isolated(terminal, bytes, length);
        *digest = tillerclover_known_number(*digest, isolation.entry);
        *digest = tillerclover_known_number(*digest, isolation.row);
        return isolation.reason;
    }
    if (call == TILLERCLOVER_KNOWN_CONVERT_LIST) {
        tillerclover_converted converted =
            tillerclover_convert_list(bytes, length, buffer, TILLERCLOVER_SELF_TEST_BUFFER);
        *digest = tillerclover_known_text(*digest, buffer, converted.length);
        return (unsigned)converted.answer;
    }
    tillerclover_listed listed = tillerclover_access_list(terminal, buffer, TILLERCLOVER_SELF_TEST_BUFFER);
    *digest = tillerclover_known_text(*digest, buffer, listed.length);
    return (unsigned)listed.answer;
}

/* Any other call, which gives an answer alone. */
static inline unsigned tillerclover_known_other(tillerclover_terminal *terminal, unsigned call, const uint8_t *bytes)
{
    switch (call) {
    case TILLERCLOVER_KNOWN_CLEAR:
        tillerclover_clear(terminal, NULL);
        return 0;
    case TILLERCLOVER_KNOWN_SPOIL:
        terminal->tables.state ^= bytes[0];
        return 0;
    default:
        return tillerclover_is_sound(terminal);
    }
}

/* Whether a step gives what is known. */
static inline bool tillerclover_known_step(tillerclover_terminal *terminal, uint8_t *buffer, const uint8_t *step)
{
    unsigned call = step[0], answer;
    uint32_t known = (uint32_t)step[2] << 24 | (uint32_t)step[3] << 16 | (uint32_t)step[4] << 8 | step[5];
    uint32_t clock = (uint32_t)step[6] << 24 | (uint32_t)step[7] << 16 | (uint32_t)step[8] << 8 | step[9];
    uint32_t digest = UINT32_C(2166136261);
    const uint8_t *bytes = step + TILLERCLOVER_KNOWN_HEAD;
    if (call <= TILLERCLOVER_KNOWN_JUDGE_SHORT) {
        answer = tillerclover_known_record(terminal, buffer, call, clock, bytes, step[10], &digest);
    } else if (call <= TILLERCLOVER_KNOWN_ISOLATED) {
        answer = tillerclover_known_list(terminal, buffer, call, bytes, step[10], &digest);
    } else {
        answer = tillerclover_known_other(terminal, call, bytes);
    }
    digest = tillerclover_known_bytes(digest, (const uint8_t *)terminal, sizeof *terminal);
    return answer == step[1] && digest == known;
}

/* Makes the test, in a terminal and in a buffer of TILLERCLOVER_SELF_TEST_BUFFER bytes that nobody else uses. Gives 0 if every
 * step gives what is known, or the number of the first that does not, from 1 on; tillerclover_known.h says what it asks. A header
 * that does not belong to the archive gives TILLERCLOVER_KNOWN_STEPS + 1, before any step. */
static inline unsigned tillerclover_self_test(tillerclover_terminal *terminal, uint8_t *buffer)
{
    size_t at = 0;
    if (!tillerclover_identified()) {
        return TILLERCLOVER_KNOWN_STEPS + 1;
    }
    tillerclover_fresh(terminal, NULL);
    for (unsigned step = 1; step <= TILLERCLOVER_KNOWN_STEPS; step++) {
        if (!tillerclover_known_step(terminal, buffer, tillerclover_known + at)) {
            return step;
        }
        at += TILLERCLOVER_KNOWN_HEAD + (size_t)tillerclover_known[at + 10];
    }
    return 0;
}

#ifdef __cplusplus
}
#endif
#endif
