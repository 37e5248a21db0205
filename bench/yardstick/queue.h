/* The yardstick's queue: a count, the round (a byte, and the number taken last), then slots with the sender's number, a length,
 * a record and zeros. Check 1 of it, whose turn it is, and what goes with a credential row. */
#ifndef YARDSTICK_QUEUE_H
#define YARDSTICK_QUEUE_H

#include "tables.h"

/* A slot for each credential row, and one for unauthenticated senders. */
enum {
    QUEUE_CAPACITY = TILLERCLOVER_CRED_CAPACITY + 1
};

static inline uint8_t *slot_at(uint8_t *queue, size_t place)
{
    return queue + TILLERCLOVER_WAITING_SLOTS_AT + place * TILLERCLOVER_SLOT_LENGTH;
}

/* The record passes 2 to 7, and its credential number is the slot's. */
static inline bool slot_sound(const tillerclover_tables *t, const uint8_t *slot)
{
    uint64_t length = be16(slot + TILLERCLOVER_SLOT_LENGTH_AT);
    const uint8_t *record = slot + TILLERCLOVER_SLOT_RECORD_AT;
    request r;
    return check_form(t, record, length, &r) == TILLERCLOVER_PERMITTED &&
           be16(slot + TILLERCLOVER_SLOT_SENDER_AT) == r.sender &&
           all_zero(record + length, TILLERCLOVER_RECORD_MAX - length);
}

static inline bool queue_sound(const tillerclover_tables *t, const uint8_t *queue)
{
    size_t count = queue[TILLERCLOVER_WAITING_COUNT_AT];
    const uint8_t *round = queue + TILLERCLOVER_WAITING_ROUND_AT;
    const uint8_t *slots = queue + TILLERCLOVER_WAITING_SLOTS_AT;
    if (count > QUEUE_CAPACITY || round[0] > 1 || (round[0] == 0 && be16(round + 1) != 0))
        return false;
    const uint8_t *slot = slots, *end = slots + count * TILLERCLOVER_SLOT_LENGTH;
    seen senders = {{0}};
    for (; slot < end; slot += TILLERCLOVER_SLOT_LENGTH)
        if (!slot_sound(t, slot) || seen_before(&senders, slots, slot, TILLERCLOVER_SLOT_LENGTH))
            return false;
    return all_zero(end, (size_t)(queue + TILLERCLOVER_WAITING_LENGTH - end));
}

/* The slot of a sender, or null. */
static inline uint8_t *find_slot(uint8_t *queue, unsigned sender)
{
    uint8_t *slots = slot_at(queue, 0);
    const uint8_t *slot = find_row(slots, queue[TILLERCLOVER_WAITING_COUNT_AT], TILLERCLOVER_SLOT_LENGTH, sender);
    return slot ? slots + (slot - slots) : NULL;
}

/* Whether the number is that of a row, or of unauthenticated senders. */
static inline bool seat_known(const tillerclover_tables *t, unsigned number)
{
    return number == 0 || find_row(t->creds, t->ncreds, TILLERCLOVER_CRED_ROW_LENGTH, number);
}

/* The seat that the round goes on with: 0 for unauthenticated senders, otherwise the place of a row, counted from 1. */
static inline size_t next_seat(const tillerclover_tables *t, const uint8_t *queue)
{
    const uint8_t *round = queue + TILLERCLOVER_WAITING_ROUND_AT;
    unsigned last = be16(round + 1);
    if (round[0] == 0)
        return 0;
    if (last == 0)
        return 1;
    const uint8_t *row = find_row(t->creds, t->ncreds, TILLERCLOVER_CRED_ROW_LENGTH, last);
    return row ? (size_t)(row - t->creds) / TILLERCLOVER_CRED_ROW_LENGTH + 2 : 0;
}

/* The slot whose turn it is. One waits, and its sender has a seat. */
static inline uint8_t *turn(const tillerclover_tables *t, uint8_t *queue)
{
    size_t seats = (size_t)t->ncreds + 1, seat = next_seat(t, queue);
    for (;; seat++) {
        if (seat >= seats)
            seat = 0;
        unsigned sender = seat == 0 ? 0 : be16(t->creds + (seat - 1) * TILLERCLOVER_CRED_ROW_LENGTH);
        uint8_t *slot = find_slot(queue, sender);
        if (slot)
            return slot;
    }
}

/* A sound queue has zeros after its records, and in its unused slots. */
static inline void enqueue(uint8_t *queue, const uint8_t *record, size_t length)
{
    uint8_t *slot = slot_at(queue, queue[TILLERCLOVER_WAITING_COUNT_AT]);
    memcpy(slot + TILLERCLOVER_SLOT_SENDER_AT, record + TILLERCLOVER_SENDER_AT, 2);
    put16(slot + TILLERCLOVER_SLOT_LENGTH_AT, (unsigned)length);
    memcpy(slot + TILLERCLOVER_SLOT_RECORD_AT, record, length);
    queue[TILLERCLOVER_WAITING_COUNT_AT]++;
}

/* Closes up the slots after this one. */
static inline void drop_slot(uint8_t *queue, uint8_t *slot)
{
    uint8_t *last = slot_at(queue, --queue[TILLERCLOVER_WAITING_COUNT_AT]);
    memmove(slot, slot + TILLERCLOVER_SLOT_LENGTH, (size_t)(last - slot));
    memset(last, 0, TILLERCLOVER_SLOT_LENGTH);
}

/* After credential rows went, or `added` came: the records of those that went go, and a round that names no seat, or one that
 * was none before, starts over. */
static inline void drop_orphans(const tillerclover_tables *t, uint8_t *queue, unsigned added)
{
    uint8_t *round = queue + TILLERCLOVER_WAITING_ROUND_AT;
    for (size_t i = queue[TILLERCLOVER_WAITING_COUNT_AT]; i-- > 0;)
        if (!seat_known(t, be16(slot_at(queue, i))))
            drop_slot(queue, slot_at(queue, i));
    unsigned last = be16(round + 1);
    if (round[0] == 1 && (!seat_known(t, last) || (added != 0 && last == added)))
        memset(round, 0, 3);
}

#endif
