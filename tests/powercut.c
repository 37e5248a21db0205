/* Days of a terminal whose power is cut again and again: what it answers, and what it finds when the power comes on, against a
 * second terminal that is never cut. With the tables as the image, and with tables and waiting records as one. Then tables that
 * are stored in place, for comparison. Prints a line of figures for each, and ends at the first fault. */
#include <stdio.h>
#include <string.h>

#include "chance.h"
#include "tillerclover_records.h"
#include "tillerclover_store.h"

enum {
    TABLES = sizeof(tillerclover_tables),
    WHOLE = sizeof(tillerclover_terminal),
    INPUTS = 12000
};

/* ---- The device and the program's loop */

static uint8_t device[TILLERCLOVER_STORE_LENGTH(WHOLE)];
static uint64_t image_size, store_size;
static unsigned long writes, cuts;

static const uint8_t *current(void)
{
    uint64_t at;
    expect(tillerclover_store_current(device, store_size, image_size, &at) == TILLERCLOVER_STORE_DONE,
           "the store is one");
    return device + at;
}

/* Stores the image. Where `cut` is not 0, the power is cut at that write: anything is left in the part that it lies in. */
static int stored(const uint8_t *image, unsigned cut)
{
    uint64_t from = 0, place;
    uint8_t byte;
    while (tillerclover_store_next(device, store_size, image, image_size, from, &place, &byte) ==
           TILLERCLOVER_STORE_WRITE) {
        if (cut && --cut == 0) {
            uint64_t start = place < image_size ? 0 : place < 2 * image_size ? image_size : 2 * image_size;
            uint64_t end = start == 2 * image_size ? store_size : start + image_size;
            if (any(2))
                start = place, end = place + 1;
            for (uint64_t i = start; i < end; i++)
                device[i] = (uint8_t)any(256);
            return 0;
        }
        device[place] = byte;
        from = place + 1;
        writes++;
    }
    /* after the last write, before the answer */
    return !(cut && any(4) == 0);
}

/* ---- The inputs of a day */

static tillerclover_record any_record(void)
{
    uint8_t uuid[TILLERCLOVER_UUID_LENGTH];
    unsigned sender = any(4) ? 0 : 1 + any(5);
    memset(uuid, (int)(1 + any(5)), sizeof uuid);
    switch (any(8)) {
    case 0:
        return tillerclover_set_owner(sender, uuid);
    case 1:
        return tillerclover_set_state(sender, (enum tillerclover_state)any(6));
    case 2:
        return tillerclover_delete_row(any(2) ? TILLERCLOVER_CRED : TILLERCLOVER_ACL2, sender, 1 + any(6));
    case 3:
        return tillerclover_store_ace(sender, &(tillerclover_ace){.number = 1 + any(6),
                                                                  .kind = TILLERCLOVER_SUBJECT_UUID,
                                                                  .uuid = uuid,
                                                                  .permission = any(32),
                                                                  .set = TILLERCLOVER_SET_BIT(TILLERCLOVER_TARE),
                                                                  .last = UINT32_MAX});
    case 4:
        return tillerclover_request_text(TILLERCLOVER_UPDATE, TILLERCLOVER_TARE, sender, "00412");
    default:
        return tillerclover_store_cred(sender, &(tillerclover_cred){.number = 1 + any(6), .subject = uuid, .type = 1});
    }
}

enum kind {
    HAND_IN,
    TAKE,
    JUDGE,
    CLEAR
};

struct input {
    enum kind kind;
    tillerclover_record record;
    uint32_t clock;
};

struct input any_input(void)
{
    unsigned k = any(40);
    return (struct input){k == 0 ? CLEAR : k < 14 ? HAND_IN : k < 30 ? TAKE : JUDGE, any_record(), any(1000)};
}

/* The terminal after an input, and its answer. */
static unsigned next(tillerclover_terminal *x, const struct input *i)
{
    uint8_t reply[TILLERCLOVER_REPLY_MAX];
    const tillerclover_record *r = &i->record;
    switch (i->kind) {
    case CLEAR:
        tillerclover_clear(x, NULL);
        return 0;
    case HAND_IN:
        return tillerclover_hand_in(x, r->bytes, r->length).answer;
    case TAKE:
        return tillerclover_take(x, NULL, i->clock, reply, sizeof reply).outcome.answer;
    default:
        return tillerclover_judge(x, NULL, i->clock, r->bytes, r->length, reply, sizeof reply).answer;
    }
}

/* ---- Days */

/* What a program has when the power comes on. */
static tillerclover_terminal found(void)
{
    tillerclover_terminal x;
    memset(&x, 0, sizeof x);
    memcpy(&x, current(), image_size);
    return x;
}

static int equal(const tillerclover_terminal *x, const tillerclover_terminal *y)
{
    return memcmp(x, y, sizeof *x) == 0;
}

/* What is left of a terminal after a restart: with only the tables nothing waits. */
static tillerclover_terminal restarted(const tillerclover_terminal *x)
{
    tillerclover_terminal left = *x;
    memset((uint8_t *)&left + image_size, 0, sizeof left - image_size);
    return left;
}

/* A day; `uncut` is a terminal with the inputs that count, whose power is never cut. */
static void day(const char *name, uint64_t size)
{
    struct input first = {.kind = CLEAR};
    unsigned long counted = 0, permitted = 0;
    image_size = size;
    store_size = TILLERCLOVER_STORE_LENGTH(size);
    writes = cuts = 0;
    for (uint64_t i = 0; i < store_size; i++)
        device[i] = (uint8_t)any(256); /* memory of any content */
    tillerclover_terminal x = found(), uncut;
    tillerclover_record tare = tillerclover_request_text(TILLERCLOVER_RETRIEVE, TILLERCLOVER_TARE, 0, "");
    expect(next(&x, &(struct input){JUDGE, tare, 0}) == TILLERCLOVER_NOT_SOUND, "new memory holds no tables");
    next(&x, &first); /* the first image */
    expect(stored((const uint8_t *)&x, 0), "the first image is stored");
    uncut = x;
    for (unsigned k = 0; k < INPUTS; k++) {
        struct input i = any_input();
        tillerclover_terminal after = uncut;
        unsigned told = next(&x, &i), answer = next(&after, &i);
        if (stored((const uint8_t *)&x, any(3) ? 0 : 1 + any(40))) {
            expect(told == answer && equal(&x, &after), "an answered input is answered as without cuts");
            uncut = after;
            permitted += answer == 0;
            continue;
        }
        cuts++;
        x = found();
        tillerclover_terminal with = restarted(&after), without = restarted(&uncut);
        expect(equal(&x, &with) || equal(&x, &without), "an input that was cut counts, or it is left out");
        counted += equal(&x, &with) && !equal(&x, &without);
        uncut = x;
    }
    printf("%s: %u inputs, %lu of them permitted, %lu cut, of which %lu counted; %lu bytes written\n", name, INPUTS,
           permitted, cuts, counted, writes);
}

/* ---- Stored in place */

/* 24 credential rows, each written byte by byte over the tables: after a cut these are often neither the old nor the new ones. */
static void in_place(void)
{
    static tillerclover_terminal x, y;
    unsigned long failures = 0, neither = 0, but_sound = 0;
    tillerclover_fresh(&x, NULL);
    for (unsigned row = 1; row <= TILLERCLOVER_CRED_CAPACITY; row++) {
        uint8_t uuid[TILLERCLOVER_UUID_LENGTH];
        memset(uuid, (int)(0x10 + row), sizeof uuid);
        struct input i = {
            JUDGE, tillerclover_store_cred(0, &(tillerclover_cred){.number = row, .subject = uuid, .type = 1}), 0};
        y = x;
        expect(next(&y, &i) == TILLERCLOVER_PERMITTED, "the row is stored");
        tillerclover_terminal torn = x;
        for (unsigned at = 0; at < TABLES; at++) {
            uint8_t *byte = (uint8_t *)&torn.tables + at, new = ((const uint8_t *)&y.tables)[at];
            if (*byte == new)
                continue;
            for (unsigned value = 0; value < 256; value++, failures++) {
                *byte = (uint8_t)value;
                if (equal(&torn, &x) || equal(&torn, &y))
                    continue;
                neither++;
                but_sound += tillerclover_is_sound(&torn);
            }
            *byte = new;
        }
        x = y;
    }
    expect(neither > failures / 2, "stored in place, most cuts leave neither");
    printf("in place: %lu cuts, %lu leave neither the old nor the new tables, and of these %lu are sound\n", failures,
           neither, but_sound);
}

int main(void)
{
    day("tables alone", TABLES);
    day("with what waits", WHOLE);
    in_place();
    return 0;
}
