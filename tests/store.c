/* A simulated EEPROM under the store: power cuts at every write with every value, lives of stores with cuts, garbled parts and
 * lost positions, wear by cell, and bad lengths. Prints a line of figures, and ends at the first fault. */
#include <stdio.h>
#include <string.h>

#include "chance.h"
#include "tillerclover.h"
#include "tillerclover_store.h"

enum {
    N = sizeof(tillerclover_tables),
    STORE = TILLERCLOVER_STORE_LENGTH(N),
    ROW = 36
};

static void fill(uint8_t *bytes, size_t length)
{
    for (size_t i = 0; i < length; i++)
        bytes[i] = (uint8_t)any(256);
}

/* ---- The device, as it is read */

struct device {
    uint64_t n;
    uint8_t bytes[STORE];
    unsigned wear[STORE];
};

static uint64_t length_of(const struct device *d)
{
    return TILLERCLOVER_STORE_LENGTH(d->n);
}

static const uint8_t *current(const struct device *d)
{
    uint64_t at = UINT64_MAX;
    expect(tillerclover_store_current(d->bytes, length_of(d), d->n, &at) == TILLERCLOVER_STORE_DONE,
           "the store is one");
    expect(at == 0 || at == d->n, "the current image is the first one or the second one");
    return d->bytes + at;
}

static int holds(const struct device *d, const uint8_t *image)
{
    return memcmp(current(d), image, d->n) == 0;
}

/* The part of the store that a place lies in. */
static void part(const struct device *d, uint64_t place, uint64_t *start, uint64_t *end)
{
    *start = place < d->n ? 0 : place < 2 * d->n ? d->n : 2 * d->n;
    *end = *start == 2 * d->n ? length_of(d) : *start + d->n;
}

static uint64_t next(const struct device *d, const uint8_t *image, uint64_t from, uint64_t *place, uint8_t *byte)
{
    return tillerclover_store_next(d->bytes, length_of(d), image, d->n, from, place, byte);
}

/* ---- One image, stored to the end */

/* How many bytes were written. At each write `before` sees the device and what is to be written. */
static unsigned put(struct device *d, const uint8_t *image,
                    void (*before)(const struct device *, const uint8_t *, uint64_t, uint8_t))
{
    uint64_t from = 0, place;
    uint8_t byte;
    unsigned writes = 0, differ = 0, same = holds(d, image) != 0;
    const uint8_t *spare = current(d) == d->bytes ? d->bytes + d->n : d->bytes;
    for (uint64_t i = 0; i < d->n; i++)
        differ += spare[i] != image[i];
    uint64_t answer;
    while ((answer = next(d, image, from, &place, &byte)) == TILLERCLOVER_STORE_WRITE) {
        expect(place < length_of(d) && place >= from, "writes rise, and lie in the store");
        expect(d->bytes[place] != byte, "a write changes its byte");
        expect(place < 2 * d->n || byte == (uint8_t)(d->bytes[place] + 1), "a mark is raised by 1");
        if (before)
            before(d, image, place, byte);
        d->bytes[place] = byte;
        d->wear[place]++;
        from = place + 1;
        expect(++writes <= d->n + 1, "a run has n + 1 writes at most");
    }
    expect(answer == TILLERCLOVER_STORE_DONE && holds(d, image), "a run ends with the new image");
    expect(writes == (same ? 0 : differ + 1), "each byte that differs is written, and one mark");
    return writes;
}

/* ---- The power is cut at every write, with every value of its byte */

static unsigned long cuts, again;
static uint8_t old[N];

static void cut_here(const struct device *d, const uint8_t *image, uint64_t place, uint8_t byte)
{
    static struct device left;
    (void)byte;
    left.n = d->n;
    memcpy(left.bytes, d->bytes, length_of(d));
    for (int value = 0; value < 256; value++, cuts++) {
        left.bytes[place] = (uint8_t)value;
        int was = holds(&left, old), is = !was && holds(&left, image);
        expect(was || is, "after a cut the current image is the old one or the new one");
        expect(was || place >= 2 * d->n, "before the mark it is the old one");
        if (any(2000) == 0) {
            static struct device restarted;
            restarted = left;
            put(&restarted, any(2) ? image : old, NULL);
            again++;
        }
    }
}

static void every_cut(struct device *d, const uint8_t *image)
{
    memcpy(old, current(d), d->n);
    put(d, image, cut_here);
}

/* ---- Lives: thousands of attempts, each cut or done, on a device that garbles the part it writes to */

static unsigned long attempts, finished, garbled;

/* One attempt: writes that go well, then perhaps one that does not. Whether it was done. */
static int attempt(struct device *d, const uint8_t *image, const uint8_t *before)
{
    uint64_t from = 0, place, start, end;
    uint8_t byte;
    unsigned left = any(3) ? any(60) : UINT32_MAX;
    attempts++;
    for (;;) {
        if (any(8) == 0)
            from = any((unsigned)length_of(d) + 3); /* a program that lost its position */
        uint64_t answer = next(d, image, from, &place, &byte);
        if (answer == TILLERCLOVER_STORE_DONE)
            return 1;
        expect(answer == TILLERCLOVER_STORE_WRITE, "a store of the right length fits");
        if (left-- == 0) {
            part(d, place, &start, &end);
            if (any(2)) {
                fill(d->bytes + start, end - start);
                garbled++;
            } else
                d->bytes[place] = (uint8_t)any(256);
            expect(holds(d, before) || holds(d, image),
                   "in an attempt the current image is the old one or the new one");
            return 0;
        }
        d->bytes[place] = byte;
        d->wear[place]++;
        from = place + 1;
        expect(holds(d, before) || holds(d, image), "between two writes it is the old one or the new one");
    }
}

static void life(uint64_t n, unsigned stores)
{
    static struct device d;
    static uint8_t was[N], image[N];
    memset(&d, 0, sizeof d);
    d.n = n;
    fill(d.bytes, length_of(&d));
    memcpy(image, current(&d), n);
    for (unsigned i = 0; i < stores; i++) {
        memcpy(was, current(&d), n);
        if (any(10) == 0)
            fill(image, n);
        else if (n)
            for (unsigned k = any(ROW) + 1; k > 0; k--)
                image[any((unsigned)n)] = (uint8_t)any(4);
        if (attempt(&d, image, was)) {
            expect(holds(&d, image), "what is done is current");
            finished++;
        }
    }
}

/* ---- Lengths */

static void lengths(void)
{
    static uint8_t bytes[STORE + 1], image[N + 1];
    uint64_t place = 77;
    uint8_t byte = 78;
    for (uint64_t store = 0; store <= 40; store++)
        for (uint64_t n = 0; n <= 20; n++) {
            int fits = store == TILLERCLOVER_STORE_LENGTH(n);
            uint64_t answer = tillerclover_store_next(bytes, store, image, n, 0, &place, &byte);
            expect((answer == TILLERCLOVER_STORE_UNFIT) == !fits, "only a store of the right length fits");
            answer = tillerclover_store_current(bytes, store, n, &place);
            expect(answer == (fits ? TILLERCLOVER_STORE_DONE : TILLERCLOVER_STORE_UNFIT),
                   "and only it has a current image");
            place = 77;
        }
    const uint64_t huge[] = {UINT64_MAX, UINT64_MAX / 2, UINT64_MAX / 2 + 1, N + UINT64_MAX / 2 + 1, UINT64_MAX - N};
    for (size_t i = 0; i < sizeof huge / sizeof *huge; i++)
        expect(tillerclover_store_current(bytes, STORE, huge[i], &place) == TILLERCLOVER_STORE_UNFIT,
               "a length that overflows does not fit");
    expect(tillerclover_store_next(bytes, STORE - 1, image, N, 0, &place, &byte) == TILLERCLOVER_STORE_UNFIT &&
               tillerclover_store_next(bytes, STORE, image, N - 1, 0, &place, &byte) == TILLERCLOVER_STORE_UNFIT &&
               tillerclover_store_next(NULL, 0, NULL, 0, 0, &place, &byte) == TILLERCLOVER_STORE_UNFIT,
           "a store of another length does not fit");
    expect(place == 77 && byte == 78, "without a write the place and the byte stay");
    expect(tillerclover_store_next(bytes, 8, NULL, 0, 0, &place, &byte) == TILLERCLOVER_STORE_DONE,
           "an image without bytes is current");
}

/* ---- Wear: a byte that every image changes, and the marks */

static void wear(void)
{
    static struct device d;
    static uint8_t image[N];
    memset(&d, 0, sizeof d);
    d.n = N;
    unsigned stores = 8000, least = UINT32_MAX, most = 0;
    for (unsigned i = 0; i < stores; i++) {
        image[0]++;
        expect(put(&d, image, NULL) == 2, "a byte and a mark");
    }
    for (uint64_t i = 2 * N; i < STORE; i++) {
        least = d.wear[i] < least ? d.wear[i] : least;
        most = d.wear[i] > most ? d.wear[i] : most;
    }
    expect(d.wear[0] == stores / 2 && d.wear[N] == stores / 2, "the two images wear alike");
    expect(least == stores / 8 && most == stores / 8, "the eight marks wear alike, and less than the byte");
}

int main(void)
{
    static struct device d;
    static uint8_t image[N];
    d.n = N;
    fill(d.bytes, STORE); /* memory of any content */
    fill(image, N);
    every_cut(&d, image); /* every byte differs */
    every_cut(&d, image); /* none does */
    for (int i = 0; i < 12; i++) {
        fill(image + any(N - ROW), ROW);
        every_cut(&d, image);
    }
    for (unsigned i = 0; i < 1500; i++)
        life(any(24), 60); /* small images, so that marks go round and come to 255 */
    life(N, 4000);
    lengths();
    wear();
    printf("%lu cuts, %lu restarts after one; %lu attempts, %lu of them done, %lu parts garbled\n", cuts, again,
           attempts, finished, garbled);
    return 0;
}
