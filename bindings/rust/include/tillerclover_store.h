/* Tillerclover: a store that a power cut cannot break, for C11 and for C++11 and later.
 *
 * A store keeps an image, such as a terminal's tables, in memory whose bytes are written one by one: an EEPROM, FRAM, or a
 * file on a device. It is TILLERCLOVER_STORE_LENGTH(n) bytes for images of n bytes: a first image, a second image, and 8
 * marks. One image is current. A new image is copied over the other one, where bytes differ, and then one mark is raised:
 * that single write makes the new image the current one. When the power is cut, the image from before is current, or the
 * new one: whatever is left of the byte that was being written, and of every other byte in the same image or in the marks.
 * That is proved (docs/PROOFS.md). docs/STORE.md has a drawing, what it costs, and other ways to store.
 *
 * When the power comes on, read the whole store from the device. Then load the current image. If the image is only the
 * tables, no record waits after a load, so the waiting records are zeros:
 *
 *     uint64_t at;
 *     if (tillerclover_store_current(store, sizeof store, n, &at) == TILLERCLOVER_STORE_DONE) {
 *         memcpy(&terminal.tables, store + at, sizeof terminal.tables);
 *         memset(&terminal.waiting, 0, sizeof terminal.waiting);
 *     }
 *
 * If the image is the whole terminal, it has the waiting records too:
 *
 *     uint64_t at;
 *     if (tillerclover_store_current(store, sizeof store, n, &at) == TILLERCLOVER_STORE_DONE)
 *         memcpy(&terminal, store + at, sizeof terminal);
 *
 * The content of new memory is the current image too. So give it to the library as it is: tables that are not sound get
 * answer 1, and tillerclover_is_sound says so, until those of tillerclover_clear are stored.
 *
 * To store an image:
 *
 *     uint64_t from = 0, at, writes = 0, answer;
 *     uint8_t byte;
 *     while ((answer = tillerclover_store_next(store, sizeof store, image, n, from, &at, &byte)) == TILLERCLOVER_STORE_WRITE) {
 *         if (writes++ > n)
 *             break;
 *         device_write(at, byte);
 *         store[at] = device_read(at);
 *         from = at + 1;
 *     }
 *
 * With DONE the image is stored, and only now the record is answered. A run takes n + 1 writes at most. A device that asks
 * for more has a cell that does not keep its byte: the image from before is then still current, or the new one. A store that
 * does not end with DONE leaves a terminal in memory that the device may not hold. So answer nobody, and load again or end:
 *
 *     if (answer != TILLERCLOVER_STORE_DONE)
 *         load_again_or_end();
 *
 * Three things are supposed of the device:
 * - A cell whose write was cut reads the same value from then on, be it any value. No proof covers a cell that reads now
 *   this and now that; devices prevent it by a brown-out detector, which finishes a write or does not begin it.
 * - A write does not change the other two parts. A device that writes whole pages does so if both images, and the marks, begin
 *   on a page: make n a multiple of the page, with zeros after the image.
 * - `store` is what the device holds: mapped memory, or a copy. Read all of the copy when the power comes on, and after each
 *   write what the write may have changed: the byte, as above, or on a device that writes whole pages the page.
 *
 * What to store. For memory that wears: only the tables, n = sizeof(tillerclover_tables). Hand-ins, polls and refused
 * records then write nothing. After a power cut no record waits, so the 0 of a hand-in is no receipt; answer a sender when
 * its record is taken. Where memory does not wear, or the 0 of a hand-in is passed on as a receipt: the
 * whole tillerclover_terminal as ONE image. Then no answer is taken back; a take that was cut may have counted, and its
 * record is then handed to nobody, one for each cut. Never use two stores, one for each part: a cut between them leaves a
 * record that was judged and waits still, or neither.
 */
#ifndef TILLERCLOVER_STORE_H
#define TILLERCLOVER_STORE_H

#include <stdint.h>

#ifdef __cplusplus
extern "C" {
#endif

enum {
    TILLERCLOVER_STORE_MARKS = 8
};

/* The bytes of a store for images of n bytes. */
#define TILLERCLOVER_STORE_LENGTH(n) (2 * (n) + TILLERCLOVER_STORE_MARKS)

enum tillerclover_store_answer {
    /* The image is the current one, or the current one was found. */
    TILLERCLOVER_STORE_DONE = 0,
    /* A byte is to be written. */
    TILLERCLOVER_STORE_WRITE = 1,
    /* The store's length is not TILLERCLOVER_STORE_LENGTH of the image's: nothing is to be written. */
    TILLERCLOVER_STORE_UNFIT = 2
};

/* What to do next to store an image of `image_length` bytes. With WRITE, `*place` is the place in the store and `*byte` the
 * byte to write there; otherwise both stay as they are. `from` is 0 at the start of a run, so that nothing is written where
 * nothing changed, and then the place after the last write, which saves time. With any other `from` the answers are as
 * safe. */
uint64_t tillerclover_store_next(const uint8_t *store, uint64_t store_length, const uint8_t *image,
                                 uint64_t image_length, uint64_t from, uint64_t *place, uint8_t *byte);

/* Where the current image starts, in a store for images of n bytes. With DONE, `*place` is 0 or n; with UNFIT it stays
 * as it is. */
uint64_t tillerclover_store_current(const uint8_t *store, uint64_t store_length, uint64_t n, uint64_t *place);

#ifdef __cplusplus
}
#endif
#endif
