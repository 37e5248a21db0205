#include <errno.h>
#include <fcntl.h>
#include <stdbool.h>
#include <string.h>
#include <sys/stat.h>
#include <unistd.h>

#include "device.h"
#include "fail.h"

/* How often a call for one byte is tried that was interrupted, or did nothing. */
enum {
    TRIES = 16
};

static _Noreturn void fail_to(const struct device *d, const char *what, const char *why)
{
    fail("%s cannot be %s: %s", d->file.path, what, why);
}

/* ---- Reading */

static void check_length(const struct device *d)
{
    struct stat found;
    if (fstat(d->file.descriptor, &found) != 0) {
        fail_to(d, "read", strerror(errno));
    }
    if (found.st_size != DEVICE_LENGTH) {
        fail("%s has %lld bytes, and a device for the tables %d", d->file.path, (long long)found.st_size,
             DEVICE_LENGTH);
    }
}

/* A program that was killed, or that had an error, may have left bytes with the system that are not on the device. They
 * are written now, or forgotten: what is read from here on is what the device holds. */
static void settle(const struct device *d)
{
    if (fsync(d->file.descriptor) != 0) {
        fail_to(d, "written", strerror(errno));
    }
    posix_fadvise(d->file.descriptor, 0, 0, POSIX_FADV_DONTNEED);
}

enum found device_open(struct device *d, const char *path, tillerclover_terminal *state)
{
    uint64_t at;
    *d = (struct device){0};
    file_open(&d->file, path, O_DSYNC);
    if (d->file.descriptor < 0) {
        return FOUND_NOTHING;
    }
    check_length(d);
    settle(d);
    if (file_read(&d->file, d->bytes, DEVICE_LENGTH) != DEVICE_LENGTH ||
        tillerclover_store_current(d->bytes, DEVICE_LENGTH, DEVICE_IMAGE, &at) != TILLERCLOVER_STORE_DONE) {
        fail_to(d, "read", "it is too short");
    }
    *state = (tillerclover_terminal){0};
    memcpy(&state->tables, d->bytes + at, DEVICE_IMAGE);
    return FOUND_WHOLE;
}

/* ---- Writing */

/* Whether a call for one byte is to be tried again, by what it gave. */
static bool is_open(ssize_t many)
{
    return many == 0 || (many < 0 && errno == EINTR);
}

static bool write_byte(int file, uint64_t at, uint8_t byte)
{
    ssize_t many = 0;
    for (int i = 0; i < TRIES && is_open(many); i++) {
        errno = EIO;
        many = pwrite(file, &byte, 1, (off_t)at);
    }
    return many == 1;
}

static bool read_byte(int file, uint64_t at, uint8_t *byte)
{
    ssize_t many = 0;
    for (int i = 0; i < TRIES && is_open(many); i++) {
        errno = EIO;
        many = pread(file, byte, 1, (off_t)at);
    }
    return many == 1;
}

/* Writes a byte, and reads back what the device has made of it. While there is no file, memory represents it. */
static void put(struct device *d, uint64_t at, uint8_t byte)
{
    if (d->file.descriptor < 0) {
        d->bytes[at] = byte;
        return;
    }
    if (!write_byte(d->file.descriptor, at, byte)) {
        fail_to(d, "written", strerror(errno));
    }
    if (!read_byte(d->file.descriptor, at, &d->bytes[at])) {
        fail_to(d, "read", strerror(errno));
    }
    d->writes++;
}

void device_write(struct device *d, const tillerclover_terminal *state)
{
    const uint8_t *image = (const uint8_t *)&state->tables;
    uint64_t from = 0, at, writes = 0, answer;
    uint8_t byte;
    while ((answer = tillerclover_store_next(d->bytes, DEVICE_LENGTH, image, DEVICE_IMAGE, from, &at, &byte)) ==
           TILLERCLOVER_STORE_WRITE) {
        if (writes++ > DEVICE_IMAGE) {
            break;
        }
        put(d, at, byte);
        from = at + 1;
    }
    if (answer != TILLERCLOVER_STORE_DONE) {
        fail_to(d, "written", "a cell does not keep its byte");
    }
    if (d->file.descriptor < 0) {
        file_replace(&d->file, d->bytes, DEVICE_LENGTH);
    } else if (!file_is_there(&d->file)) {
        fail_to(d, "written", "it was removed, or another file has its name");
    }
}
