#include <errno.h>
#include <fcntl.h>
#include <limits.h>
#include <stdarg.h>
#include <stdio.h>
#include <string.h>
#include <sys/stat.h>
#include <unistd.h>

#include "chain.h"
#include "fail.h"

/* The chain of a line: of its text, after the one before. */
static void chain_of(const char *before, const char *text, size_t length, char chain[CHAIN_DIGITS + 1])
{
    struct sha256 s;
    uint8_t sum[SHA256_LENGTH];
    sha256_begin(&s);
    sha256_add(&s, before, CHAIN_DIGITS);
    sha256_add(&s, " ", 1);
    sha256_add(&s, text, length);
    sha256_end(&s, sum);
    for (int i = 0; i < SHA256_LENGTH; i++) {
        snprintf(chain + 2 * i, 3, "%02x", sum[i]);
    }
}

/* ---- Reading at the start */

/* The number that the text begins with is the next; the first line of a file has any, and the chain before it. */
static bool take_head(struct chain *c, const char *text)
{
    char expected[32], previous[CHAIN_DIGITS + 1];
    unsigned long number, part;
    int length = 0;
    if (c->size > 0) {
        int digits = snprintf(expected, sizeof expected, "%lu ", c->number + 1);
        return strncmp(text, expected, (size_t)digits) == 0;
    }
    if (sscanf(text, "%lu %*24s - begin journal-1 %lu %64[0-9a-f]%n", &number, &part, previous, &length) != 3 ||
        text[length] != 0 || strlen(previous) != CHAIN_DIGITS || number == 0) {
        return false;
    }
    c->number = number - 1;
    c->part = part;
    memcpy(c->last, previous, sizeof c->last);
    return true;
}

/* The text from the kind on, after number, time and clock; NULL where there is none. */
static const char *kind_in(const char *text)
{
    for (int i = 0; i < 3 && text != NULL; i++) {
        text = strchr(text, ' ');
        text = text != NULL ? text + 1 : NULL;
    }
    return text;
}

/* Takes a line of `length` bytes without its end. False: it does not fit. */
static bool take_line(struct chain *c, char *line, size_t length, chain_reader *see, void *context)
{
    char chain[CHAIN_DIGITS + 1], kind[16];
    if (c->ended || strlen(line) != length || length < CHAIN_DIGITS + 2 || line[length - CHAIN_DIGITS - 1] != ' ') {
        return false;
    }
    char *text = line, *found = line + length - CHAIN_DIGITS;
    found[-1] = 0;
    if (!take_head(c, text)) {
        return false;
    }
    chain_of(c->last, text, strlen(text), chain);
    const char *from = kind_in(text);
    if (strcmp(found, chain) != 0 || from == NULL || sscanf(from, "%15s", kind) != 1) {
        return false;
    }
    memcpy(c->last, chain, sizeof c->last);
    c->number++;
    c->size += (off_t)length + 1;
    c->ended = strcmp(kind, "end") == 0;
    see(context, kind, from);
    return true;
}

static _Noreturn void fail_unchained(const struct chain *c, unsigned long lines)
{
    fail("%s, line %lu: does not fit the chain. Nothing is appended to such a journal: keep it, and name another",
         c->file.path, lines + 1);
}

/* More than a line has came without an end: so there must be none, as where a power cut left zeros. Gives the bytes. */
static size_t read_tail(const struct chain *c, char room[CHAIN_LINE], unsigned long lines)
{
    size_t length = 0, more;
    while ((more = file_read(&c->file, room, CHAIN_LINE)) > 0) {
        if (memchr(room, '\n', more) != NULL) {
            fail_unchained(c, lines);
        }
        length += more;
    }
    return length;
}

/* Reads all lines, and gives how many bytes come after the last end of a line. */
static size_t read_lines(struct chain *c, chain_reader *see, void *context)
{
    static char room[CHAIN_LINE + 1];
    size_t held = 0, more;
    unsigned long lines = 0;
    while ((more = file_read(&c->file, room + held, CHAIN_LINE - held)) > 0) {
        char *line = room, *end;
        held += more;
        while ((end = memchr(line, '\n', held)) != NULL) {
            size_t length = (size_t)(end - line);
            *end = 0;
            if (!take_line(c, line, length, see, context)) {
                fail_unchained(c, lines);
            }
            lines++;
            held -= length + 1;
            line = end + 1;
        }
        if (held == CHAIN_LINE) {
            return held + read_tail(c, room, lines);
        }
        memmove(room, line, held);
    }
    return held;
}

/* What is wrong with a file that is open, or NULL. */
static const char *fault_of(int file)
{
    struct stat status;
    if (fstat(file, &status) != 0 || !S_ISREG(status.st_mode)) {
        return "is no file";
    }
    if (status.st_uid != geteuid()) {
        return "belongs to another user";
    }
    return status.st_mode & (S_IRWXG | S_IRWXO) ? "can be read by others: chmod 600 it" : NULL;
}

static bool name_part(const struct chain *c, unsigned long part, char name[PATH_MAX])
{
    bool fits = snprintf(name, PATH_MAX, "%s.%06lu", c->file.path, part) < PATH_MAX;
    errno = fits ? 0 : ENAMETOOLONG;
    return fits;
}

/* A journal that would begin where another has its first file. */
static void check_first(const struct chain *c)
{
    char name[PATH_MAX];
    struct stat status;
    if (!name_part(c, 1, name) || lstat(name, &status) == 0) {
        fail("%s is there, and %s has no line: put the journal's last file back, or name another", name, c->file.path);
    }
}

size_t chain_open(struct chain *c, const char *path, chain_reader *see, void *context)
{
    *c = (struct chain){0};
    memset(c->last, '0', CHAIN_DIGITS);
    /* A FIFO would be waited for. */
    file_open(&c->file, path, O_APPEND | O_NOFOLLOW | O_NONBLOCK | O_NOCTTY);
    const char *fault = c->file.descriptor < 0 ? NULL : fault_of(c->file.descriptor);
    if (fault != NULL) {
        fail("%s %s", path, fault);
    }
    size_t torn = c->file.descriptor < 0 ? 0 : read_lines(c, see, context);
    if (c->size == 0) {
        check_first(c);
    }
    c->ragged = torn > 0;
    return torn;
}

/* ---- Writing */

void chain_begin(const struct chain *c, struct chain_lines *l)
{
    l->length = 0;
    l->number = c->number;
    memcpy(l->last, c->last, sizeof l->last);
}

void chain_add(struct chain_lines *l, const char *time, const char *clock, const char *format, ...)
{
    char *line = l->text + l->length;
    va_list values;
    va_start(values, format);
    size_t length = (size_t)snprintf(line, CHAIN_LINE, "%lu %s %s ", ++l->number, time, clock);
    length += (size_t)vsnprintf(line + length, CHAIN_LINE - length, format, values);
    va_end(values);
    if (length + CHAIN_DIGITS + 2 > CHAIN_LINE || l->length + 2 * CHAIN_LINE > CHAIN_ROOM) {
        fail("the journal has a line that is too long");
    }
    chain_of(l->last, line, length, l->last);
    length += (size_t)snprintf(line + length, CHAIN_LINE - length, " %s\n", l->last);
    l->length += length;
}

/* The lines are there from now on, in a file of this many bytes. */
static void settle(struct chain *c, const struct chain_lines *l, off_t size)
{
    c->size = size;
    c->ragged = false;
    c->number = l->number;
    memcpy(c->last, l->last, sizeof c->last);
}

/* Cuts off what comes after the whole lines. */
static bool is_even(struct chain *c)
{
    c->ragged = c->ragged && ftruncate(c->file.descriptor, c->size) != 0;
    return !c->ragged;
}

/* Appends the lines. Where it gives false, a part of them may be there. */
static bool append(struct chain *c, const struct chain_lines *l, bool sync)
{
    /* Lines in a file that was removed would be lost with it. */
    errno = ENOENT;
    return file_is_there(&c->file) && file_append(&c->file, l->text, l->length) &&
           (!sync || fdatasync(c->file.descriptor) == 0);
}

/* A file that is not there yet is made with the lines in it. */
static bool put(struct chain *c, const struct chain_lines *l, bool sync)
{
    if (c->file.descriptor < 0) {
        return file_put(&c->file, l->text, l->length);
    }
    if (!is_even(c)) {
        return false;
    }
    if (append(c, l, sync)) {
        return true;
    }
    int error = errno;
    c->ragged = true;
    is_even(c);
    errno = error;
    return false;
}

bool chain_write(struct chain *c, const struct chain_lines *l, bool sync)
{
    bool written = put(c, l, sync);
    if (written) {
        settle(c, l, c->size + (off_t)l->length);
    }
    return written;
}

bool chain_next(struct chain *c, const struct chain_lines *l)
{
    char name[PATH_MAX];
    struct stat held, named;
    /* A link first, then a rename over the name: so the file is never without either. */
    if (!is_even(c) || !name_part(c, c->part, name)) {
        return false;
    }
    if (linkat(AT_FDCWD, c->file.path, AT_FDCWD, name, 0) != 0 &&
        (errno != EEXIST || fstat(c->file.descriptor, &held) != 0 || lstat(name, &named) != 0 ||
         held.st_dev != named.st_dev || held.st_ino != named.st_ino)) {
        return false;
    }
    if (!file_put(&c->file, l->text, l->length)) {
        return false;
    }
    settle(c, l, (off_t)l->length);
    c->part++;
    c->ended = false;
    return true;
}
