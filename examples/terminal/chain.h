/* The journal's file: lines that are chained by SHA-256, only ever appended. docs/JOURNAL.md has their form. A file that
 * is full is closed and keeps its lines under a name of its own; nothing is deleted. */
#ifndef CHAIN_H
#define CHAIN_H

#include <stdint.h>
#include <sys/types.h>

#include "file.h"
#include "sha256.h"

enum {
    /* the longest line, with its end, and the most that is written at once */
    CHAIN_LINE = 32768,
    CHAIN_ROOM = 8 * CHAIN_LINE,
    CHAIN_DIGITS = 2 * SHA256_LENGTH
};

struct chain {
    struct file file;
    /* Bytes of the lines that are whole; what comes after them, where `ragged` is set, is to be cut off first. */
    off_t size;
    bool ragged;
    /* of the last line: its number, its chain, and the count of its file in the journal; 0 where there is none yet */
    unsigned long number, part;
    char last[CHAIN_DIGITS + 1];
    /* The last line is an `end`. */
    bool ended;
};

/* What a start tells of each line: its kind, and the text from there up to the chain. */
typedef void chain_reader(void *context, const char *kind, const char *text);

/* Opens the file and reads it through; where there is none, the first write makes it. Gives the bytes of a line at its
 * end that has none; the first write cuts them off. What is no file of this user's alone, or has a line that does not fit
 * the chain, ends the program, and stays as it is. */
size_t chain_open(struct chain *c, const char *path, chain_reader *see, void *context);

/* Lines that are to be appended at once. */
struct chain_lines {
    char text[CHAIN_ROOM];
    size_t length;
    unsigned long number;
    char last[CHAIN_DIGITS + 1];
};

void chain_begin(const struct chain *c, struct chain_lines *l);

/* Adds a line, with the time and the clock as they are to be written. */
void chain_add(struct chain_lines *l, const char *time, const char *clock, const char *format, ...)
    __attribute__((format(printf, 4, 5)));

/* Appends the lines; with `sync` they survive a loss of power when this returns. False with errno: none of them is
 * there. */
bool chain_write(struct chain *c, const struct chain_lines *l, bool sync);

/* The file is full: it gets a name of its own, and another with these lines has its place. False with errno: the file is
 * as it was, and this is to be tried again. */
bool chain_next(struct chain *c, const struct chain_lines *l);

#endif
