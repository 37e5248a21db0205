/* A file with tables: opened under a lock that is held for the program's life, read, and replaced whole or not at all. */
#ifndef FILE_H
#define FILE_H

#include <stdbool.h>
#include <stddef.h>

/* Open and locked: others see by the lock which process has it. */
struct file {
    const char *path;
    /* flags of open(2) beside those that each file here has */
    int flags;
    /* -1: there is no file yet */
    int descriptor;
};

/* Opens and locks the file, where there is one. A file that cannot be opened, or that another process has locked, ends
 * the program. */
void file_open(struct file *f, const char *path, int flags);

/* Whether the path still names the file that is open. */
bool file_is_there(const struct file *f);

/* Reads the next bytes: as many as there are, and `room` at most. A file that cannot be read ends the program. */
size_t file_read(const struct file *f, void *bytes, size_t room);

/* Makes the file, or replaces it. When this returns, the bytes are on the disk and survive a loss of power. Where that
 * cannot be had the program ends; then the file is as it was, or the new one, whole. */
void file_replace(struct file *f, const void *bytes, size_t length);

/* The same, and false with errno where it cannot be had. */
bool file_put(struct file *f, const void *bytes, size_t length);

/* Writes the bytes where the file is at, or at its end if it was opened so; a part of them may be there where this gives
 * false with errno. */
bool file_append(const struct file *f, const void *bytes, size_t length);

#endif
