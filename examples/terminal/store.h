/* The file that the terminal's tables live in, with the queue. It is written whole or not at all. */
#ifndef STORE_H
#define STORE_H

#include "file.h"
#include "tillerclover.h"

enum found {
    FOUND_WHOLE,
    FOUND_NOTHING,
    FOUND_DAMAGED
};

/* Opens, locks and reads the file. The state is left as it was where there is no file, or one that is damaged: of
 * another length, of another kind, or with a checksum that does not fit. A file that cannot be read, or that another
 * process has locked, ends the program. */
enum found store_open(struct file *f, const char *path, tillerclover_terminal *state);

/* When this returns, the state is on the disk and survives a loss of power. Where that cannot be had the program ends:
 * a terminal that cannot store must not answer. */
void store_write(struct file *f, const tillerclover_terminal *state);

#endif
