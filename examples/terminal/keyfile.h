/* The key file as the core handles it: it looks whose it is, and copies it for the secure front, which alone reads it. */
#ifndef KEYFILE_H
#define KEYFILE_H

#include "keys.h"

/* A descriptor of a copy that nobody can change, at its beginning. -1: `error` says what is wrong. It never waits, and
 * the keys do not get into this process's memory. */
int keyfile_copy(const char *path, char error[KEYS_ERROR]);

#endif
