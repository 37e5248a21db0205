/* The terminal's clock: the system's, or for tests the number in a file. And a clock that nobody sets, for pauses. */
#ifndef CLOCK_H
#define CLOCK_H

#include <stdbool.h>
#include <stdint.h>

/* Seconds since 1970. `file` is NULL for the system's clock; a file without a number ends the program. */
uint32_t clock_now(const char *file);

/* Milliseconds since the machine started. */
int64_t clock_steady(void);

/* A descriptor that can be read when the system's clock was set. */
int clock_watch(void);

/* Whether the system's clock was set back since the last call, or since clock_watch. */
bool clock_went_back(int watch);

#endif
