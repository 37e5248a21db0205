/* What the tests with power cuts share: what must hold, and chance, with the same numbers in each run. */
#ifndef CHANCE_H
#define CHANCE_H

#include <stdint.h>
#include <stdio.h>
#include <stdlib.h>

/* Ends the process at once where it does not hold, with status 2. */
static void expect(int holds, const char *what)
{
    if (!holds) {
        printf("does not hold: %s\n", what);
        fflush(stdout);
        _Exit(2);
    }
}

static uint64_t seed = 88172645463325252u;

static unsigned any(unsigned below)
{
    seed ^= seed << 13;
    seed ^= seed >> 7;
    seed ^= seed << 17;
    return (unsigned)(seed >> 32) % below;
}

#endif
