/* How often each credential may still assert a role: an assertion is stored, and a partner that asserts roles without end
 * would wear out the memory's cells in hours. */
#ifndef ASSERTIONS_H
#define ASSERTIONS_H

#include <stdbool.h>
#include <stdint.h>

enum {
    ASSERTIONS_EACH_DAY = 100,
    /* credentials that are counted at a time; a terminal has rows for fewer */
    ASSERTIONS = 64
};

struct assertions {
    struct {
        unsigned sender;
        /* how many it has made that are not over yet, and the steady milliseconds of the last count */
        int made;
        int64_t counted;
    } list[ASSERTIONS];
};

/* Whether this credential may assert one more. */
bool assertions_left(struct assertions *a, unsigned sender);

/* It has. */
void assertions_count(struct assertions *a, unsigned sender);

#endif
