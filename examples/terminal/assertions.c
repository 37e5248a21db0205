#include <stddef.h>

#include "assertions.h"
#include "clock.h"

/* Milliseconds until one more may be made. */
enum {
    PAUSE = 24 * 60 * 60 * 1000 / ASSERTIONS_EACH_DAY
};

/* The entry of a credential: its own, or the one in which the fewest count. */
static size_t place_of(struct assertions *a, unsigned sender)
{
    int64_t now = clock_steady();
    size_t fewest = 0;
    for (size_t i = 0; i < ASSERTIONS; i++) {
        int64_t over = (now - a->list[i].counted) / PAUSE;
        a->list[i].made = over > a->list[i].made ? 0 : a->list[i].made - (int)over;
        a->list[i].counted += over * PAUSE;
        if (a->list[i].sender == sender) {
            return i;
        }
        fewest = a->list[i].made < a->list[fewest].made ? i : fewest;
    }
    return fewest;
}

bool assertions_left(struct assertions *a, unsigned sender)
{
    size_t i = place_of(a, sender);
    return a->list[i].sender != sender || a->list[i].made < ASSERTIONS_EACH_DAY;
}

void assertions_count(struct assertions *a, unsigned sender)
{
    size_t i = place_of(a, sender);
    a->list[i].made = a->list[i].sender == sender ? a->list[i].made + 1 : 1;
    a->list[i].sender = sender;
}
