/* What goes back to a client: the CoAP answer to each outcome of the library. */
#ifndef ANSWER_H
#define ANSWER_H

#include <stddef.h>

#include "plate.h"
#include "terminal.h"

struct answer {
    /* as 403 for 4.03 */
    unsigned code;
    /* seconds for which a cache may repeat it, and after which a 5.03 may be tried again */
    unsigned max_age;
    /* the content format, or ANSWER_DIAGNOSTIC for words to a human */
    int format;
    /* of 32 bits, so that no byte between the fields goes to the front unset */
    uint32_t length;
    uint8_t bytes[TILLERCLOVER_REPLY_MAX];
};

enum {
    ANSWER_DIAGNOSTIC = -1
};

/* How many bytes of the struct are in use, from its beginning. */
static inline size_t answer_size(const struct answer *a)
{
    return offsetof(struct answer, bytes) + a->length;
}

/* A refusal by its number: "8 not permitted". */
struct answer answer_refusal(unsigned number);

/* Words with a code of the program's own. */
struct answer answer_words(unsigned code, const char *words);

/* The words of an answer of the library. */
const char *answer_meaning(unsigned number);

/* What a record that was taken gets. A permitted record for an application resource acts on the plate. */
struct answer answer_taken(const struct taken *t, struct plate *plate, uint32_t clock);

#endif
