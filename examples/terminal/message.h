/* What the core and a front say to each other, over a socket pair that keeps messages apart. The core believes the form
 * of no message; a front believes the core. */
#ifndef MESSAGE_H
#define MESSAGE_H

#include <stdbool.h>
#include <stddef.h>
#include <stdint.h>

enum message_kind {
    /* By a front: it is at work, which the core answers by the same; a record, whose ticket is `number`; a line for the
     * log. */
    MESSAGE_ALIVE = 1,
    MESSAGE_RECORD,
    MESSAGE_NOTE,
    /* By the core: the answer to the record of ticket `number`; the sessions of credential `number` are over. */
    MESSAGE_ANSWER,
    MESSAGE_END,
    /* By a front: those sessions have ended, and nothing of them comes any more. */
    MESSAGE_ENDED,
    /* By the core: the key file, as a descriptor. By a front: it has `number` keys, and has ended the sessions of the
     * credentials in the body, of 16 bits each, whose keys are others now; or the words say why it keeps the old ones. */
    MESSAGE_KEYS,
    MESSAGE_NO_KEYS
};

enum {
    MESSAGE_HEAD = 8,
    MESSAGE_BODY = 8192
};

struct message {
    uint32_t kind, number;
    uint8_t body[MESSAGE_BODY];
    /* how many bytes the body has, and a descriptor that came with it, or -1; not sent */
    size_t length;
    int descriptor;
};

/* Does not wait. False: the other side takes nothing more, or is gone. */
bool message_send(int socket, enum message_kind kind, uint32_t number, const void *body, size_t length);

/* The same with a descriptor, which the other side gets a copy of. */
bool message_send_descriptor(int socket, enum message_kind kind, int descriptor);

enum message_came {
    MESSAGE_CAME,
    MESSAGE_NONE,
    MESSAGE_OVER
};

/* Takes the next message, and does not wait. MESSAGE_OVER: the other side is gone, or what came is no message. A front
 * takes descriptors, too; the core none. */
enum message_came message_take(int socket, struct message *m, bool descriptors);

#endif
