/* The fronts as the core sees them: processes of their own that hold the network's sockets. They are started, heard,
 * ended where they say what no front says, and started again. */
#ifndef FRONTS_H
#define FRONTS_H

#include <sys/types.h>

#include "message.h"

/* One for each connection of a record: the one in clear has no key, and can speak for no credential. */
enum {
    FRONT_CLEAR,
    FRONT_SECURE,
    FRONTS
};

struct front {
    const char *name, *port;
    /* 0: it does not run */
    pid_t pid;
    /* how often it was started */
    unsigned lives;
    int socket;
    /* steady milliseconds: when it started, was heard last, or is to be started again; and the pause before that */
    int64_t started, heard, due, pause;
};

struct fronts {
    const char *address;
    /* the key file that the secure front has, and one that it has not confirmed yet, or -1 */
    int keys, new_keys;
    struct front list[FRONTS];
    /* steady milliseconds: when they were tended last */
    int64_t tended;
};

/* Starts both, and waits until they listen. One that cannot has said why, and ends the program with status 1. */
void fronts_open(struct fronts *f, const char *address, const char *port, const char *secure_port, int keys);

/* The secure front gets another key file. While it has not confirmed one, there is none to be given. */
void fronts_give_keys(struct fronts *f, int keys);

/* It has taken that, or has not: the next front gets the file that counts. */
void fronts_settle_keys(struct fronts *f, bool taken);

/* The next message of a front, and whether there is one. A front that is gone, or says what is no message, is ended. */
bool fronts_take(struct fronts *f, int which, struct message *m);

/* Says something to a front. One that does not listen is ended; one that does not run has nobody to be told. */
void fronts_say(struct fronts *f, int which, enum message_kind kind, uint32_t number, const void *body, size_t length);

/* Ends a front that runs, for what `words` say, and starts it again after a pause. */
void fronts_end(struct fronts *f, int which, const char *words);

/* Ends those that are silent, and starts those whose time has come. Gives the milliseconds until this is worth a call
 * again. */
int fronts_tend(struct fronts *f);

/* Ends both, for good. */
void fronts_close(struct fronts *f);

#endif
