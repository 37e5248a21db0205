/* A simulated plate: what a permitted record for an application resource does. */
#ifndef PLATE_H
#define PLATE_H

#include <stddef.h>
#include <stdint.h>

enum {
    PLATE_TEXT = 64
};

struct plate {
    int zero, tare, net_of_ticket;
    /* thousandths */
    int span;
    unsigned tickets;
    char lamp[8];
    char display[PLATE_TEXT];
};

enum done {
    PLATE_DONE,
    PLATE_NOT_OFFERED,
    PLATE_BAD_BODY,
    PLATE_NOT_NOW
};

struct plate plate_new(void);

/* Acts on a record with this payload, and writes the resource's new contents into `text`. All texts are ASCII. */
enum done plate_act(struct plate *p, uint32_t clock, unsigned verb, unsigned resource, const uint8_t *payload,
                    size_t length, char text[PLATE_TEXT]);

#endif
