#include <ctype.h>
#include <stdbool.h>
#include <stdio.h>
#include <stdlib.h>
#include <string.h>

#include "plate.h"
#include "tillerclover.h"

enum {
    STEP = 20,
    /* The zero point may be set while no more than this lies on the plate. */
    NEARLY_EMPTY = 500,
    MOST = 60000
};

/* A lorry is on the plate from the 10th to the 50th second of each minute, each minute another one. In between
 * there is nothing but dirt. */
static int load(const struct plate *p, uint32_t clock)
{
    uint32_t lorry = clock / 60, second = clock % 60;
    int kilograms = second < 10 || second >= 50 ? 60 : 12000 + (int)(lorry % 140) * 200;
    return kilograms * p->span / 1000 / STEP * STEP;
}

static int gross(const struct plate *p, uint32_t clock)
{
    return load(p, clock) - p->zero;
}

struct plate plate_new(void)
{
    return (struct plate){.span = 1000, .lamp = "off"};
}

/* A payload as text that ends with a zero. */
static bool as_text(const uint8_t *payload, size_t length, char text[PLATE_TEXT])
{
    if (length >= PLATE_TEXT) {
        return false;
    }
    for (size_t i = 0; i < length; i++) {
        if (!isprint(payload[i])) {
            return false;
        }
        text[i] = (char)payload[i];
    }
    text[length] = 0;
    return true;
}

static bool as_number(const char *text, int least, int most, int *number)
{
    char *end;
    long n = strtol(text, &end, 10);
    *number = (int)n;
    return end != text && *end == 0 && n >= least && n <= most;
}

static void show(const struct plate *p, uint32_t clock, unsigned resource, char text[PLATE_TEXT])
{
    switch (resource) {
    case TILLERCLOVER_WEIGHT:
        snprintf(text, PLATE_TEXT, "net %d kg, tare %d kg", gross(p, clock) - p->tare, p->tare);
        break;
    case TILLERCLOVER_TARE:
        snprintf(text, PLATE_TEXT, "tare %d kg", p->tare);
        break;
    case TILLERCLOVER_ZERO:
        snprintf(text, PLATE_TEXT, "zero %d kg", p->zero);
        break;
    case TILLERCLOVER_TICKET:
        snprintf(text, PLATE_TEXT, "ticket %u: net %d kg", p->tickets, p->net_of_ticket);
        break;
    case TILLERCLOVER_LAMP:
        snprintf(text, PLATE_TEXT, "%s", p->lamp);
        break;
    case TILLERCLOVER_CALIB:
        snprintf(text, PLATE_TEXT, "span %d/1000", p->span);
        break;
    default:
        snprintf(text, PLATE_TEXT, "%s", p->display);
        break;
    }
}

/* A tare by its weight, or what is on the plate. */
static enum done set_tare(struct plate *p, uint32_t clock, const char *body)
{
    int tare = gross(p, clock);
    if (*body != 0 && !as_number(body, 0, MOST, &tare)) {
        return PLATE_BAD_BODY;
    }
    p->tare = tare;
    return PLATE_DONE;
}

static enum done set_zero(struct plate *p, uint32_t clock, const char *body)
{
    if (*body != 0) {
        return PLATE_BAD_BODY;
    }
    if (load(p, clock) > NEARLY_EMPTY) {
        return PLATE_NOT_NOW;
    }
    p->zero = load(p, clock);
    return PLATE_DONE;
}

static enum done print_ticket(struct plate *p, uint32_t clock, const char *body)
{
    if (*body != 0) {
        return PLATE_BAD_BODY;
    }
    p->tickets++;
    p->net_of_ticket = gross(p, clock) - p->tare;
    return PLATE_DONE;
}

static enum done set_lamp(struct plate *p, const char *body)
{
    static const char LAMPS[][sizeof p->lamp] = {"off", "red", "green"};
    for (size_t i = 0; i < sizeof LAMPS / sizeof *LAMPS; i++) {
        if (strcmp(body, LAMPS[i]) == 0) {
            memcpy(p->lamp, LAMPS[i], sizeof p->lamp);
            return PLATE_DONE;
        }
    }
    return PLATE_BAD_BODY;
}

static enum done set_span(struct plate *p, const char *body)
{
    int span;
    if (!as_number(body, 900, 1100, &span)) {
        return PLATE_BAD_BODY;
    }
    p->span = span;
    return PLATE_DONE;
}

static enum done update(struct plate *p, uint32_t clock, unsigned resource, const char *body)
{
    switch (resource) {
    case TILLERCLOVER_TARE:
        return set_tare(p, clock, body);
    case TILLERCLOVER_ZERO:
        return set_zero(p, clock, body);
    case TILLERCLOVER_TICKET:
        return print_ticket(p, clock, body);
    case TILLERCLOVER_LAMP:
        return set_lamp(p, body);
    case TILLERCLOVER_CALIB:
        return set_span(p, body);
    case TILLERCLOVER_DISPLAY:
        snprintf(p->display, sizeof p->display, "%s", body);
        return PLATE_DONE;
    default:
        return PLATE_NOT_OFFERED;
    }
}

static enum done act(struct plate *p, uint32_t clock, unsigned verb, unsigned resource, const char *body)
{
    if (verb == TILLERCLOVER_RETRIEVE || verb == TILLERCLOVER_OBSERVE) {
        return *body == 0 ? PLATE_DONE : PLATE_BAD_BODY;
    }
    if (verb == TILLERCLOVER_UPDATE || (verb == TILLERCLOVER_CREATE && resource == TILLERCLOVER_TICKET)) {
        return update(p, clock, resource, body);
    }
    if (verb == TILLERCLOVER_DELETE && resource == TILLERCLOVER_TARE) {
        p->tare = 0;
        return PLATE_DONE;
    }
    return PLATE_NOT_OFFERED;
}

enum done plate_act(struct plate *p, uint32_t clock, unsigned verb, unsigned resource, const uint8_t *payload,
                    size_t length, char text[PLATE_TEXT])
{
    char body[PLATE_TEXT];
    enum done done = as_text(payload, length, body) ? act(p, clock, verb, resource, body) : PLATE_BAD_BODY;
    show(p, clock, resource, text);
    return done;
}
