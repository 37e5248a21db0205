/* Fronts that the network has taken over, instead of the example terminal's: each says one thing that no front
 * says, or nothing, or everything at once. The core has to survive them all. */
#include <poll.h>
#include <stdbool.h>
#include <stdio.h>
#include <stdlib.h>
#include <string.h>
#include <sys/socket.h>
#include <time.h>
#include <unistd.h>

#include "../examples/terminal/front.h"
#include "../examples/terminal/message.h"
#include "tillerclover_records.h"

/* What the one and the other does in turn. 0 to 7, 9 to 11, 17 and 18 are what no front says: each must be ended for it. */
enum {
    TURNS = 12
};
static const int CLEAR[TURNS] = {5, 6, 8, 9, 10, 11, 12, 13, 14, 15, 16, 18};
static const int SECURE[TURNS] = {0, 1, 2, 3, 4, 5, 6, 7, 13, 14, 16, 17};

static void say(uint32_t kind, uint32_t number, const void *body, size_t length)
{
    message_send(FRONT_SOCKET, (enum message_kind)kind, number, body, length);
}

/* A record of a sender: in clear for one, over DTLS for the other. */
static void say_record(bool crypt, unsigned sender, uint32_t ticket)
{
    tillerclover_record r =
        tillerclover_record_of(TILLERCLOVER_RETRIEVE, crypt ? TILLERCLOVER_AUTH_CRYPT : TILLERCLOVER_ANON_CLEAR,
                               TILLERCLOVER_WEIGHT, sender, NULL, 0);
    say(MESSAGE_RECORD, ticket, r.bytes, r.length);
}

/* The owner's order to go to RFPRO, which would change the tables. A front may not say so for a sender that it cannot
 * have. */
static void say_order(bool crypt, unsigned sender)
{
    static const uint8_t RFPRO = 2 << 5;
    tillerclover_record r =
        tillerclover_record_of(TILLERCLOVER_UPDATE, crypt ? TILLERCLOVER_AUTH_CRYPT : TILLERCLOVER_ANON_CLEAR,
                               TILLERCLOVER_PSTAT, sender, &RFPRO, 1);
    say(MESSAGE_RECORD, 1, r.bytes, r.length);
}

static void misbehave(int kind, bool secure)
{
    static uint8_t bytes[4 * MESSAGE_BODY];
    for (size_t i = 0; i < sizeof bytes; i++) {
        bytes[i] = (uint8_t)rand();
    }
    switch (kind) {
    case 0:
        say(0, 0, NULL, 0);
        break;
    case 1:
        say(99, 1, bytes, 100);
        break;
    case 2:
        send(FRONT_SOCKET, bytes, 3, 0);
        break;
    case 3:
        say(MESSAGE_RECORD, 1, bytes, 2);
        break;
    case 4:
        say(MESSAGE_RECORD, 1, bytes, TILLERCLOVER_RECORD_ROOM + 1);
        break;
    case 5:
        say_order(!secure, secure ? 0 : 5);
        break;
    case 6:
        say_order(secure, secure ? 0 : 5);
        break;
    case 7:
        send(FRONT_SOCKET, bytes, sizeof bytes, 0);
        break;
    case 8:
        say(MESSAGE_NOTE, 0, bytes, MESSAGE_BODY);
        break;
    case 9:
        say(MESSAGE_ALIVE, 0, bytes, 1);
        break;
    case 10:
        say(MESSAGE_ANSWER, 1, bytes, 1200);
        break;
    case 11:
        say(MESSAGE_KEYS, 1, bytes, 5000);
        break;
    case 12:
        abort();
    case 13:
        /* and never reads an answer */
        for (uint32_t i = 0; i < 20000; i++) {
            say_record(secure, secure ? 1 + i % 30 : 0, i);
        }
        break;
    case 14:
        /* the first of them is too short for a message */
        send(FRONT_SOCKET, bytes, 3, 0);
        for (int i = 0; i < 2000; i++) {
            send(FRONT_SOCKET, bytes + rand() % 1000, (size_t)(rand() % 300), MSG_DONTWAIT | MSG_NOSIGNAL);
        }
        break;
    case 16:
        /* nothing at all, for longer than a front may */
        poll(NULL, 0, 60000);
        break;
    case 17:
        /* sessions that nobody asked it to end */
        say(MESSAGE_ENDED, 7, NULL, 0);
        break;
    case 18:
        say(MESSAGE_KEYS, 1, bytes, 2);
        break;
    default:
        exit(rand() % 3);
    }
}

int front_main(const char *name, const char *address, const char *port)
{
    bool secure = strcmp(name, "secure") == 0;
    char path[256];
    (void)address;
    /* Whose turn it is says a file of the test's, named by the port: a front has no other memory than that. */
    snprintf(path, sizeof path, "%s/kind.%s", getenv("HOSTILE"), port);
    FILE *f = fopen(path, "r");
    int turn = -1;
    if (f != NULL && fscanf(f, "%d", &turn) != 1) {
        turn = -1;
    }
    if (f != NULL) {
        fclose(f);
    }
    f = fopen(path, "w");
    if (f != NULL) {
        fprintf(f, "%d\n", turn + 1);
        fclose(f);
    }
    srand((unsigned)time(NULL) ^ (unsigned)getpid());
    say(MESSAGE_ALIVE, 0, NULL, 0);
    if (turn >= 0 && turn < TURNS) {
        misbehave((secure ? SECURE : CLEAR)[turn], secure);
    }
    /* through: so each thing is reported once */
    while (turn >= TURNS) {
        poll(NULL, 0, 500);
        say(MESSAGE_ALIVE, 0, NULL, 0);
    }
    /* the first one only waits, so that the core starts */
    poll(NULL, 0, turn < 0 ? 300 : 50);
    return 0;
}
