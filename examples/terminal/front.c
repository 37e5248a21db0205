#include <poll.h>
#include <stdio.h>
#include <string.h>
#include <sys/prctl.h>

#include "confine.h"
#include "fail.h"
#include "front.h"
#include "server.h"

enum {
    /* Datagrams that are read before the core is heard again */
    DATAGRAMS = 64,
    /* milliseconds after which a front without work looks what is due */
    TURN = 1000
};

static void wait_for_something(const struct server *s)
{
    struct pollfd both[2] = {{.fd = s->core, .events = POLLIN},
                             {.fd = coap_context_get_coap_fd(s->context), .events = POLLIN}};
    poll(both, 2, TURN);
}

/* Returns when the core is gone. */
static void run(struct server *s)
{
    while (server_hear(s)) {
        wait_for_something(s);
        for (int i = 0; i < DATAGRAMS && server_read(s); i++) {
        }
        server_tend(s);
    }
}

int front_main(const char *name, const char *address, const char *port)
{
    static struct server s;
    bool secure = strcmp(name, "secure") == 0;
    if (prctl(PR_SET_NAME, name) != 0) {
        fail("a front cannot be named");
    }
    confine_user(secure);
    server_open(&s, FRONT_SOCKET, secure ? FRONT_KEYS : -1, address, port);
    confine_process();
    if (!message_send(s.core, MESSAGE_ALIVE, 0, NULL, 0)) {
        fail("the program itself starts its fronts");
    }
    run(&s);
    server_close(&s);
    return 0;
}
