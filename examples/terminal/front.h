/* A front: the process between the network and the core. It has the socket of one port and the stack, and for DTLS the
 * keys; it has no file, and no way to one. */
#ifndef FRONT_H
#define FRONT_H

/* How the core starts the program as a front: terminal --front NAME ADDRESS PORT, with the socket to the core,
 * and for DTLS the key file. */
#define FRONT_OPTION "--front"
enum {
    FRONT_WORDS = 5,
    FRONT_SOCKET = 3,
    FRONT_KEYS = 4
};

/* `name` is "clear" or "secure". Returns when the core is gone. */
int front_main(const char *name, const char *address, const char *port);

#endif
