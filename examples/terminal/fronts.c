#include <errno.h>
#include <fcntl.h>
#include <poll.h>
#include <signal.h>
#include <stdlib.h>
#include <string.h>
#include <sys/socket.h>
#include <sys/wait.h>
#include <unistd.h>

#include "clock.h"
#include "fail.h"
#include "front.h"
#include "fronts.h"
#include "log.h"

/* The program of the fronts: this one, also where its file was replaced meanwhile. A test names another. */
#ifndef FRONT_PROGRAM
#define FRONT_PROGRAM "/proc/self/exe"
#endif

/* Its environment: none, for what the core was given is no concern of the network's. A test has its own. */
#ifndef FRONT_ENVIRONMENT
#define FRONT_ENVIRONMENT ((char *[]){NULL})
#endif

/* Milliseconds after which a front that says nothing is ended: it says every second that it is at work. A test has no
 * time for as many. */
#ifndef FRONT_SILENCE
#define FRONT_SILENCE 15000
#endif

/* Milliseconds that a front has until it listens. Under valgrind it needs more. */
#ifndef FRONT_PATIENCE
#define FRONT_PATIENCE 30000
#endif

/* Milliseconds. */
enum {
    /* The pause before a start: doubled for each front that dies young */
    PAUSE_LEAST = 50,
    PAUSE_MOST = 800,
    OLD = 10000,
    /* The core looks after the fronts every second, unless it is still itself, as before a slow disk. */
    STANDSTILL = 3000,
    /* until it has ended by itself */
    GOODBYE = 3000
};

/* ---- The child */

/* The new process has its socket, for DTLS the key file, standard error for the line that says why it cannot start, and
 * nothing else of the core: it is this program again, with a memory of its own. */
static _Noreturn void become_front(const struct fronts *f, const struct front *front, int socket, int keys)
{
    bool secure = front == &f->list[FRONT_SECURE];
    char *const words[] = {"terminal",
                           FRONT_OPTION,
                           (char *)(uintptr_t)front->name,
                           (char *)(uintptr_t)f->address,
                           (char *)(uintptr_t)front->port,
                           NULL};
    int nothing = open("/dev/null", O_RDWR);
    if (nothing >= 0 && dup2(socket, FRONT_SOCKET) >= 0 && dup2(nothing, STDIN_FILENO) >= 0 &&
        dup2(nothing, STDOUT_FILENO) >= 0 && (!secure || dup2(keys, FRONT_KEYS) >= 0) &&
        close_range(secure ? FRONT_KEYS + 1 : FRONT_SOCKET + 1, ~0u, 0) == 0) {
        execve(FRONT_PROGRAM, words, FRONT_ENVIRONMENT);
    }
    fail("the front for %s cannot be started: %s", front->name, strerror(errno));
}

/* False: there is no socket or no process for it now. */
static bool launch(struct fronts *f, struct front *front)
{
    int pair[2];
    /* Each front reads it from its beginning. */
    if (lseek(f->keys, 0, SEEK_SET) != 0 || socketpair(AF_UNIX, SOCK_SEQPACKET | SOCK_CLOEXEC, 0, pair) != 0) {
        return false;
    }
    pid_t pid = fork();
    if (pid == 0) {
        /* Not numbers that they are to have themselves. */
        become_front(f, front, fcntl(pair[1], F_DUPFD, FRONT_KEYS + 1), fcntl(f->keys, F_DUPFD, FRONT_KEYS + 1));
    }
    close(pair[1]);
    if (pid < 0) {
        close(pair[0]);
        return false;
    }
    front->pid = pid;
    front->lives++;
    front->socket = pair[0];
    front->started = front->heard = clock_steady();
    /* The one before may have read it, and not have said so. */
    if (front == &f->list[FRONT_SECURE] && f->new_keys >= 0 && lseek(f->new_keys, 0, SEEK_SET) == 0) {
        message_send_descriptor(front->socket, MESSAGE_KEYS, f->new_keys);
    }
    return true;
}

/* Ends it, and gives what it ended with. */
static int stop(struct front *front)
{
    int status = 0;
    kill(front->pid, SIGKILL);
    while (waitpid(front->pid, &status, 0) < 0 && errno == EINTR) {
    }
    close(front->socket);
    front->pid = 0;
    return status;
}

/* ---- Messages */

bool fronts_take(struct fronts *f, int which, struct message *m)
{
    struct front *front = &f->list[which];
    if (front->pid == 0) {
        return false;
    }
    switch (message_take(front->socket, m, false)) {
    case MESSAGE_CAME:
        front->heard = clock_steady();
        return true;
    case MESSAGE_OVER:
        fronts_end(f, which, "is gone");
        return false;
    default:
        return false;
    }
}

void fronts_say(struct fronts *f, int which, enum message_kind kind, uint32_t number, const void *body, size_t length)
{
    if (f->list[which].pid != 0 && !message_send(f->list[which].socket, kind, number, body, length)) {
        fronts_end(f, which, "does not listen");
    }
}

/* ---- Keys */

void fronts_give_keys(struct fronts *f, int keys)
{
    struct front *front = &f->list[FRONT_SECURE];
    f->new_keys = keys;
    lseek(keys, 0, SEEK_SET);
    if (front->pid != 0 && !message_send_descriptor(front->socket, MESSAGE_KEYS, keys)) {
        fronts_end(f, FRONT_SECURE, "does not listen");
    }
}

void fronts_settle_keys(struct fronts *f, bool taken)
{
    close(taken ? f->keys : f->new_keys);
    f->keys = taken ? f->new_keys : f->keys;
    f->new_keys = -1;
}

/* ---- Starting and ending */

/* Waits for the first message of a front. */
static void await(struct front *front)
{
    static struct message m;
    struct pollfd said = {.fd = front->socket, .events = POLLIN};
    int came = poll(&said, 1, FRONT_PATIENCE);
    if (came == 1 && message_take(front->socket, &m, false) == MESSAGE_CAME) {
        return;
    }
    stop(front);
    if (came == 0) {
        fail("the front for %s does not listen after %d ms", front->name, FRONT_PATIENCE);
    }
    /* It has said what is wrong. */
    exit(1);
}

void fronts_open(struct fronts *f, const char *address, const char *port, const char *secure_port, int keys)
{
    *f = (struct fronts){
        .address = address,
        .keys = keys,
        .new_keys = -1,
        .list = {
            [FRONT_CLEAR] = {.name = "clear", .port = port}, [FRONT_SECURE] = {.name = "secure", .port = secure_port}}};
    /* the secure one first: it says what is wrong with the keys */
    for (int i = FRONTS; i-- > 0;) {
        if (!launch(f, &f->list[i])) {
            fail("no process for the fronts: %s", strerror(errno));
        }
        await(&f->list[i]);
    }
}

void fronts_end(struct fronts *f, int which, const char *words)
{
    struct front *front = &f->list[which];
    if (front->pid == 0) {
        return;
    }
    int64_t now = clock_steady();
    int status = stop(front);
    bool young = now - front->started < OLD;
    front->pause = !young || front->pause == 0 ? PAUSE_LEAST : 2 * front->pause;
    front->pause = front->pause > PAUSE_MOST ? PAUSE_MOST : front->pause;
    front->due = now + front->pause;
    log_say("the front for %s %s (%s %d), and is started again", front->name, words,
            WIFSIGNALED(status) ? "signal" : "status", WIFSIGNALED(status) ? WTERMSIG(status) : WEXITSTATUS(status));
}

int fronts_tend(struct fronts *f)
{
    int64_t now = clock_steady(), next = 1000;
    bool stood_still = now - f->tended > STANDSTILL;
    f->tended = now;
    for (int i = 0; i < FRONTS; i++) {
        struct front *front = &f->list[i];
        /* Then it is not the front that was silent. */
        front->heard = stood_still ? now : front->heard;
        if (front->pid != 0 && now - front->heard > FRONT_SILENCE) {
            fronts_end(f, i, "is silent");
        }
        if (front->pid == 0 && now >= front->due && !launch(f, front)) {
            log_say("no process for the front for %s: %s", front->name, strerror(errno));
            front->due = now + PAUSE_MOST;
        }
        if (front->pid == 0 && front->due - now < next) {
            next = front->due - now;
        }
    }
    return (int)next;
}

/* A front whose socket is closed ends by itself, and says by its status whether it did so in order. */
static void leave(struct front *front)
{
    enum {
        TURN = 10
    };
    int status = 0;
    shutdown(front->socket, SHUT_RDWR);
    for (int waited = 0; waited < GOODBYE; waited += TURN) {
        if (waitpid(front->pid, &status, WNOHANG) == front->pid) {
            close(front->socket);
            front->pid = 0;
            return;
        }
        poll(NULL, 0, TURN);
    }
    stop(front);
}

void fronts_close(struct fronts *f)
{
    for (int i = 0; i < FRONTS; i++) {
        if (f->list[i].pid != 0) {
            leave(&f->list[i]);
        }
    }
}
