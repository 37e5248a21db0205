/* A weighbridge terminal over CoAP and DTLS: an example of the library after a stack.
 *
 *     terminal -f FILE -k KEYS [-a ADDRESS] [-p PORT] [-s PORT] [-j FILE [-J BYTES]] [-c CLOCK] [-v] [--new]
 *     terminal -e FILE -k KEYS and the same
 *
 * docs/TERMINAL.md says what it does. This is the core; it starts two fronts, which are the same program. */
#include <errno.h>
#include <fcntl.h>
#include <getopt.h>
#include <poll.h>
#include <signal.h>
#include <stdio.h>
#include <stdlib.h>
#include <string.h>
#include <sys/signalfd.h>
#include <unistd.h>

#include "clock.h"
#include "confine.h"
#include "core.h"
#include "fail.h"
#include "front.h"
#include "keyfile.h"
#include "log.h"

static const char USAGE[] = "usage: terminal -f FILE|-e FILE -k KEYS [-a ADDRESS] [-p PORT] [-s PORT] [-j FILE [-J "
                            "BYTES]] [-c CLOCK] [-v] [--new]";

static const char HELP[] =
    "\n"
    "  -f FILE     the tables, in a file that is replaced whole\n"
    "  -e FILE     the tables, on a device that is written byte by byte, as an EEPROM is\n"
    "  -k KEYS     the partners' keys, a line 'NUMBER KEY' for each\n"
    "  -a ADDRESS  to listen on, 127.0.0.1 where none is given\n"
    "  -p PORT     for CoAP in clear, 5683 where none is given\n"
    "  -s PORT     for CoAP over DTLS, 5684 where none is given\n"
    "  -j FILE     the journal, to which each record and answer is appended\n"
    "  -J BYTES    after which the journal's next file begins, 16777216 where none is given\n"
    "  -c CLOCK    a file with the clock's seconds, for tests\n"
    "  -v          a line for each record\n"
    "  --new       makes FILE where there is none: a terminal that nobody owns\n"
    "  --help      this text\n"
    "\n"
    "SIGUSR1 is the clear button, SIGHUP reads KEYS again, SIGTERM and SIGINT end the terminal.\n";

struct options {
    const char *file, *device, *keys, *address, *port, *secure_port, *journal, *clock;
    off_t journal_most;
    bool verbose, make;
};

struct program {
    struct options options;
    struct core core;
    int signals, clock_watch;
    /* the keys are to be read again; the program is to end */
    bool new_keys, stopped;
};

/* A number of bytes, or 0 for what is none. */
static off_t read_bytes(const char *word)
{
    char *end;
    long bytes = strtol(word, &end, 10);
    return *end == 0 && bytes > 0 ? bytes : 0;
}

static struct options read_options(int count, char **words)
{
    static const struct option LONG[] = {{"new", no_argument, NULL, 'n'}, {"help", no_argument, NULL, 'h'}, {0}};
    struct options o = {.address = "127.0.0.1", .port = "5683", .secure_port = "5684", .journal_most = JOURNAL_MOST};
    int option;
    opterr = 0;
    while ((option = getopt_long(count, words, "f:e:k:a:p:s:j:J:c:v", LONG, NULL)) != -1) {
        switch (option) {
        case 'f':
            o.file = optarg;
            break;
        case 'e':
            o.device = optarg;
            break;
        case 'k':
            o.keys = optarg;
            break;
        case 'a':
            o.address = optarg;
            break;
        case 'p':
            o.port = optarg;
            break;
        case 's':
            o.secure_port = optarg;
            break;
        case 'j':
            o.journal = optarg;
            break;
        case 'J':
            o.journal_most = read_bytes(optarg);
            break;
        case 'c':
            o.clock = optarg;
            break;
        case 'v':
            o.verbose = true;
            break;
        case 'n':
            o.make = true;
            break;
        case 'h':
            printf("%s\n%s", USAGE, HELP);
            exit(0);
        default:
            count = 0;
            break;
        }
    }
    if ((o.file == NULL) == (o.device == NULL) || o.keys == NULL || o.journal_most == 0 || optind != count) {
        fail("%s", USAGE);
    }
    return o;
}

/* ---- Signals: they come as something to read, in the order in which the program gets to them. */

static int open_signals(void)
{
    static const int SIGNALS[] = {SIGUSR1, SIGHUP, SIGTERM, SIGINT};
    sigset_t ours;
    sigemptyset(&ours);
    for (size_t i = 0; i < sizeof SIGNALS / sizeof *SIGNALS; i++) {
        sigaddset(&ours, SIGNALS[i]);
    }
    signal(SIGPIPE, SIG_IGN);
    /* A file that may not grow any more is an error of its write. */
    signal(SIGXFSZ, SIG_IGN);
    int descriptor = sigprocmask(SIG_BLOCK, &ours, NULL) == 0 ? signalfd(-1, &ours, SFD_CLOEXEC | SFD_NONBLOCK) : -1;
    if (descriptor < 0) {
        fail("no signals: %s", strerror(errno));
    }
    return descriptor;
}

/* Once the front has confirmed the keys from before. */
static void read_keys_again(struct program *p)
{
    char error[KEYS_ERROR];
    if (!p->new_keys || p->core.fronts.new_keys >= 0) {
        return;
    }
    p->new_keys = false;
    int keys = keyfile_copy(p->options.keys, error);
    if (keys >= 0) {
        fronts_give_keys(&p->core.fronts, keys);
    } else {
        log_say("%s; the keys stay as they were", error);
    }
}

static void read_signals(struct program *p)
{
    struct signalfd_siginfo signal;
    while (read(p->signals, &signal, sizeof signal) == sizeof signal) {
        switch (signal.ssi_signo) {
        case SIGUSR1:
            log_say(core_clear(&p->core) ? "cleared" : "nothing is cleared: the journal cannot be written");
            break;
        case SIGHUP:
            p->new_keys = true;
            break;
        default:
            p->stopped = true;
            break;
        }
    }
}

/* The stack measures by the system's clock. Where that is set back, its sessions end or are still. */
static void read_clock_watch(struct program *p)
{
    if (clock_went_back(p->clock_watch)) {
        log_say("the system's clock was set back");
        for (int i = 0; i < FRONTS; i++) {
            fronts_end(&p->core.fronts, i, "has the old time");
        }
    }
}

/* ---- The program */

/* Where one of the standard descriptors is closed, a file would get its number, and what is written for a human would
 * go into it. */
static void open_standard(void)
{
    int descriptor;
    do {
        descriptor = open("/dev/null", O_RDWR | O_CLOEXEC);
    } while (descriptor >= 0 && descriptor <= STDERR_FILENO);
    close(descriptor);
}

static void start(struct program *p)
{
    const struct options *o = &p->options;
    struct core *c = &p->core;
    char error[KEYS_ERROR];
    uint32_t clock = clock_now(o->clock);
    const char *path = o->device != NULL ? o->device : o->file;
    *c = (struct core){.plate = plate_new(), .clock = o->clock, .verbose = o->verbose};
    int keys = keyfile_copy(o->keys, error);
    if (keys < 0) {
        fail("%s", error);
    }
    log_open(o->clock);
    terminal_open(&c->terminal, path, o->device != NULL, o->make);
    if (o->journal != NULL) {
        journal_open(&c->terminal.journal, o->journal, o->journal_most);
    }
    fronts_open(&c->fronts, o->address, o->port, o->secure_port, keys);
    if (!terminal_start(&c->terminal, clock)) {
        fail_line("%s is damaged: every record is answered with 1 until kill -USR1 %d clears it", path, (int)getpid());
    }
    log_say("%s, coap port %s, coaps port %s", o->address, o->port, o->secure_port);
}

static void wait_for_something(struct program *p, int milliseconds)
{
    struct pollfd all[2 + FRONTS] = {{.fd = p->signals, .events = POLLIN}, {.fd = p->clock_watch, .events = POLLIN}};
    for (int i = 0; i < FRONTS; i++) {
        const struct front *front = &p->core.fronts.list[i];
        all[2 + i] = (struct pollfd){.fd = front->pid != 0 ? front->socket : -1, .events = POLLIN};
    }
    poll(all, 2 + FRONTS, milliseconds);
}

static void run(struct program *p)
{
    int round = -1;
    while (!p->stopped) {
        int tend = fronts_tend(&p->core.fronts);
        wait_for_something(p, round >= 0 && round < tend ? round : tend);
        read_signals(p);
        read_keys_again(p);
        read_clock_watch(p);
        core_read(&p->core);
        round = core_round(&p->core);
        log_tend();
    }
}

static void say_done(const struct terminal *t)
{
    char bytes[40] = "";
    if (t->on_device) {
        snprintf(bytes, sizeof bytes, ", by %lu bytes", t->device.writes);
    }
    log_say("%lu records in %lu rounds, stored %lu times%s", t->taken, t->rounds, t->stores, bytes);
}

int main(int count, char **words)
{
    static struct program p;
    if (count == FRONT_WORDS && strcmp(words[1], FRONT_OPTION) == 0) {
        return front_main(words[2], words[3], words[4]);
    }
    open_standard();
    confine_memory();
    if (!tillerclover_identified()) {
        fail("the archive and tillerclover.h are not of one build");
    }
    p.options = read_options(count, words);
    p.signals = open_signals();
    p.clock_watch = clock_watch();
    start(&p);
    run(&p);
    fronts_close(&p.core.fronts);
    journal_close(&p.core.terminal.journal);
    say_done(&p.core.terminal);
    return 0;
}
