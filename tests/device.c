/* The example terminal's device (examples/terminal/device.c) under a terminal whose power is cut at a write, or whose system
 * calls fail: what was answered is there at the next start. Each life of the terminal is a process of its own. Prints a line of
 * figures, and exits with another status than 0 at the first fault.
 *
 *     device FILE     makes the device FILE; built with -Wl,--wrap=pwrite,--wrap=pread */
#include <errno.h>
#include <fcntl.h>
#include <stdio.h>
#include <stdlib.h>
#include <string.h>
#include <sys/mman.h>
#include <sys/wait.h>
#include <unistd.h>

#include "../examples/terminal/terminal.h"
#include "chance.h"
#include "tillerclover_records.h"

/* ---- The device's faults */

enum kind {
    NONE,
    /* the power is cut */
    CUT_BEFORE,
    CUT_TORN,
    CUT_AFTER,
    CUT_PART,
    /* the terminal ends */
    NO_WRITE,
    NO_ROOM,
    NO_READ,
    INTERRUPTED_FOREVER,
    WORN,
    /* the terminal goes on */
    INTERRUPTED,
    SHORT,
    KINDS
};

/* What happens at which write of a life, counted from 1; the byte that a cut leaves, or 256 for any. */
static struct fault {
    enum kind kind;
    unsigned at, byte;
} fault;

/* What outlives a life. */
static struct shared {
    tillerclover_tables answered, tried;
    /* whether the last life ended in a store */
    bool cut;
    unsigned calls, kept;
} * shared;

static struct terminal t;
static off_t worn = -1;

ssize_t __real_pwrite(int file, const void *bytes, size_t length, off_t at);
ssize_t __real_pread(int file, void *bytes, size_t length, off_t at);
ssize_t __wrap_pwrite(int file, const void *bytes, size_t length, off_t at);
ssize_t __wrap_pread(int file, void *bytes, size_t length, off_t at);

static _Noreturn void cut(void)
{
    _exit(9);
}

static void leave(int file, off_t from, off_t end)
{
    for (off_t i = from; i < end; i++) {
        uint8_t byte = (uint8_t)(fault.byte < 256 ? fault.byte : any(256));
        __real_pwrite(file, &byte, 1, i);
    }
}

/* Anything is left in the part that is being written. */
static void leave_part(int file, off_t at)
{
    off_t start = at < DEVICE_IMAGE ? 0 : at < 2 * DEVICE_IMAGE ? DEVICE_IMAGE : 2 * DEVICE_IMAGE;
    leave(file, start, start == 2 * DEVICE_IMAGE ? DEVICE_LENGTH : start + DEVICE_IMAGE);
}

static ssize_t gives(int error)
{
    errno = error;
    return -1;
}

static ssize_t faulty(int file, const void *bytes, off_t at)
{
    switch (fault.kind) {
    case CUT_BEFORE:
        cut();
    case CUT_TORN:
        leave(file, at, at + 1);
        cut();
    case CUT_AFTER:
        __real_pwrite(file, bytes, 1, at);
        cut();
    case CUT_PART:
        leave_part(file, at);
        cut();
    case NO_WRITE:
        return gives(EIO);
    case NO_ROOM:
        return gives(ENOSPC);
    case INTERRUPTED:
        return gives(EINTR);
    case SHORT:
        return 0;
    case WORN:
        worn = at;
        return 1;
    default:
        return __real_pwrite(file, bytes, 1, at);
    }
}

ssize_t __wrap_pwrite(int file, const void *bytes, size_t length, off_t at)
{
    expect(length == 1 && at >= 0 && at < DEVICE_LENGTH, "a write is one byte of the device");
    expect((fcntl(file, F_GETFL) & O_DSYNC) != 0, "a write goes through");
    shared->calls++;
    expect(worn < 0 || shared->calls - fault.at <= DEVICE_IMAGE, "a store takes n + 1 writes at most");
    if (shared->calls >= fault.at && fault.kind == INTERRUPTED_FOREVER) {
        shared->tried = t.now.tables;
        shared->cut = true;
        return gives(EINTR);
    }
    if (shared->calls == fault.at) {
        shared->tried = t.now.tables;
        shared->cut = true;
        return faulty(file, bytes, at);
    }
    return at == worn ? 1 : __real_pwrite(file, bytes, 1, at);
}

ssize_t __wrap_pread(int file, void *bytes, size_t length, off_t at)
{
    expect(length == 1, "a byte is read back");
    return fault.kind == NO_READ && shared->calls == fault.at ? gives(EIO) : __real_pread(file, bytes, 1, at);
}

/* ---- A life */

static const char *path;

static bool same(const tillerclover_tables *a, const tillerclover_tables *b)
{
    return memcmp(a, b, sizeof *a) == 0;
}

static void start(void)
{
    bool make = access(path, F_OK) != 0;
    terminal_open(&t, path, true, make);
    if (!make) {
        bool old = same(&t.now.tables, &shared->answered);
        expect(old || (shared->cut && same(&t.now.tables, &shared->tried)),
               "the tables are those answered last, or those whose store was cut");
        shared->kept += shared->cut && !old;
    }
    expect(terminal_start(&t, 0), "the tables are sound");
    shared->answered = t.now.tables;
    shared->cut = false;
}

static void serve(const tillerclover_record *r)
{
    static struct taken taken[TERMINAL_PLACES];
    terminal_hand_in(&t, r);
    terminal_round(&t, 0, taken);
    /* here the core answers */
    shared->answered = t.now.tables;
    shared->cut = false;
}

static tillerclover_record any_record(void)
{
    uint8_t uuid[TILLERCLOVER_UUID_LENGTH];
    memset(uuid, (int)(1 + any(250)), sizeof uuid);
    if (any(3) == 0) {
        return tillerclover_delete_row(TILLERCLOVER_CRED, 0, 1 + any(8));
    }
    return tillerclover_store_cred(0, &(tillerclover_cred){.number = 1 + any(8), .subject = uuid, .type = 1});
}

/* A life with a fault: a start, and the record or some at random. Gives its status. */
static int live(struct fault f, const tillerclover_record *r)
{
    int status;
    uint64_t next = ((uint64_t)any(UINT32_MAX) << 32) | 1;
    fflush(stdout);
    pid_t child = fork();
    if (child == 0) {
        fault = f;
        seed = next;
        shared->calls = 0;
        alarm(20);
        expect(freopen("/dev/null", "w", stderr) != NULL, "a place for the last line");
        start();
        for (int i = 0; i < (r == NULL ? 6 : 1); i++) {
            tillerclover_record some = any_record();
            serve(r == NULL ? &some : r);
        }
        if (any(20) == 0 && r == NULL) {
            terminal_clear(&t);
            shared->answered = t.now.tables;
            shared->cut = false;
        }
        _exit(0);
    }
    expect(child > 0 && waitpid(child, &status, 0) == child && WIFEXITED(status), "a life ends by itself");
    if (WEXITSTATUS(status) == 2) {
        exit(1);
    }
    return WEXITSTATUS(status);
}

/* ---- The tests */

static unsigned long lives, cuts, ends;

/* The status that a fault must give, where its write was reached. */
static void count(enum kind kind, int status, bool reached)
{
    int expected = !reached || kind == NONE || kind > WORN ? 0 : kind < NO_WRITE ? 9 : 1;
    expect(status == expected, "a cut ends the life, an error the program, and nothing else does");
    lives++;
    cuts += status == 9;
    ends += status == 1;
}

static void run(struct fault f, const tillerclover_record *r)
{
    int status = live(f, r);
    count(f.kind, status, shared->calls >= f.at);
}

static void copy(uint8_t *bytes, bool back)
{
    int file = open(path, O_RDWR);
    ssize_t many = back ? __real_pwrite(file, bytes, DEVICE_LENGTH, 0) : __real_pread(file, bytes, DEVICE_LENGTH, 0);
    expect(file >= 0 && many == DEVICE_LENGTH, "the device is copied");
    close(file);
}

/* One store from the same device again and again, with each fault at each of its writes; the mark with many
 * values. */
static void each_write(const tillerclover_record *r)
{
    static uint8_t before[DEVICE_LENGTH];
    tillerclover_tables answered = shared->answered;
    copy(before, false);
    run((struct fault){NONE, 0, 0}, r);
    unsigned writes = shared->calls;
    expect(writes > 1, "the record changes the tables");
    for (unsigned at = 1; at <= writes; at++) {
        for (unsigned i = CUT_BEFORE; i < KINDS + (at == writes ? 16 : 0); i++) {
            copy(before, true);
            shared->answered = answered;
            shared->cut = false;
            run(i < KINDS ? (struct fault){i, at, 256} : (struct fault){CUT_TORN, at, 17 * (i - KINDS)}, r);
            run((struct fault){NONE, 0, 0}, r);
        }
    }
}

int main(int count_of_words, char **words)
{
    expect(count_of_words == 2, "usage: device FILE");
    path = words[1];
    shared = mmap(NULL, sizeof *shared, PROT_READ | PROT_WRITE, MAP_SHARED | MAP_ANONYMOUS, -1, 0);
    expect(shared != MAP_FAILED, "memory for all lives");
    uint8_t uuid[TILLERCLOVER_UUID_LENGTH];
    for (unsigned i = 1; i <= 2; i++) {
        memset(uuid, (int)i, sizeof uuid);
        tillerclover_record r =
            tillerclover_store_cred(0, &(tillerclover_cred){.number = i, .subject = uuid, .type = 1});
        run((struct fault){NONE, 0, 0}, &r);
    }
    tillerclover_record stored =
        tillerclover_store_cred(0, &(tillerclover_cred){.number = 9, .subject = uuid, .type = 1});
    tillerclover_record deleted = tillerclover_delete_row(TILLERCLOVER_CRED, 0, 1);
    each_write(&stored);
    each_write(&deleted);
    for (int i = 0; i < 400; i++) {
        run((struct fault){(enum kind)any(KINDS), 1 + any(150), 256}, NULL);
    }
    printf("device: %lu lives, %lu cut at a write, %lu ended by an error; %u of these left the new tables\n", lives,
           cuts, ends, shared->kept);
    return 0;
}
