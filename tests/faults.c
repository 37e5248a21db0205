/* A library to be loaded before the example terminal: it makes one system call of one store fail, or one write of a device,
 * and can set the clock back.
 *
 *     FAULT='STORE CALL KIND'    STORE and CALL are counted from 1; KIND is a number of errno, or a word: short for
 *                                half a write, before or after for the program's end before or after the call
 *     DEVICE_FAULT='WRITE KIND'  WRITE is counted from 1; KIND as above, with short for a write of nothing, and torn for
 *                                another byte in its place and the program's end
 *     SYNC_FAULT=FILE            once FILE is there, a sync of a journal does what its word says, as KIND
 *     STORES=FILE                gets a line for each store: the steady milliseconds of its beginning
 *     SLOW=FILE                  once FILE is there, each sync takes a tenth of a second
 *     CLOCK_BACK=FILE            once FILE is there, the system's clock is a day behind, and its watch says that it was
 *                                set */
#include <dlfcn.h>
#include <errno.h>
#include <fcntl.h>
#include <stdarg.h>
#include <stdbool.h>
#include <stdint.h>
#include <stdio.h>
#include <stdlib.h>
#include <string.h>
#include <time.h>
#include <unistd.h>

#define REAL(name) ((__typeof__(&name))dlsym(RTLD_NEXT, #name))

/* ---- Stores */

static int store, call;

/* What the next call of a store is to do. */
static enum {
    AS_ALWAYS,
    FAIL,
    SHORT,
    AFTER
} next(void)
{
    int at_store, at_call;
    char kind[16];
    const char *fault = getenv("FAULT");
    if (store == 0 || fault == NULL || sscanf(fault, "%d %d %15s", &at_store, &at_call, kind) != 3) {
        return AS_ALWAYS;
    }
    call++;
    if (store != at_store || call != at_call) {
        return AS_ALWAYS;
    }
    if (strcmp(kind, "before") == 0) {
        _exit(9);
    }
    errno = atoi(kind);
    return strcmp(kind, "short") == 0 ? SHORT : strcmp(kind, "after") == 0 ? AFTER : FAIL;
}

#define FAULTY(real)                                                                                                   \
    int what = next();                                                                                                 \
    if (what == FAIL) {                                                                                                \
        return -1;                                                                                                     \
    }                                                                                                                  \
    __auto_type result = (real);                                                                                       \
    if (what == AFTER) {                                                                                               \
        _exit(9);                                                                                                      \
    }                                                                                                                  \
    return result

static void note_store(void)
{
    struct timespec now;
    const char *name = getenv("STORES");
    FILE *list = name != NULL ? fopen(name, "ae") : NULL;
    if (list != NULL && clock_gettime(CLOCK_MONOTONIC, &now) == 0) {
        fprintf(list, "%lld\n", (long long)now.tv_sec * 1000 + now.tv_nsec / 1000000);
    }
    if (list != NULL) {
        fclose(list);
    }
}

int open(const char *path, int flags, ...)
{
    va_list more;
    va_start(more, flags);
    unsigned mode = flags & O_CREAT ? va_arg(more, unsigned) : 0;
    va_end(more);
    size_t length = strlen(path);
    if (length > 4 && strcmp(path + length - 4, ".new") == 0) {
        store++;
        call = 0;
        note_store();
    }
    FAULTY(REAL(open)(path, flags, mode));
}

int fcntl(int file, int command, ...)
{
    va_list more;
    va_start(more, command);
    void *argument = va_arg(more, void *);
    va_end(more);
    FAULTY(REAL(fcntl)(file, command, argument));
}

ssize_t write(int file, const void *bytes, size_t length)
{
    int what = next();
    if (what == FAIL) {
        return -1;
    }
    ssize_t many = REAL(write)(file, bytes, what == SHORT ? length / 2 : length);
    if (what == AFTER) {
        _exit(9);
    }
    return many;
}

static bool is_there(const char *variable)
{
    const char *file = getenv(variable);
    return file != NULL && access(file, F_OK) == 0;
}

int fsync(int file)
{
    if (is_there("SLOW")) {
        usleep(100000);
    }
    FAULTY(REAL(fsync)(file));
}

int close(int file)
{
    FAULTY(REAL(close)(file));
}

int renameat2(int from, const char *old, int to, const char *new, unsigned flags)
{
    FAULTY(REAL(renameat2)(from, old, to, new, flags));
}

/* ---- Journals */

/* Only a journal is synced so. */
int fdatasync(int file)
{
    char kind[16] = "";
    const char *name = getenv("SYNC_FAULT");
    FILE *fault = name != NULL ? fopen(name, "re") : NULL;
    if (fault != NULL) {
        if (fscanf(fault, "%15s", kind) != 1) {
            kind[0] = 0;
        }
        fclose(fault);
    }
    if (atoi(kind) != 0) {
        errno = atoi(kind);
        return -1;
    }
    int result = strcmp(kind, "before") == 0 ? -1 : REAL(fdatasync)(file);
    if (kind[0] != 0) {
        _exit(9);
    }
    return result;
}

/* ---- Devices */

static int device_write;

ssize_t pwrite(int file, const void *bytes, size_t length, off_t at)
{
    int at_write;
    char kind[16];
    const char *fault = getenv("DEVICE_FAULT");
    device_write++;
    if (fault == NULL || sscanf(fault, "%d %15s", &at_write, kind) != 2 || at_write != device_write) {
        return REAL(pwrite)(file, bytes, length, at);
    }
    if (strcmp(kind, "torn") == 0) {
        uint8_t other = (uint8_t)(*(const uint8_t *)bytes ^ (1 + at_write % 255));
        REAL(pwrite)(file, &other, 1, at);
    } else if (strcmp(kind, "after") == 0) {
        REAL(pwrite)(file, bytes, length, at);
    } else if (strcmp(kind, "before") != 0) {
        errno = atoi(kind);
        return strcmp(kind, "short") == 0 ? 0 : -1;
    }
    _exit(9);
}

/* ---- The clock */

/* A front may not ask for files; it keeps the right time. */
__attribute__((constructor)) static void leave_fronts_alone(int count, char **words)
{
    if (count > 1 && strcmp(words[1], "--front") == 0) {
        unsetenv("CLOCK_BACK");
    }
}

int clock_gettime(clockid_t clock, struct timespec *time)
{
    int result = REAL(clock_gettime)(clock, time);
    if (clock == CLOCK_REALTIME && is_there("CLOCK_BACK")) {
        time->tv_sec -= 86400;
    }
    return result;
}

ssize_t read(int file, void *bytes, size_t length)
{
    static bool said;
    char name[64], link[64] = "";
    ssize_t result = REAL(read)(file, bytes, length);
    snprintf(name, sizeof name, "/proc/self/fd/%d", file);
    if (result < 0 && !said && is_there("CLOCK_BACK") && readlink(name, link, sizeof link - 1) > 0 &&
        strstr(link, "timerfd") != NULL) {
        said = true;
        errno = ECANCELED;
    }
    return result;
}
