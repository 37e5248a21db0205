#include <poll.h>
#include <stdarg.h>
#include <stdbool.h>
#include <stdint.h>
#include <stdio.h>
#include <time.h>
#include <unistd.h>

#include "clock.h"
#include "keys.h"
#include "log.h"

enum {
    /* Lines that may come at once */
    BURST = 200,
    /* milliseconds between two lines that count what was dropped */
    DROPPED_PAUSE = 1000,
    /* A pipe that can be written to takes this much without waiting. */
    LONGEST = 512,
    /* those with a key, and those in clear */
    SENDERS = KEYS_MOST + 1
};

/* Milliseconds until one more line may come. A sender's records change the tables 40 times a second at most. */
static const int PAUSES[LOG_KINDS] = {[LOG_READ] = 100, [LOG_ACT] = 100, [LOG_CHANGE] = 25};

static const char *clock_file;

/* What is left of the lines, and when that was counted. */
struct budget {
    int room;
    int64_t counted;
};

/* An entry whose budgets are whole is as good as a new one: it is anybody's who has none. */
static struct {
    bool used;
    unsigned sender;
    struct budget kinds[LOG_KINDS];
} senders[SENDERS];
static struct budget notes[LOG_FRONTS];
static unsigned long dropped, dropped_changes;

void log_open(const char *clock)
{
    clock_file = clock;
}

/* ---- Budgets */

static void refill(struct budget *b, int pause)
{
    int64_t more = (clock_steady() - b->counted) / pause;
    b->room = more > BURST - b->room ? BURST : b->room + (int)more;
    b->counted += more * pause;
}

static bool spend(struct budget *b, int pause)
{
    refill(b, pause);
    bool room = b->room > 0;
    b->room -= room;
    return room;
}

/* The budgets of a sender, or NULL where there are more senders than there can be keys. */
static struct budget *budgets_of(unsigned sender)
{
    int found = -1;
    for (int i = 0; i < SENDERS; i++) {
        bool whole = true;
        for (int k = 0; k < LOG_KINDS; k++) {
            refill(&senders[i].kinds[k], PAUSES[k]);
            whole = whole && senders[i].kinds[k].room == BURST;
        }
        if (senders[i].used && senders[i].sender == sender) {
            return senders[i].kinds;
        }
        found = whole ? i : found;
    }
    if (found < 0) {
        return NULL;
    }
    senders[found].used = true;
    senders[found].sender = sender;
    return senders[found].kinds;
}

/* ---- Lines */

/* False where nobody reads it now. A pipe that is closed says that it can be written to; SIGPIPE is ignored. */
static bool put(const char *text, size_t length)
{
    struct pollfd out = {.fd = STDOUT_FILENO, .events = POLLOUT};
    return poll(&out, 1, 0) == 1 && out.revents & POLLOUT && write(STDOUT_FILENO, text, length) == (ssize_t)length;
}

static bool put_words(const char *prefix, const char *format, va_list values)
{
    char text[LONGEST];
    size_t most = sizeof text - 1;
    size_t length = (size_t)snprintf(text, sizeof text, "%s", prefix);
    int many = vsnprintf(text + length, sizeof text - length, format, values);
    length += many > 0 ? (size_t)many : 0;
    length = length < most ? length : most;
    text[length++] = '\n';
    return put(text, length);
}

void log_say(const char *format, ...)
{
    va_list values;
    va_start(values, format);
    if (!put_words("terminal: ", format, values)) {
        dropped++;
    }
    va_end(values);
}

static bool put_timed(const char *format, va_list values)
{
    char when[32] = "";
    time_t now = clock_now(clock_file);
    struct tm parts;
    strftime(when, sizeof when, "%Y-%m-%dT%H:%M:%SZ ", gmtime_r(&now, &parts));
    return put_words(when, format, values);
}

void log_record(unsigned sender, enum log_kind kind, const char *format, ...)
{
    struct budget *budgets = budgets_of(sender);
    va_list values;
    va_start(values, format);
    if (budgets == NULL || !spend(&budgets[kind], PAUSES[kind]) || !put_timed(format, values)) {
        dropped++;
        dropped_changes += kind == LOG_CHANGE;
    }
    va_end(values);
}

void log_note(int front, const char *format, ...)
{
    va_list values;
    va_start(values, format);
    if (!spend(&notes[front], PAUSES[LOG_READ]) || !put_timed(format, values)) {
        dropped++;
    }
    va_end(values);
}

void log_tend(void)
{
    static int64_t said;
    unsigned long many = dropped, changes = dropped_changes;
    int64_t now = clock_steady();
    if (many == 0 || now - said < DROPPED_PAUSE) {
        return;
    }
    said = now;
    dropped = 0;
    dropped_changes = 0;
    log_say("%lu lines of the log were dropped, %lu of them of changes", many, changes);
    /* Nobody reads it: they stay to be reported. */
    dropped_changes += dropped > 0 ? changes : 0;
    dropped += dropped > 0 ? many - 1 : 0;
}
