/* The log on standard output: it never waits, and whoever reads it or fills it cannot stop the terminal. */
#ifndef LOG_H
#define LOG_H

/* The file of the clock that the lines' times are of, as clock_now takes it. */
void log_open(const char *clock);

/* What the terminal says of itself, whenever it says it. */
void log_say(const char *format, ...) __attribute__((format(printf, 1, 2)));

/* What a line is about. Each sender has lines of its own for each, so that no other hides them, and it does not hide what
 * it changes and does by what it asks for. The clear front's senders are one. */
enum log_kind {
    /* records that read, and those that are refused */
    LOG_READ,
    /* permitted records that act on the plate */
    LOG_ACT,
    /* permitted records that change the tables: as many as there can be stores */
    LOG_CHANGE,
    LOG_KINDS
};

/* What a sender causes: a line with its time, at a bounded rate. Lines beyond it are dropped, and counted in a line that
 * follows. */
void log_record(unsigned sender, enum log_kind kind, const char *format, ...) __attribute__((format(printf, 3, 4)));

/* What a front says of those who have shown no key: the same, with lines of its own for each front. */
enum {
    LOG_FRONTS = 2
};
void log_note(int front, const char *format, ...) __attribute__((format(printf, 2, 3)));

/* Says how many lines were dropped, where there is room for it again. To be called now and then. */
void log_tend(void);

#endif
