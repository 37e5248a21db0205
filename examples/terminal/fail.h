/* What is wrong, in a line on standard error. Nobody who does not read it holds the program up. */
#ifndef FAIL_H
#define FAIL_H

/* The program goes on. */
void fail_line(const char *format, ...) __attribute__((format(printf, 1, 2)));

/* The program cannot go on: it ends with exit status 1. */
_Noreturn void fail(const char *format, ...) __attribute__((format(printf, 1, 2)));

#endif
