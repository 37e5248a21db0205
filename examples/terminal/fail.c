#include <poll.h>
#include <stdarg.h>
#include <stdio.h>
#include <stdlib.h>
#include <unistd.h>

#include "fail.h"

enum {
    /* A pipe that can be written to takes this much without waiting. */
    LONGEST = 512,
    /* milliseconds that somebody has to make room for the line */
    PATIENCE = 200
};

static void put(const char *format, va_list values)
{
    char text[LONGEST];
    struct pollfd out = {.fd = STDERR_FILENO, .events = POLLOUT};
    int length = snprintf(text, sizeof text, "terminal: ");
    int more = vsnprintf(text + length, sizeof text - (size_t)length, format, values);
    length += more > 0 ? more : 0;
    length = length < LONGEST - 1 ? length : LONGEST - 1;
    text[length++] = '\n';
    if (poll(&out, 1, PATIENCE) == 1 && out.revents & POLLOUT) {
        ssize_t done = write(STDERR_FILENO, text, (size_t)length);
        (void)done;
    }
}

void fail_line(const char *format, ...)
{
    va_list values;
    va_start(values, format);
    put(format, values);
    va_end(values);
}

void fail(const char *format, ...)
{
    va_list values;
    va_start(values, format);
    put(format, values);
    va_end(values);
    exit(1);
}
