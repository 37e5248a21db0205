#include <errno.h>
#include <stdbool.h>
#include <stdio.h>
#include <string.h>
#include <sys/timerfd.h>
#include <time.h>
#include <unistd.h>

#include "clock.h"
#include "fail.h"

uint32_t clock_now(const char *file)
{
    unsigned long seconds;
    if (file == NULL) {
        return (uint32_t)time(NULL);
    }
    FILE *f = fopen(file, "re");
    if (f == NULL) {
        fail("%s cannot be read: %s", file, strerror(errno));
    }
    if (fscanf(f, "%10lu", &seconds) != 1 || seconds > UINT32_MAX) {
        fail("%s has no number of seconds", file);
    }
    fclose(f);
    return (uint32_t)seconds;
}

static int64_t milliseconds(clockid_t clock)
{
    struct timespec t = {0};
    clock_gettime(clock, &t);
    return (int64_t)t.tv_sec * 1000 + t.tv_nsec / 1000000;
}

int64_t clock_steady(void)
{
    return milliseconds(CLOCK_BOOTTIME);
}

/* How far the system's clock was before the steady one, at most. */
static int64_t ahead;

/* Arms the watch again, and gives how far the system's clock is before the steady one. */
static int64_t arm(int watch)
{
    /* The timer itself never comes. */
    struct itimerspec never = {.it_value.tv_sec = (time_t)1 << 40};
    timerfd_settime(watch, TFD_TIMER_ABSTIME | TFD_TIMER_CANCEL_ON_SET, &never, NULL);
    return milliseconds(CLOCK_REALTIME) - clock_steady();
}

int clock_watch(void)
{
    int watch = timerfd_create(CLOCK_REALTIME, TFD_CLOEXEC | TFD_NONBLOCK);
    if (watch < 0) {
        fail("the clock cannot be watched: %s", strerror(errno));
    }
    ahead = arm(watch);
    return watch;
}

bool clock_went_back(int watch)
{
    enum {
        STEP = 500
    };
    uint64_t times;
    if (read(watch, &times, sizeof times) < 0 && errno != ECANCELED) {
        return false;
    }
    int64_t now = arm(watch);
    bool back = now < ahead - STEP;
    ahead = back || now > ahead ? now : ahead;
    return back;
}
