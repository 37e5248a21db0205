/* How many instructions a call takes: `start_counter()` once, then `counted(call)`.
 * On x86-64 the program runs under callgrind, else on a Cortex-M under qemu-system-arm; bench/worst.sh says how. */
#ifndef TILLERCLOVER_BENCH_COUNTER_H
#define TILLERCLOVER_BENCH_COUNTER_H

#include <stdint.h>
#include <stdio.h>
#include <stdlib.h>
#include <string.h>

#if defined __x86_64__
/* Under callgrind, which counts inside the library's functions and writes a file when it is asked to; the file says the sum. */
#include <valgrind/callgrind.h>

static uint64_t counted(void (*call)(void))
{
    static unsigned dumps;
    char path[512], line[512];
    unsigned long sum = 0;
    CALLGRIND_ZERO_STATS;
    call();
    CALLGRIND_DUMP_STATS;
    snprintf(path, sizeof path, "%s.%u", getenv("DUMPS"), ++dumps);
    FILE *file = fopen(path, "r");
    while (file && fgets(line, sizeof line, file)) {
        sscanf(line, "totals: %lu", &sum);
    }
    if (!file || sum == 0) {
        printf("nothing was counted; bench/worst.sh runs this\n");
        exit(2);
    }
    fclose(file);
    remove(path);
    return sum;
}

static void start_counter(void)
{
}
#else
/* A Cortex-M under qemu-system-arm with -icount shift=8: an instruction takes 256 ns, a tick of the timer 40 ns. */
enum {
    TICK_NS = 40,
    INSTRUCTION_NS = 256,
    WRAP = 0xFFFFFF
};
static volatile uint32_t *const SYSTICK = (volatile uint32_t *)0xE000E010;

static void nothing(void)
{
}

static uint64_t passed(void (*volatile call)(void))
{
    uint32_t before = SYSTICK[2];
    call();
    uint64_t ticks = (before - SYSTICK[2]) & WRAP;
    return (ticks * TICK_NS + INSTRUCTION_NS / 2) / INSTRUCTION_NS;
}

/* Without what the counter takes itself. */
static uint64_t counted(void (*call)(void))
{
    uint64_t none = passed(nothing);
    return passed(call) - none;
}

static void start_counter(void)
{
    SYSTICK[1] = WRAP;
    SYSTICK[2] = 0;
    SYSTICK[0] = 5;
}
#endif

#endif
