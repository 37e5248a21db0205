/* A Cortex-M without an operating system, for tests: the first words that the processor reads, and a start of C. What the
 * program prints, reads and ends with goes through semihosting, to the emulator. */
#include <stdint.h>
#include <stdlib.h>
#include <unistd.h>

/* of cortex-m.ld, and of newlib's semihosting */
extern uint32_t stack_top[], bss_start[], bss_end[];
void initialise_monitor_handles(void);
int main(void);

/* newlib calls them at an exit; there are no constructors */
void _init(void)
{
}

void _fini(void)
{
}

static void fault(void)
{
    _exit(3);
}

void start(void);

void start(void)
{
#ifdef __ARM_FP
    /* the floating-point unit is off at first */
    *(volatile uint32_t *)0xE000ED88 |= UINT32_C(15) << 20;
#endif
    for (uint32_t *word = bss_start; word < bss_end; word++) {
        *word = 0;
    }
    initialise_monitor_handles();
    exit(main());
}

struct vectors {
    uint32_t *stack;
    void (*handlers[15])(void);
};

/* the stack, the start, and the faults: non-maskable, hard, memory, bus, usage, secure */
__attribute__((section(".vectors"), used)) static const struct vectors FIRST_WORDS = {
    stack_top, {start, fault, fault, fault, fault, fault, fault}};
