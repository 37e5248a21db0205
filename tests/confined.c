/* What a front of the example terminal can still ask the system for: each call by its number, with arguments that do
 * nothing, in a process that is confined as a front is. All but those that a front needs must end it. Exit status 1: one
 * gets through that must not, or a front would be ended for one that it needs.
 *
 * With -DSIMULATED and -Wl,--wrap=prctl the filter is followed here, and not by the kernel. */
#include <linux/audit.h>
#include <linux/filter.h>
#include <linux/seccomp.h>
#include <signal.h>
#include <stdarg.h>
#include <stdbool.h>
#include <stdint.h>
#include <stdio.h>
#include <string.h>
#include <sys/mman.h>
#include <sys/prctl.h>
#include <sys/syscall.h>
#include <sys/wait.h>
#include <unistd.h>

#include "../examples/terminal/confine.h"

enum {
    LAST = 600
};

/* What libcoap, OpenSSL and the C library ask for once a front listens, each with its reason in confine.c. */
static const int NEEDED[] = {
    SYS_recvmsg,      SYS_sendmsg,         SYS_recvfrom,  SYS_sendto,          SYS_read,
    SYS_write,        SYS_close,           SYS_epoll_ctl, SYS_timerfd_settime, SYS_clock_gettime,
    SYS_gettimeofday, SYS_getrandom,       SYS_getpid,    SYS_gettid,          SYS_brk,
    SYS_munmap,       SYS_mremap,          SYS_madvise,   SYS_futex,           SYS_rt_sigprocmask,
    SYS_rt_sigreturn, SYS_restart_syscall, SYS_exit,      SYS_exit_group,
#ifdef SYS_poll
    SYS_poll,         SYS_epoll_wait,
#else
    SYS_ppoll,        SYS_epoll_pwait,
#endif
};

static bool is_needed(int call)
{
    for (size_t i = 0; i < sizeof NEEDED / sizeof *NEEDED; i++) {
        if (NEEDED[i] == call) {
            return true;
        }
    }
    return false;
}

/* uretprobe and uprobe, by which a probe of the kernel's comes back: they pass every filter, and do nothing elsewhere. */
static bool is_the_kernels(int call)
{
#ifdef __x86_64__
    return call == 335 || call == 336;
#else
    return call < 0;
#endif
}

#ifdef SIMULATED
/* An emulator of another processor takes no filter of system calls. There the filter's steps are followed as the kernel
 * follows them; prctl is wrapped, and keeps them. */
static struct sock_filter steps[256];
static size_t many;

int __wrap_prctl(int what, ...)
{
    va_list values;
    va_start(values, what);
    if (what == PR_SET_SECCOMP && va_arg(values, int) == SECCOMP_MODE_FILTER) {
        const struct sock_fprog *program = va_arg(values, const struct sock_fprog *);
        many = program->len;
        memcpy(steps, program->filter, many * sizeof *steps);
    }
    va_end(values);
    return 0;
}

/* What the filter says of a call. A step that is not known here lets it through, which the test sees. */
static uint32_t verdict_of(const struct seccomp_data *data)
{
    uint32_t word = 0;
    for (size_t at = 0; at < many; at++) {
        const struct sock_filter *s = &steps[at];
        switch (s->code) {
        case BPF_LD | BPF_W | BPF_ABS:
            memcpy(&word, (const uint8_t *)data + s->k, sizeof word);
            break;
        case BPF_JMP | BPF_JEQ | BPF_K:
            at += word == s->k ? s->jt : s->jf;
            break;
        case BPF_JMP | BPF_JSET | BPF_K:
            at += word & s->k ? s->jt : s->jf;
            break;
        case BPF_RET | BPF_K:
            return s->k;
        default:
            return SECCOMP_RET_ALLOW;
        }
    }
    return SECCOMP_RET_ALLOW;
}

static int end_by(uint32_t architecture, long call, long third)
{
    struct seccomp_data data = {.nr = (int)call, .arch = architecture, .args = {0, 0, (uint64_t)third}};
    if (many == 0) {
        confine_process();
    }
    return verdict_of(&data) == SECCOMP_RET_KILL_PROCESS ? SIGSYS : 0;
}

static int end_of(long call, long third)
{
#ifdef __aarch64__
    return end_by(AUDIT_ARCH_AARCH64, call, third);
#else
    return end_by(AUDIT_ARCH_X86_64, call, third);
#endif
}

/* The calls of the same processor's 32 bits, by their numbers. */
static bool other_calls_end(void)
{
    bool all = true;
    for (int call = 0; call < LAST; call++) {
        all = all && end_by(AUDIT_ARCH_I386, call, 0) == SIGSYS && end_by(AUDIT_ARCH_ARM, call, 0) == SIGSYS;
    }
    return all;
}
#else
/* The signal that ends a confined process at a call, or 0. Of mmap the third argument says what the memory is for. */
static int end_of(long call, long third)
{
    int status = 0;
    pid_t child = fork();
    if (child == 0) {
        /* A call that gets through may wait for ever. */
        alarm(5);
        confine_process();
        syscall(call, -1L, -1L, third, -1L, -1L, -1L);
        _exit(0);
    }
    bool ended = waitpid(child, &status, 0) == child && WIFSIGNALED(status) && WTERMSIG(status) != SIGALRM;
    return ended ? WTERMSIG(status) : 0;
}

/* One call of the same processor's 32 bits: 1 is exit, and for the others write. */
static bool other_calls_end(void)
{
#ifdef __x86_64__
    int status = 0;
    pid_t child = fork();
    if (child == 0) {
        confine_process();
        long result;
        __asm__ volatile("int $0x80" : "=a"(result) : "a"(1L) : "memory", "r8", "r9", "r10", "r11");
        _exit(0);
    }
    return waitpid(child, &status, 0) == child && WIFSIGNALED(status);
#else
    return true;
#endif
}
#endif

static int expect(const char *what, bool right)
{
    if (!right) {
        printf("confined: %s\n", what);
    }
    return !right;
}

int main(void)
{
    char name[40];
    int faults = 0;
    for (int call = 0; call < LAST; call++) {
        if (call != SYS_mmap) {
            int end = end_of(call, -1);
            snprintf(name, sizeof name, "call %d", call);
            faults += expect(name, is_needed(call) ? end != SIGSYS : end != 0 || is_the_kernels(call));
        }
    }
    faults += expect("memory", end_of(SYS_mmap, PROT_READ | PROT_WRITE) == 0);
    faults += expect("memory that can be executed", end_of(SYS_mmap, PROT_READ | PROT_EXEC) == SIGSYS);
    faults += expect("a call of 32 bits", other_calls_end());
#ifdef __x86_64__
    faults += expect("a call of x32", end_of(0x40000000L | SYS_getpid, -1) == SIGSYS);
#endif
    return faults > 0;
}
