#include <errno.h>
#include <fcntl.h>
#include <grp.h>
#include <linux/audit.h>
#include <linux/filter.h>
#include <linux/seccomp.h>
#include <signal.h>
#include <stddef.h>
#include <stdint.h>
#include <string.h>
#include <sys/mman.h>
#include <sys/prctl.h>
#include <sys/resource.h>
#include <sys/syscall.h>
#include <unistd.h>

#include "confine.h"
#include "fail.h"

/* A bound that is lower already stays. */
static void limit(int what, rlim_t most)
{
    struct rlimit now;
    if (getrlimit(what, &now) != 0) {
        fail("the bounds of a process cannot be read: %s", strerror(errno));
    }
    most = most < now.rlim_max ? most : now.rlim_max;
    if (setrlimit(what, &(struct rlimit){most, most}) != 0) {
        fail("the bounds of a process cannot be set: %s", strerror(errno));
    }
}

void confine_memory(void)
{
    limit(RLIMIT_CORE, 0);
    if (prctl(PR_SET_DUMPABLE, 0, 0, 0, 0) != 0) {
        fail("memory cannot be kept from other processes: %s", strerror(errno));
    }
}

/* A user for each front of each core, out of the numbers that systemd gives to services that have none: whoever runs as
 * nobody can neither end a front nor look into it, and one front not the other. */
enum {
    FIRST_USER = 61184,
    CORES = 2168
};

void confine_user(bool secure)
{
    pid_t core = getppid();
    uid_t own = FIRST_USER + 2 * ((uid_t)core % CORES) + secure;
    if (geteuid() == 0 && (setgroups(0, NULL) != 0 || setresgid(own, own, own) != 0 || setresuid(own, own, own) != 0)) {
        fail("a front cannot become a user of its own: %s", strerror(errno));
    }
    /* A change of the user takes these back, so they come last. */
    confine_memory();
    if (prctl(PR_SET_PDEATHSIG, SIGKILL) != 0 || getppid() != core) {
        fail("a front without the program that started it");
    }
}

#if defined __SANITIZE_ADDRESS__ || defined UNFILTERED
/* The sanitizers, and valgrind, need standard error, files, memory and system calls of their own. */
static void filter(void)
{
}
#else
enum {
    MEMORY = 256 << 20
};

#if defined __x86_64__
#define ARCHITECTURE AUDIT_ARCH_X86_64
#elif defined __aarch64__
#define ARCHITECTURE AUDIT_ARCH_AARCH64
#else
#error "the filter of system calls is not written for this processor"
#endif

#define ALLOW(call) BPF_JUMP(BPF_JMP | BPF_JEQ | BPF_K, SYS_##call, 0, 1), BPF_STMT(BPF_RET | BPF_K, SECCOMP_RET_ALLOW)

/* The same, unless the argument at this place has one of the bits. */
#define ALLOW_WITHOUT(call, place, bits)                                                                               \
    BPF_JUMP(BPF_JMP | BPF_JEQ | BPF_K, SYS_##call, 0, 4),                                                             \
        BPF_STMT(BPF_LD | BPF_W | BPF_ABS, offsetof(struct seccomp_data, args[place])),                                \
        BPF_JUMP(BPF_JMP | BPF_JSET | BPF_K, bits, 0, 1), BPF_STMT(BPF_RET | BPF_K, SECCOMP_RET_KILL_PROCESS),         \
        BPF_STMT(BPF_RET | BPF_K, SECCOMP_RET_ALLOW)

/* What libcoap, OpenSSL and the C library call once the sockets are open. Any other call ends the front. */
static void filter(void)
{
    struct sock_filter steps[] = {
        BPF_STMT(BPF_LD | BPF_W | BPF_ABS, offsetof(struct seccomp_data, arch)),
        BPF_JUMP(BPF_JMP | BPF_JEQ | BPF_K, ARCHITECTURE, 1, 0),
        BPF_STMT(BPF_RET | BPF_K, SECCOMP_RET_KILL_PROCESS),
        BPF_STMT(BPF_LD | BPF_W | BPF_ABS, offsetof(struct seccomp_data, nr)),
        ALLOW(recvmsg),
        ALLOW(sendmsg),
        ALLOW(recvfrom),
        ALLOW(sendto),
        ALLOW(read),
        ALLOW(write),
        ALLOW(close),
#ifdef SYS_poll
        ALLOW(poll),
        ALLOW(epoll_wait),
#else
        /* by which newer processors' C libraries do the same */
        ALLOW(ppoll),
        ALLOW(epoll_pwait),
#endif
        ALLOW(epoll_ctl),
        ALLOW(timerfd_settime),
        ALLOW(clock_gettime),
        ALLOW(gettimeofday),
        ALLOW(getrandom),
        ALLOW(getpid),
        ALLOW(gettid),
        ALLOW(brk),
        ALLOW_WITHOUT(mmap, 2, PROT_EXEC),
        ALLOW(munmap),
        ALLOW(mremap),
        ALLOW(madvise),
        ALLOW(futex),
        ALLOW(rt_sigprocmask),
        ALLOW(rt_sigreturn),
        /* by which the kernel goes on with a wait, when a front that was halted is continued */
        ALLOW(restart_syscall),
        ALLOW(exit),
        ALLOW(exit_group),
        BPF_STMT(BPF_RET | BPF_K, SECCOMP_RET_KILL_PROCESS),
    };
    struct sock_fprog program = {.len = sizeof steps / sizeof *steps, .filter = steps};
    int nothing = open("/dev/null", O_WRONLY | O_CLOEXEC);
    if (nothing < 0 || dup2(nothing, STDERR_FILENO) < 0 || close(nothing) != 0) {
        fail("/dev/null cannot be opened: %s", strerror(errno));
    }
    /* of any kind, also what is shared with nobody */
    limit(RLIMIT_AS, MEMORY);
    limit(RLIMIT_FSIZE, 0);
    if (prctl(PR_SET_SECCOMP, SECCOMP_MODE_FILTER, &program) != 0) {
        fail("no filter of system calls: %s", strerror(errno));
    }
}
#endif

void confine_process(void)
{
    if (prctl(PR_SET_NO_NEW_PRIVS, 1, 0, 0, 0) != 0) {
        fail("a front cannot give up privileges: %s", strerror(errno));
    }
    filter();
}
