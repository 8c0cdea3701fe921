/* The machine's calls (docs/MACHINE.md, docs/CALLS.md) as the layer under a C library makes them. */
#ifndef MACHINE_H
#define MACHINE_H

#include <errno.h>

enum call_number {
    DUP = 23,
    DUP3 = 24,
    FCNTL = 25,
    UNLINKAT = 35,
    OPENAT = 56,
    CLOSE = 57,
    PIPE2 = 59,
    LSEEK = 62,
    READ = 63,
    WRITE = 64,
    EXIT_GROUP = 94,
    SCHED_YIELD = 124,
    KILL = 129,
    RT_SIGACTION = 134,
    RT_SIGPROCMASK = 135,
    GETPID = 172,
    GETPPID = 173,
    BRK = 214,
    CLONE = 220,
    WAIT4 = 260,
};

enum { HERE = -100, FORK = 17, MASK_BYTES = 8, MACHINE_ENOSYS = 38, MACHINE_ENAMETOOLONG = 36 };

/* What the machine answers: the negative of an error's number, or what the call gives. */
static inline long ask(enum call_number number, long a, long b, long c, long d)
{
    register long a0 __asm__("a0") = a;
    register long a1 __asm__("a1") = b;
    register long a2 __asm__("a2") = c;
    register long a3 __asm__("a3") = d;
    register long a4 __asm__("a4") = 0;
    register long a7 __asm__("a7") = number;
    __asm__ volatile("ecall" : "+r"(a0) : "r"(a1), "r"(a2), "r"(a3), "r"(a4), "r"(a7) : "memory");
    return a0;
}

/* The answer as a C library's caller wants it: -1 for an error, whose number is then in errno. */
static inline long told(long answer)
{
    if (answer >= 0)
        return answer;
    errno = answer == -MACHINE_ENOSYS ? ENOSYS : answer == -MACHINE_ENAMETOOLONG ? ENAMETOOLONG : -answer;
    return -1;
}

#endif
