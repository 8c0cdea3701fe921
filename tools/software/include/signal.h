/* The library's signals by the machine's numbers. */
#ifndef MACHINE_SIGNAL_H
#define MACHINE_SIGNAL_H

#include_next <signal.h>

#undef SIGBUS
#undef SIGCHLD
#undef SIGCONT
#undef SIGSTOP
#undef SIGSYS
#undef SIGTSTP
#undef SIGURG
#undef SIGUSR1
#undef SIGUSR2
#define SIGBUS 7
#define SIGUSR1 10
#define SIGUSR2 12
#define SIGCHLD 17
#define SIGCONT 18
#define SIGSTOP 19
#define SIGTSTP 20
#define SIGURG 23
#define SIGSYS 31

#endif
