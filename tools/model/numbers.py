"""Numbers of calls, of their flags and of errors (docs/MACHINE.md, "Calls"; docs/CALLS.md)."""

from enum import IntEnum


class Errno(IntEnum):
    """The errors that calls answer."""

    ENOENT = 2
    ESRCH = 3
    EINTR = 4
    EBADF = 9
    ECHILD = 10
    EAGAIN = 11
    ENOMEM = 12
    EFAULT = 14
    EEXIST = 17
    EINVAL = 22
    ENFILE = 23
    EMFILE = 24
    EFBIG = 27
    ENOSPC = 28
    ESPIPE = 29
    EPIPE = 32
    ENAMETOOLONG = 36
    ENOSYS = 38
    ENOTSOCK = 88
    EMSGSIZE = 90
    EOPNOTSUPP = 95
    EAFNOSUPPORT = 97
    EADDRINUSE = 98
    EADDRNOTAVAIL = 99
    EISCONN = 106
    ENOTCONN = 107
    ECONNREFUSED = 111


class Number(IntEnum):
    """The numbers in `a7` of calls; those that the manual gives no row are named as Linux for RISC-V names them."""

    EVENTFD2 = 19
    DUP = 23
    DUP3 = 24
    FCNTL = 25
    UNLINKAT = 35
    OPENAT = 56
    CLOSE = 57
    PIPE2 = 59
    LSEEK = 62
    READ = 63
    WRITE = 64
    EXIT = 93
    EXIT_GROUP = 94
    SET_TID_ADDRESS = 96
    FUTEX = 98
    SCHED_YIELD = 124
    KILL = 129
    TGKILL = 131
    RT_SIGACTION = 134
    RT_SIGPROCMASK = 135
    RT_SIGRETURN = 139
    GETPID = 172
    GETPPID = 173
    GETTID = 178
    SOCKET = 198
    SOCKETPAIR = 199
    BIND = 200
    LISTEN = 201
    ACCEPT = 202
    CONNECT = 203
    GETSOCKNAME = 204
    GETPEERNAME = 205
    SETSOCKOPT = 208
    SHUTDOWN = 210
    BRK = 214
    MUNMAP = 215
    CLONE = 220
    MMAP = 222
    WAIT4 = 260


class CloneFlag(IntEnum):
    """The bits of `clone`."""

    VM = 0x100
    FS = 0x200
    FILES = 0x400
    SIGHAND = 0x800
    THREAD = 0x10000
    SYSVSEM = 0x40000
    SETTLS = 0x80000
    PARENT_SETTID = 0x100000
    CHILD_CLEARTID = 0x200000
    CHILD_SETTID = 0x1000000


class OpenFlag(IntEnum):
    """The bits of `openat` beside those that a description keeps; calls that make descriptors have CLOEXEC too."""

    CREAT = 0x40
    EXCL = 0x80
    TRUNC = 0x200
    CLOEXEC = 0x80000


class Command(IntEnum):
    """The commands of `fcntl`."""

    DUPFD = 0
    GETFD = 1
    SETFD = 2
    GETFL = 3
    SETFL = 4
    SETOWN = 8
    GETOWN = 9
    DUPFD_CLOEXEC = 1030


FUTEX_WAIT, FUTEX_WAKE, FUTEX_PRIVATE = 0, 1, 128


def futex_operation(word: int) -> int:
    """A futex's operation without the bit that does nothing."""
    return word & ~FUTEX_PRIVATE
