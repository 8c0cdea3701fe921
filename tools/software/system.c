/* What picolibc asks of a system, over the calls of this machine. What the machine lacks fails, or, where a
 * program can do without, does nothing. */
#include "machine.h"

#include <fcntl.h>
#include <signal.h>
#include <stdarg.h>
#include <stdint.h>
#include <stdio.h>
#include <stdlib.h>
#include <string.h>
#include <sys/stat.h>
#include <sys/times.h>
#include <sys/time.h>
#include <sys/wait.h>
#include <unistd.h>
#include <utime.h>

enum {
    MACHINE_EXCL = 0x80,
    MACHINE_NONBLOCK = 0x800,
    MACHINE_CLOEXEC = 0x80000,
    MACHINE_DUPFD_CLOEXEC = 1030,
    PAGE = 4096,
    BLOCK = 512,
    STEP = 65536,
};

/* The library's flags that the machine knows by another number. */
static long flags_there(int flags)
{
    long there = flags & (O_ACCMODE | O_APPEND | O_CREAT | O_TRUNC);
    there |= flags & O_EXCL ? MACHINE_EXCL : 0;
    there |= flags & O_NONBLOCK ? MACHINE_NONBLOCK : 0;
    return there | (flags & O_CLOEXEC ? MACHINE_CLOEXEC : 0);
}

/* There is one folder, the current one, which is the root too. */
static const char *name_in_folder(const char *path)
{
    if (path[0] == '.' && path[1] == '/')
        path++;
    return path[0] == '/' ? path + 1 : path;
}

int open(const char *path, int flags, ...)
{
    return told(ask(OPENAT, HERE, (long)name_in_folder(path), flags_there(flags), 0));
}

int close(int descriptor)
{
    return told(ask(CLOSE, descriptor, 0, 0, 0));
}

ssize_t read(int descriptor, void *to, size_t count)
{
    return told(ask(READ, descriptor, (long)to, count, 0));
}

ssize_t write(int descriptor, const void *from, size_t count)
{
    return told(ask(WRITE, descriptor, (long)from, count, 0));
}

off_t lseek(int descriptor, off_t offset, int whence)
{
    return told(ask(LSEEK, descriptor, offset, whence, 0));
}

int unlink(const char *path)
{
    return told(ask(UNLINKAT, HERE, (long)name_in_folder(path), 0, 0));
}

int rename(const char *from, const char *to)
{
    return told(-MACHINE_ENOSYS);
}

int dup(int descriptor)
{
    return told(ask(DUP, descriptor, 0, 0, 0));
}

int dup2(int from, int to)
{
    return from == to ? to : told(ask(DUP3, from, to, 0, 0));
}

int fcntl(int descriptor, int command, ...)
{
    va_list more;
    long argument;
    va_start(more, command);
    argument = va_arg(more, long);
    va_end(more);
    command = command == F_DUPFD_CLOEXEC ? MACHINE_DUPFD_CLOEXEC : command;
    return told(ask(FCNTL, descriptor, command, command == F_SETFL ? flags_there(argument) : argument, 0));
}

int pipe(int ends[2])
{
    return told(ask(PIPE2, (long)ends, 0, 0, 0));
}

/* What can be sought in is a file, all else is shown as a pipe. Nothing has a time, an owner or rights. */
int fstat(int descriptor, struct stat *found)
{
    long place = ask(LSEEK, descriptor, 0, SEEK_CUR, 0);
    memset(found, 0, sizeof *found);
    if (place == -EBADF)
        return told(place);
    found->st_mode = (place < 0 ? S_IFIFO : S_IFREG) | S_IRUSR | S_IWUSR;
    found->st_nlink = 1;
    found->st_blksize = PAGE;
    if (place < 0)
        return 0;
    found->st_size = ask(LSEEK, descriptor, 0, SEEK_END, 0);
    found->st_blocks = (found->st_size + BLOCK - 1) / BLOCK;
    ask(LSEEK, descriptor, place, SEEK_SET, 0);
    return 0;
}

int stat(const char *path, struct stat *found)
{
    int answer, descriptor = open(path, O_RDONLY);
    if (descriptor < 0)
        return -1;
    answer = fstat(descriptor, found);
    close(descriptor);
    return answer;
}

int lstat(const char *path, struct stat *found)
{
    return stat(path, found);
}

char *getcwd(char *place, size_t size)
{
    return size == 0 ? NULL : memcpy(place, "", 1);
}

int fsync(int descriptor)
{
    return 0;
}

int fchmod(int descriptor, mode_t mode)
{
    return 0;
}

int fchown(int descriptor, uid_t owner, gid_t group)
{
    return 0;
}

int utime(const char *path, const struct utimbuf *times)
{
    return 0;
}

int access(const char *path, int rights)
{
    struct stat found;
    return stat(path, &found);
}

int isatty(int descriptor)
{
    errno = ENOTTY;
    return 0;
}

/* More memory behind the program's, or less. The break moves in larger steps. */
void *sbrk(ptrdiff_t more)
{
    static uintptr_t end, limit;
    uintptr_t old;
    if (end == 0)
        end = limit = ask(BRK, 0, 0, 0, 0);
    old = end;
    if (old + more > limit) {
        uintptr_t wanted = (old + more + STEP - 1) & -STEP;
        if ((uintptr_t)ask(BRK, wanted, 0, 0, 0) != wanted) {
            errno = ENOMEM;
            return (void *)-1;
        }
        limit = wanted;
    }
    end = old + more;
    return (void *)old;
}

void _exit(int status)
{
    ask(EXIT_GROUP, status, 0, 0, 0);
    __builtin_unreachable();
}

pid_t getpid(void)
{
    return ask(GETPID, 0, 0, 0, 0);
}

pid_t getppid(void)
{
    return ask(GETPPID, 0, 0, 0, 0);
}

pid_t fork(void)
{
    return told(ask(CLONE, FORK, 0, 0, 0));
}

pid_t waitpid(pid_t which, int *status, int options)
{
    return told(ask(WAIT4, which, (long)status, options, 0));
}

int kill(pid_t process, int signal)
{
    return told(ask(KILL, process, signal, 0, 0));
}

/* There is no clock: every run of a program has the same time, so that it does the same. */
int gettimeofday(struct timeval *now, void *zone)
{
    *now = (struct timeval) { 0 };
    return 0;
}

unsigned sleep(unsigned seconds)
{
    return 0;
}

int usleep(useconds_t microseconds)
{
    return 0;
}

clock_t times(struct tms *used)
{
    *used = (struct tms) { 0 };
    return 0;
}
