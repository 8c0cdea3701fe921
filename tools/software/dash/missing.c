/* What dash asks for and this machine has not. */
#include <dirent.h>
#include <errno.h>
#include <signal.h>
#include <stddef.h>
#include <sys/resource.h>
#include <sys/stat.h>
#include <sys/types.h>
#include <sys/wait.h>
#include <unistd.h>

static int refuse(void)
{
    errno = ENOSYS;
    return -1;
}

int execve(const char *path, char *const *words, char *const *environment)
{
    return refuse();
}

pid_t vfork(void)
{
    return fork();
}

DIR *opendir(const char *path)
{
    refuse();
    return NULL;
}

struct dirent *readdir(DIR *folder)
{
    return NULL;
}

int closedir(DIR *folder)
{
    return refuse();
}

int chdir(const char *path)
{
    return refuse();
}

pid_t wait3(int *status, int options, struct rusage *used)
{
    return waitpid(-1, status, options);
}

int killpg(pid_t group, int number)
{
    return refuse();
}

pid_t getpgrp(void)
{
    return getpid();
}

uid_t getuid(void)
{
    return 0;
}

uid_t geteuid(void)
{
    return 0;
}

gid_t getgid(void)
{
    return 0;
}

gid_t getegid(void)
{
    return 0;
}

int setuid(uid_t user)
{
    return 0;
}

int setgid(gid_t group)
{
    return 0;
}

int getgroups(int size, gid_t *groups)
{
    return 0;
}

mode_t umask(mode_t mask)
{
    return 0;
}

long sysconf(int which)
{
    return refuse();
}
