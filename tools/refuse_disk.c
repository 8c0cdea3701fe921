/* Makes calls fail that the program which it is loaded into (LD_PRELOAD) makes on its folder of sets: the REFUSED-th, and
 * where REFUSED_ON is set each one after it too. Counted are those with a path in `dmtcp_set` or of it, also of the folder
 * above by way of it, and those with a descriptor that was opened by such a path. A call that fails does nothing, but
 *
 * - a close, which closes all the same;
 * - a write where REFUSED_WRITES is `half`, which leaves half of the bytes written, of an odd number the greater half;
 * - a write where REFUSED_WRITES is `short`, which as the REFUSED-th writes the smaller half of its bytes and says so, if
 *   that is a byte at least; then the write of the rest, if it is the next call, fails.
 *
 * The file REFUSAL gets a line with the kind of each call that failed, or of each call where REFUSED is 0. */
#define _GNU_SOURCE
#include <errno.h>
#include <fcntl.h>
#include <stdarg.h>
#include <stdbool.h>
#include <stdlib.h>
#include <string.h>
#include <sys/stat.h>
#include <sys/syscall.h>
#include <unistd.h>

#define FOLDER "dmtcp_set"
#define FILES 1024

static unsigned long refused, made;
static bool goes_on, is_half, is_short;
static const char *refusal;
static bool of_sets[FILES];
static int cut_short = -1; /* where the call before this one was a short write */

__attribute__((constructor)) static void begin(void)
{
    const char *number = getenv("REFUSED"), *writes = getenv("REFUSED_WRITES");
    refused = number ? strtoul(number, NULL, 10) : 0;
    goes_on = getenv("REFUSED_ON") != NULL;
    is_half = writes && strcmp(writes, "half") == 0;
    is_short = writes && strcmp(writes, "short") == 0;
    refusal = getenv("REFUSAL");
}

static bool is_of_sets(int file)
{
    return file >= 0 && file < FILES && of_sets[file];
}

static bool is_in_folder(const char *path)
{
    size_t length = strlen(FOLDER);
    return path && strncmp(path, FOLDER, length) == 0 && (path[length] == 0 || path[length] == '/');
}

static void note(const char *kind)
{
    int file = refusal ? syscall(SYS_openat, AT_FDCWD, refusal, O_WRONLY | O_CREAT | O_APPEND, 0666) : -1;
    if (file < 0 || syscall(SYS_write, file, kind, strlen(kind)) < 0 || syscall(SYS_write, file, "\n", 1) < 0)
        abort();
    syscall(SYS_close, file);
}

/* Counts a call, and tells whether it is to fail. */
static bool fails(const char *kind, int file)
{
    bool is_rest = cut_short >= 0 && cut_short == file && strcmp(kind, "write") == 0;
    cut_short = -1;
    made++;
    bool is_refused = refused > 0 && (made == refused || (made > refused && goes_on));
    if (is_refused || is_rest || refused == 0)
        note(kind);
    return is_refused || is_rest;
}

static long failed(int error)
{
    errno = error;
    return -1;
}

/* A call that does nothing where it fails, with the answer of the host where it doesn't. */
#define UNLESS_REFUSED(kind, file, error, call) \
    (is_of_sets(file) && fails(kind, file) ? failed(error) : (call))

static int open_at(int folder, const char *path, int flags, mode_t mode)
{
    bool is_ours = is_in_folder(path);
    if (is_ours && fails("open", -1))
        return failed(flags & O_CREAT ? ENOSPC : EIO);
    int file = syscall(SYS_openat, folder, path, flags, mode);
    if (file >= 0 && file < FILES)
        of_sets[file] = is_ours;
    return file;
}

static mode_t mode_in(int flags, va_list rest)
{
    return flags & (O_CREAT | O_TMPFILE) ? va_arg(rest, mode_t) : 0;
}

int open(const char *path, int flags, ...)
{
    va_list rest;
    va_start(rest, flags);
    int file = open_at(AT_FDCWD, path, flags, mode_in(flags, rest));
    va_end(rest);
    return file;
}

int openat(int folder, const char *path, int flags, ...)
{
    va_list rest;
    va_start(rest, flags);
    int file = open_at(folder, path, flags, mode_in(flags, rest));
    va_end(rest);
    return file;
}

int mkdir(const char *path, mode_t mode)
{
    if (is_in_folder(path) && fails("mkdir", -1))
        return failed(ENOSPC);
    return syscall(SYS_mkdirat, AT_FDCWD, path, mode);
}

int close(int file)
{
    bool is_refused = is_of_sets(file) && fails("close", file);
    if (file >= 0 && file < FILES)
        of_sets[file] = false;
    int done = syscall(SYS_close, file);
    return is_refused ? failed(EIO) : done;
}

/* Writes at an offset, or where the file stands if that is less than 0. */
static ssize_t put(int file, const void *bytes, size_t count, off_t at)
{
    return at < 0 ? syscall(SYS_write, file, bytes, count) : syscall(SYS_pwrite64, file, bytes, count, at);
}

static ssize_t write_at(int file, const void *bytes, size_t count, off_t at)
{
    if (!is_of_sets(file) || !fails("write", file))
        return put(file, bytes, count, at);
    bool is_cut_short = is_short && made == refused && count > 1;
    size_t left = is_cut_short ? count / 2 : is_half ? count - count / 2 : 0;
    if (left > 0 && put(file, bytes, left, at) != (ssize_t)left)
        abort();
    if (!is_cut_short)
        return failed(ENOSPC);
    cut_short = file;
    return left;
}

ssize_t write(int file, const void *bytes, size_t count)
{
    return write_at(file, bytes, count, -1);
}

ssize_t pwrite(int file, const void *bytes, size_t count, off_t at)
{
    return at < 0 ? failed(EINVAL) : write_at(file, bytes, count, at);
}

ssize_t read(int file, void *bytes, size_t count)
{
    return UNLESS_REFUSED("read", file, EIO, syscall(SYS_read, file, bytes, count));
}

ssize_t pread(int file, void *bytes, size_t count, off_t at)
{
    return UNLESS_REFUSED("read", file, EIO, syscall(SYS_pread64, file, bytes, count, at));
}

off_t lseek(int file, off_t at, int whence)
{
    return UNLESS_REFUSED("seek", file, EIO, syscall(SYS_lseek, file, at, whence));
}

int statx(int file, const char *path, int flags, unsigned mask, struct statx *told)
{
    if (is_in_folder(path) && fails("stat", -1))
        return failed(EIO);
    return UNLESS_REFUSED("stat", file, EIO, syscall(SYS_statx, file, path, flags, mask, told));
}

int fstat(int file, struct stat *told)
{
    return UNLESS_REFUSED("stat", file, EIO, syscall(SYS_newfstatat, file, "", told, AT_EMPTY_PATH));
}

int ftruncate(int file, off_t length)
{
    return UNLESS_REFUSED("cut", file, EIO, syscall(SYS_ftruncate, file, length));
}

int fsync(int file)
{
    return UNLESS_REFUSED("sync", file, EIO, syscall(SYS_fsync, file));
}

int fdatasync(int file)
{
    return UNLESS_REFUSED("sync", file, EIO, syscall(SYS_fdatasync, file));
}

int flock(int file, int how)
{
    return UNLESS_REFUSED("lock", file, ENOLCK, syscall(SYS_flock, file, how));
}

ssize_t getdents64(int file, void *entries, size_t count)
{
    return UNLESS_REFUSED("list", file, EIO, syscall(SYS_getdents64, file, entries, count));
}

/* The names that the calls have where offsets have 64 bits. */
int open64(const char *, int, ...) __attribute__((alias("open")));
int openat64(int, const char *, int, ...) __attribute__((alias("openat")));
ssize_t pread64(int, void *, size_t, off_t) __attribute__((alias("pread")));
ssize_t pwrite64(int, const void *, size_t, off_t) __attribute__((alias("pwrite")));
off_t lseek64(int, off_t, int) __attribute__((alias("lseek")));
int ftruncate64(int, off_t) __attribute__((alias("ftruncate")));
