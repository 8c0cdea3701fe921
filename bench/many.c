/* What the calls of several processes cost, a task for each word: `many.elf,TASK,COUNT`. Built with a stock compiler for
 * RISC-V as a guest, and with -DNATIVE for the host itself, where the same calls are Linux's. */
#ifdef NATIVE
#define _GNU_SOURCE
#include <arpa/inet.h>
#include <fcntl.h>
#include <netinet/in.h>
#include <sched.h>
#include <stdlib.h>
#include <string.h>
#include <sys/mman.h>
#include <sys/socket.h>
#include <sys/syscall.h>
#include <sys/wait.h>
#include <unistd.h>
typedef unsigned int word;
static word ask(void) { return syscall(SYS_getpid); }
static word fork_child(void) { return fork(); }
static void end_child(void) { _exit(0); }
static void await_child(void) { wait(0); }
static void make_pipe(word ends[2]) { if (pipe((int *)ends)) exit(1); }
static long get(word end, void *to, word count) { return read(end, to, count); }
static long put(word end, const void *from, word count) { return write(end, from, count); }
static void shut(word end) { close(end); }
static void *pages(word bytes) { return mmap(0, bytes, PROT_READ | PROT_WRITE, MAP_PRIVATE | MAP_ANONYMOUS, -1, 0); }
static void make_pair(word ends[2]) { if (socketpair(AF_UNIX, SOCK_STREAM, 0, (int *)ends)) exit(1); }
static int is_same(const char *a, const char *b) { return !strcmp(a, b); }
static word number_in(const char *text) { return atoi(text); }
#else
#include "../examples/syscalls.h"
static word ask(void) { return call(GETPID, 0, 0, 0, 0); }
static word fork_child(void) { return fork(); }
static void end_child(void) { exit_group(0); }
static void await_child(void) { wait_for_child(0); }
static void make_pipe(word ends[2]) { if (is_error(pipe(ends))) exit_group(1); }
static int get(word end, void *to, word count) { return read(end, to, count); }
static int put(word end, const void *from, word count) { return call(WRITE, end, (word)from, count, 0); }
static void shut(word end) { close(end); }
static void *pages(word bytes) { return (void *)mmap(bytes); }
static void make_pair(word ends[2]) { if (is_error(call(199, 1, STREAM, 0, (word)ends))) exit_group(1); }
static int is_same(const char *a, const char *b) { while (*a && *a == *b) a++, b++; return *a == *b; }
static word number_in(const char *text) { word n = 0; while (*text) n = n * 10 + (*text++ - '0'); return n; }
#endif

enum { PIECE = 65536, PAGE = 4096, PARTNERS = 15, IDLE = 127 };

static char piece[PIECE];

/* So many calls that do nothing. */
static void calls(word count)
{
    while (count--)
        ask();
}

/* So many pieces of 64 KiB from a child to its parent. */
static void transfer(const word ends[2], word count)
{
    if (fork_child() == 0) {
        for (word sent = 0; count != 0; sent = 0, count--)
            while (sent < PIECE)
                sent += put(ends[1], piece + sent, PIECE - sent);
        end_child();
    }
    for (word had = 0; had < count * PIECE;)
        had += get(ends[0], piece, PIECE);
    await_child();
}

/* So many forks, one after the other, of a process with so many KiB that it has written to. */
static void forks(word count, word kibibytes)
{
    volatile char *memory = pages(kibibytes * 1024);
    for (word place = 0; place < kibibytes * 1024; place += PAGE)
        memory[place] = 1;
    while (count--) {
        if (fork_child() == 0)
            end_child();
        await_child();
    }
}

/* Sixteen processes, each of the children joined to the parent by a channel that is full both ways; then all compute. */
static void full(word count)
{
    for (word partner = 0; partner < PARTNERS; partner++) {
        word ends[2];
        make_pair(ends);
        put(ends[0], piece, PIECE);
        put(ends[1], piece, PIECE);
        if (fork_child() == 0)
            break;
    }
    for (volatile word turn = 0; turn < count; turn++)
        ;
}

/* A channel with both ends here; it is full both ways where that is asked for. */
static void make_channel(word ends[2], int is_full)
{
    make_pair(ends);
    for (word side = 0; is_full && side < 2; side++)
        put(ends[side], piece, PIECE);
}

/* So many rounds over 128 processes, a call of the first in each. The others wait: each has a channel with the first, from
 * which it reads, or to which it writes where it is full, and another with itself, 254 in all. */
static void rounds(word count, int is_full)
{
    for (word child = 0; child < IDLE; child++) {
        word ends[2], own[2];
        make_channel(ends, is_full);
        if (fork_child() == 0) {
            make_channel(own, is_full);
            if (is_full)
                put(ends[1], piece, 1);
            else
                get(ends[1], piece, 1);
            end_child();
        }
        shut(ends[1]);
    }
    calls(count);
}

int main(int words, char **word_at)
{
    word ends[2], count = words > 2 ? number_in(word_at[2]) : 1;
    if (words < 3)
        return 1;
    if (is_same(word_at[1], "calls"))
        calls(count);
    if (is_same(word_at[1], "pipe"))
        make_pipe(ends), transfer(ends, count);
    if (is_same(word_at[1], "stream"))
        make_pair(ends), transfer(ends, count);
    if (is_same(word_at[1], "forks64"))
        forks(count, 64);
    if (is_same(word_at[1], "forks8"))
        forks(count, 7168);
    if (is_same(word_at[1], "full"))
        full(count);
    if (is_same(word_at[1], "rounds"))
        rounds(count, 0);
    if (is_same(word_at[1], "rounds-full"))
        rounds(count, 1);
    return 0;
}
