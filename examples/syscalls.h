/* The machine's calls for programs without a library (docs/MACHINE.md, "Calls"). Each answers the negative of an error. */
#ifndef SYSCALLS_H
#define SYSCALLS_H

typedef unsigned int word;

enum call_number {
    DUP3 = 24,
    UNLINKAT = 35,
    OPENAT = 56,
    CLOSE = 57,
    PIPE2 = 59,
    READ = 63,
    WRITE = 64,
    EXIT_GROUP = 94,
    FUTEX = 98,
    SCHED_YIELD = 124,
    TGKILL = 131,
    RT_SIGACTION = 134,
    GETPID = 172,
    GETTID = 178,
    SOCKET = 198,
    BIND = 200,
    LISTEN = 201,
    ACCEPT = 202,
    CONNECT = 203,
    BRK = 214,
    CLONE = 220,
    MMAP = 222,
    WAIT4 = 260,
};

enum {
    INPUT = 0,
    CONSOLE = 1,
    OUTPUT = 1,
    FUTEX_WAIT = 0,
    FUTEX_WAKE = 1,
    READ_AND_WRITE = 3,
    PRIVATE_AND_ANONYMOUS = 0x22,
    MASK_BYTES = 8,
    HERE = -100,
    WRITE_ONLY = 1,
    CREATE = 0x40,
    TRUNCATE = 0x200,
    APPEND = 0x400,
    FORK = 17,
    ANY_CHILD = -1,
    INTERNET = 2,
    STREAM = 1,
    REFUSED = -111,
};

/* What a process does on a signal. */
struct action {
    void (*handler)(int);
    word flags;
    word mask[2];
};

static inline word call(enum call_number number, word a, word b, word c, word d)
{
    register word a0 __asm__("a0") = a;
    register word a1 __asm__("a1") = b;
    register word a2 __asm__("a2") = c;
    register word a3 __asm__("a3") = d;
    register word a7 __asm__("a7") = number;
    __asm__ volatile("ecall" : "+r"(a0) : "r"(a1), "r"(a2), "r"(a3), "r"(a7) : "memory");
    return a0;
}

/* Ends the process with all its threads. */
static inline void exit_group(word status)
{
    call(EXIT_GROUP, status, 0, 0, 0);
}

/* Writes on the console, and ends the process with status 1 where not all of it is taken. */
static inline void write_console(const char *text, word length)
{
    if (call(WRITE, CONSOLE, (word)text, length, 0) != length)
        exit_group(1);
}

/* The number of the thread that asks; that of a process's first thread is the process's own. */
static inline word gettid(void)
{
    return call(GETTID, 0, 0, 0, 0);
}

/* The break after it was moved, or the old one where that is refused. */
static inline word brk(word address)
{
    return call(BRK, address, 0, 0, 0);
}

/* So many new bytes that can be read and written; an answer that is no multiple of a page is an error. */
static inline word mmap(word length)
{
    return call(MMAP, 0, length, READ_AND_WRITE, PRIVATE_AND_ANONYMOUS);
}

/* Waits at the word until it is woken, unless the word isn't `value` any more. */
static inline word futex_wait(volatile word *place, word value)
{
    return call(FUTEX, (word)place, FUTEX_WAIT, value, 0);
}

/* Wakes up to `count` threads that wait at the word. */
static inline word futex_wake(volatile word *place, word count)
{
    return call(FUTEX, (word)place, FUTEX_WAKE, count, 0);
}

static inline word tgkill(word process, word thread, int signal)
{
    return call(TGKILL, process, thread, signal, 0);
}

static inline word rt_sigaction(int signal, const struct action *new, struct action *old)
{
    return call(RT_SIGACTION, signal, (word)new, (word)old, MASK_BYTES);
}

/* What a call answers where it failed. */
static inline int is_error(word answer)
{
    return (int)answer < 0;
}

/* A child that goes on from here with a copy of the memory, in which the answer is 0; here it is the child's number. */
static inline word fork(void)
{
    return call(CLONE, FORK, 0, 0, 0);
}

/* Waits until a child has ended, and answers its number. */
static inline word wait_for_child(word *status)
{
    return call(WAIT4, ANY_CHILD, (word)status, 0, 0);
}

/* Both ends of a new pipe: the first is read, the second is written. */
static inline word pipe(word ends[2])
{
    return call(PIPE2, (word)ends, 0, 0, 0);
}

static inline word open(const char *name, word flags)
{
    return call(OPENAT, HERE, (word)name, flags, 0);
}

static inline word remove_file(const char *name)
{
    return call(UNLINKAT, HERE, (word)name, 0, 0);
}

static inline void close(word descriptor)
{
    call(CLOSE, descriptor, 0, 0, 0);
}

/* From here on the second descriptor is what the first one is, which is closed. */
static inline void move_descriptor(word from, word to)
{
    if (from == to)
        return;
    call(DUP3, from, to, 0, 0);
    close(from);
}

/* How many bytes came, 0 where no more will, or an error. */
static inline word read(word descriptor, void *to, word count)
{
    return call(READ, descriptor, (word)to, count, 0);
}

/* Writes all of it, in as many calls as it takes. */
static inline void write_all(word descriptor, const char *text, word length)
{
    while (length != 0) {
        word written = call(WRITE, descriptor, (word)text, length, 0);
        if (is_error(written))
            exit_group(1);
        text += written;
        length -= written;
    }
}

/* An internet address: host 0 is 10.0.0.1, host 1 is 10.0.0.2, and so on. */
struct address {
    unsigned short family;
    unsigned char port[2];
    unsigned char host[4];
    unsigned char zeros[8];
};

static inline struct address address_of(word host, word port)
{
    return (struct address) {
        .family = INTERNET, .port = { port >> 8, port }, .host = { 10, 0, 0, host + 1 },
    };
}

static inline word internet_socket(void)
{
    return call(SOCKET, INTERNET, STREAM, 0, 0);
}

static inline word bind(word socket, const struct address *address)
{
    return call(BIND, socket, (word)address, sizeof *address, 0);
}

static inline word listen(word socket, word backlog)
{
    return call(LISTEN, socket, backlog, 0, 0);
}

/* The next connection, for which it waits. */
static inline word accept(word listener)
{
    return call(ACCEPT, listener, 0, 0, 0);
}

static inline word connect(word socket, const struct address *address)
{
    return call(CONNECT, socket, (word)address, sizeof *address, 0);
}

static inline void yield(void)
{
    call(SCHED_YIELD, 0, 0, 0, 0);
}

/* In start.S: a thread that calls body(argument) and ends. `alive` holds its number until then, and 0 afterwards. */
word start_thread(void (*body)(word), word argument, void *stack_end, volatile word *alive);

#endif
