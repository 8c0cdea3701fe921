/* Finds how many remainders squares leave when they are divided by 8,191. Those of the numbers from 0 to 59,999 are a table
 * of constants, which makes this a program of 120 KB. Two threads take half of it each, and count in 64 KB of heap how
 * often each remainder comes. Main connects to host 1 meanwhile, and sends it what they found.
 * Arguments: `send`, or `listen` for the one on host 1, which writes what it is sent. */
#include "text.h"

enum {
    LISTENING_HOST = 1,
    PORT = 7000,
    BACKLOG = 1,
    THREADS = 2,
    SQUARES = 60000,
    SHARE = SQUARES / THREADS,
    DIVISOR = 8191,
    COUNTERS = 8192, /* of a thread, of four bytes each */
    STACK_BYTES = 4096,
};

#define SQUARE(n) (n) * (n) % DIVISOR
#define TEN(n) SQUARE(n), SQUARE(n + 1), SQUARE(n + 2), SQUARE(n + 3), SQUARE(n + 4), \
    SQUARE(n + 5), SQUARE(n + 6), SQUARE(n + 7), SQUARE(n + 8), SQUARE(n + 9)
#define HUNDRED(n) TEN(n), TEN(n + 10), TEN(n + 20), TEN(n + 30), TEN(n + 40), \
    TEN(n + 50), TEN(n + 60), TEN(n + 70), TEN(n + 80), TEN(n + 90)
#define THOUSAND(n) HUNDRED(n), HUNDRED(n + 100), HUNDRED(n + 200), HUNDRED(n + 300), HUNDRED(n + 400), \
    HUNDRED(n + 500), HUNDRED(n + 600), HUNDRED(n + 700), HUNDRED(n + 800), HUNDRED(n + 900)
#define TEN_THOUSAND(n) THOUSAND(n), THOUSAND(n + 1000), THOUSAND(n + 2000), THOUSAND(n + 3000), THOUSAND(n + 4000), \
    THOUSAND(n + 5000), THOUSAND(n + 6000), THOUSAND(n + 7000), THOUSAND(n + 8000), THOUSAND(n + 9000)

static const unsigned short squares[SQUARES] = {
    TEN_THOUSAND(0u), TEN_THOUSAND(10000u), TEN_THOUSAND(20000u),
    TEN_THOUSAND(30000u), TEN_THOUSAND(40000u), TEN_THOUSAND(50000u),
};

/* What is sent: how many squares were counted, and how many remainders there are among them. */
struct found {
    word squares, remainders;
};

static char stacks[THREADS][STACK_BYTES] __attribute__((aligned(16)));
static volatile word alive[THREADS];
static word (*counters)[COUNTERS];

/* The work of a thread: it counts its share of the squares in its counters. */
static void count_share(word share)
{
    for (word i = share * SHARE; i < (share + 1) * SHARE; i++)
        counters[share][squares[i]]++;
}

/* Puts counters of zero for each thread on the heap, and answers whether there was room for them. */
static int make_counters(void)
{
    word begin = brk(0), end = begin + THREADS * sizeof *counters;
    counters = (void *)begin;
    return brk(end) == end;
}

/* A connection to the one that listens. Where nobody does yet it tries again. */
static word connected(void)
{
    struct address listener = address_of(LISTENING_HOST, PORT);
    word socket = internet_socket(), answer;
    while ((answer = connect(socket, &listener)) == (word)REFUSED)
        yield();
    return is_error(answer) ? answer : socket;
}

static void wait_for_threads(void)
{
    for (word thread = 0; thread < THREADS; thread++) {
        word number;
        while ((number = alive[thread]) != 0)
            futex_wait(&alive[thread], number);
    }
}

static struct found add_up(void)
{
    struct found all = { 0, 0 };
    for (word remainder = 0; remainder < DIVISOR; remainder++) {
        word count = counters[0][remainder] + counters[1][remainder];
        all.squares += count;
        all.remainders += count != 0;
    }
    return all;
}

/* The one that counts and sends. */
static int send(void)
{
    if (!make_counters())
        return 1;
    for (word thread = 0; thread < THREADS; thread++)
        if (is_error(start_thread(count_share, thread, stacks[thread + 1], &alive[thread])))
            return 1;
    word connection = connected();
    if (is_error(connection))
        return 1;
    wait_for_threads();
    struct found all = add_up();
    write_all(connection, (const char *)&all, sizeof all);
    return 0;
}

/* The one that listens, and writes what it is sent. */
static int receive(void)
{
    struct address here = address_of(LISTENING_HOST, PORT);
    word listener = internet_socket();
    if (is_error(bind(listener, &here)) || is_error(listen(listener, BACKLOG)))
        return 1;
    struct found all;
    if (read(accept(listener), &all, sizeof all) != sizeof all)
        return 1;
    char line[64];
    char *to = put_number(line, all.squares, 10, 1);
    to = put_text(to, " squares leave ");
    to = put_number(to, all.remainders, 10, 1);
    to = put_text(to, " remainders of ");
    write_line(line, put_number(to, DIVISOR, 10, 1));
    return 0;
}

int main(int count, char **arguments)
{
    if (count != 2)
        return 1;
    return *arguments[1] == 's' ? send() : receive();
}
