/* Counts the primes below 2,000 in four threads, a quarter each, the first of which has the most work. They report one after
 * the other: a thread waits on a word (futex) until its turn comes. Main waits until all have ended, and writes the sum. */
#include "text.h"

enum {
    THREADS = 4,
    LIMIT = 2000,
    SHARE = LIMIT / THREADS,
    STACK_BYTES = 4096,
};

static char stacks[THREADS][STACK_BYTES] __attribute__((aligned(16)));
static volatile word alive[THREADS];
static volatile word found[THREADS];
static volatile word turn;

static word is_prime(word number)
{
    for (word divisor = 2; divisor * divisor <= number; divisor++)
        if (number % divisor == 0)
            return 0;
    return number >= 2;
}

/* Writes how many primes a thread, or main in place of thread 0, found from the first number to below the end. */
static void report(word thread, word primes, word first, word end)
{
    char line[64];
    char *to = put_text(line, thread == 0 ? "main" : "thread ");
    if (thread != 0)
        to = put_number(to, thread, 10, 1);
    to = put_text(to, ": ");
    to = put_number(to, primes, 10, 1);
    to = put_text(to, " primes from ");
    to = put_number(to, first, 10, 1);
    to = put_text(to, " to ");
    write_line(line, put_number(to, end - 1, 10, 1));
}

/* The work of a thread: its share of the numbers, the greatest first. */
static void count_share(word share)
{
    word end = LIMIT - share * SHARE, first = end - SHARE;
    for (word number = first; number < end; number++)
        found[share] += is_prime(number);
    word whose;
    while ((whose = turn) != share)
        futex_wait(&turn, whose);
    report(share + 1, found[share], first, end);
    turn = share + 1;
    futex_wake(&turn, THREADS);
}

int main(void)
{
    for (word share = 0; share < THREADS; share++)
        if (start_thread(count_share, share, stacks[share + 1], &alive[share]) >> 31)
            return 1;
    word sum = 0;
    for (word share = 0; share < THREADS; share++) {
        word number;
        while ((number = alive[share]) != 0)
            futex_wait(&alive[share], number);
        sum += found[share];
    }
    report(0, sum, 0, LIMIT);
    return 0;
}
