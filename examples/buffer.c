/* A buffer of four numbers between threads: two producers put the numbers from 1 to 600 there, the odd ones and the even
 * ones, and two consumers take them out and add them up. Who finds the buffer full, or empty, waits on a word (futex)
 * until that has changed. */
#include "text.h"

enum {
    PLACES = 4,
    LAST = 600,
    PRODUCERS = 2,
    THREADS = 4,
    STACK_BYTES = 4096,
};

static char stacks[THREADS][STACK_BYTES] __attribute__((aligned(16)));
static volatile word alive[THREADS];
static volatile word level[THREADS], last[THREADS];
static volatile word changes, held, taken;
static word buffer[PLACES];
static word sums[THREADS], counts[THREADS];

static int is_other_at(word wanted, word thread)
{
    for (word other = 0; other < THREADS; other++)
        if (other != thread && level[other] >= wanted)
            return 1;
    return 0;
}

/* One thread at a time, without atomic instructions: the filter lock of G. L. Peterson, Myths about the mutual exclusion
 * problem, 1981. At each level one thread of those that come stays behind. */
static void lock(word thread)
{
    for (word at = 1; at < THREADS; at++) {
        level[thread] = at;
        last[at] = thread;
        while (last[at] == thread && is_other_at(at, thread))
            yield();
    }
}

static void unlock(word thread)
{
    level[thread] = 0;
}

static void tell_change(void)
{
    changes++;
    futex_wake(&changes, THREADS);
}

/* Waits, without the lock, until something has changed. */
static void wait_for_change(word thread)
{
    word seen = changes;
    unlock(thread);
    futex_wait(&changes, seen);
    lock(thread);
}

static void produce(word thread)
{
    for (word number = thread + 1; number <= LAST; number += PRODUCERS) {
        lock(thread);
        while (held == PLACES)
            wait_for_change(thread);
        buffer[held++] = number;
        tell_change();
        unlock(thread);
    }
}

static void consume(word thread)
{
    for (;;) {
        lock(thread);
        while (held == 0 && taken < LAST)
            wait_for_change(thread);
        if (taken == LAST) {
            unlock(thread);
            return;
        }
        taken++;
        sums[thread] += buffer[--held];
        counts[thread]++;
        tell_change();
        unlock(thread);
    }
}

int main(void)
{
    for (word thread = 0; thread < THREADS; thread++)
        if (is_error(start_thread(thread < PRODUCERS ? produce : consume, thread, stacks[thread + 1], &alive[thread])))
            return 1;
    for (word thread = 0; thread < THREADS; thread++) {
        word number;
        while ((number = alive[thread]) != 0)
            futex_wait(&alive[thread], number);
    }
    word sum = 0, count = 0;
    for (word thread = PRODUCERS; thread < THREADS; thread++) {
        sum += sums[thread];
        count += counts[thread];
    }
    char line[64];
    char *to = put_text(line, "taken ");
    to = put_number(to, count, 10, 1);
    to = put_text(to, " numbers, which make ");
    write_line(line, put_number(to, sum, 10, 1));
    return 0;
}
