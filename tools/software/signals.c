/* Handlers and masks of signals over the calls of the machine. */
#include "machine.h"

#include <signal.h>
#include <stdint.h>
#include <unistd.h>

enum { BLOCK_THERE = 0, UNBLOCK_THERE = 1, SET_THERE = 2, NUMBERS = 32 };

/* An action as the machine has it. */
struct action {
    uint32_t handler, flags, mask, no_mask;
};

static _sig_func_ptr handlers[NUMBERS];
static volatile unsigned handled;

/* Bit s of a set of the library, and bit s - 1 of one of the machine, are signal s. */
static uint32_t mask_there(sigset_t set)
{
    return set >> 1;
}

static void handle(int number)
{
    handled++;
    handlers[number](number);
}

int sigaction(int number, const struct sigaction *new, struct sigaction *old)
{
    struct action given = { 0 }, found;
    _sig_func_ptr before = number > 0 && number < NUMBERS ? handlers[number] : SIG_DFL;
    if (new) {
        int is_handled = new->sa_handler != SIG_DFL && new->sa_handler != SIG_IGN;
        given.handler = (uint32_t)(is_handled ? handle : new->sa_handler);
        given.mask = mask_there(new->sa_mask);
    }
    if (told(ask(RT_SIGACTION, number, new ? (long)&given : 0, (long)&found, MASK_BYTES)) < 0)
        return -1;
    if (new)
        handlers[number] = new->sa_handler;
    if (old) {
        old->sa_handler = found.handler == (uint32_t)handle ? before : (_sig_func_ptr)found.handler;
        old->sa_mask = found.mask << 1;
        old->sa_flags = 0;
    }
    return 0;
}

_sig_func_ptr signal(int number, _sig_func_ptr handler)
{
    struct sigaction new = { .sa_handler = handler }, old;
    return sigaction(number, &new, &old) == 0 ? old.sa_handler : SIG_ERR;
}

int raise(int number)
{
    return kill(getpid(), number);
}

int sigprocmask(int how, const sigset_t *set, sigset_t *old)
{
    uint32_t given[2] = { set ? mask_there(*set) : 0, 0 }, found[2];
    long how_there = how == SIG_BLOCK ? BLOCK_THERE : how == SIG_UNBLOCK ? UNBLOCK_THERE : SET_THERE;
    long answer = ask(RT_SIGPROCMASK, how_there, set ? (long)given : 0, (long)found, MASK_BYTES);
    if (answer == 0 && old)
        *old = found[0] << 1;
    return told(answer);
}

/* No call of the machine waits for a signal: this one gives its turn away until a handler was entered. */
int sigsuspend(const sigset_t *set)
{
    sigset_t before;
    unsigned handled_before = handled;
    sigprocmask(SIG_SETMASK, set, &before);
    while (handled == handled_before)
        ask(SCHED_YIELD, 0, 0, 0, 0);
    sigprocmask(SIG_SETMASK, &before, NULL);
    errno = EINTR;
    return -1;
}
