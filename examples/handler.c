/* Sends itself a signal while it counts. The signal's handler sends a second one, whose handler runs inside it.
 * The program's own status is 7. */
#include "text.h"

enum {
    SIGUSR1 = 10,
    SIGUSR2 = 12,
    LAST = 3,
    STATUS = 7,
};

static volatile word handled;

/* Some thousand instructions that no compiler can leave out. */
static void work(void)
{
    for (volatile word i = 0; i < 2000; i++)
        ;
}

static void say(const char *what, word number)
{
    char line[64];
    char *end = put_text(line, what);
    write_line(line, put_number(end, number, 10, 1));
}

/* Sends a signal to the only thread of this process. */
static void raise(int signal)
{
    word self = gettid();
    if (tgkill(self, self, signal) != 0)
        exit_group(1);
}

static void handle_inner(int signal)
{
    say("  inner handler, signal ", signal);
    handled++;
}

static void handle(int signal)
{
    say(" handler begins, signal ", signal);
    work();
    raise(SIGUSR2);
    work();
    handled++;
    say(" handler ends, handled ", handled);
}

int main(void)
{
    static const struct action outer = {handle, 0, {0, 0}}, inner = {handle_inner, 0, {0, 0}};
    if (rt_sigaction(SIGUSR1, &outer, 0) != 0 || rt_sigaction(SIGUSR2, &inner, 0) != 0)
        return 1;
    for (word count = 1; count <= LAST; count++) {
        say("count ", count);
        if (count == 2)
            raise(SIGUSR1);
    }
    return handled == 2 ? STATUS : 1;
}
