/* Five processes in a row, with a pipe between each two: the first writes the numbers from 2 to 500, each of the next three
 * keeps the first number that comes and passes on all that it doesn't divide, and the last writes what is left: the numbers
 * that none of 2, 3 and 5 divides. Each then waits for the next one, which is its child. */
#include "text.h"

enum {
    LIMIT = 500,
    SIEVES = 3,
};

/* One number, or 0 where no more will come. */
static word next_number(void)
{
    word number, had = 0;
    while (had < sizeof number) {
        word came = read(INPUT, (char *)&number + had, sizeof number - had);
        if (came == 0 || is_error(came))
            return 0;
        had += came;
    }
    return number;
}

static void pass_on(word number)
{
    write_all(OUTPUT, (const char *)&number, sizeof number);
}

static void sieve(void)
{
    word prime = next_number(), number;
    while ((number = next_number()) != 0)
        if (number % prime != 0)
            pass_on(number);
}

static void write_numbers(void)
{
    char line[16];
    word number;
    while ((number = next_number()) != 0)
        write_line(line, put_number(line, number, 10, 1));
}

/* Forks a process that reads what this one writes from now on, and answers 0 there. */
static word fork_reader(void)
{
    word ends[2];
    if (is_error(pipe(ends)))
        exit_group(1);
    word child = fork();
    if (is_error(child))
        exit_group(1);
    if (child == 0)
        move_descriptor(ends[0], INPUT);
    else
        move_descriptor(ends[1], OUTPUT);
    close(ends[child == 0 ? 1 : 0]);
    return child;
}

/* The processes behind this one, each the child of the one before. */
static void run_stage(word stage)
{
    if (stage > SIEVES) {
        write_numbers();
        exit_group(0);
    }
    if (fork_reader() == 0)
        run_stage(stage + 1);
    if (stage == 0)
        for (word number = 2; number <= LIMIT; number++)
            pass_on(number);
    else
        sieve();
    close(OUTPUT);
    word status;
    wait_for_child(&status);
    exit_group(status >> 8);
}

int main(void)
{
    run_stage(0);
    return 0;
}
