/* Runs a program (its main is named `run_program`) several times, each in a process of its own, as the words
 * say: `then` stands between two runs of which the second waits for the first, and `into` between two that
 * run side by side with a pipe from the first to the second. The first word of a run is the program's name. */
#include <stdio.h>
#include <stdlib.h>
#include <string.h>
#include <sys/wait.h>
#include <unistd.h>

int run_program(int count, char **words);

enum { INPUT = 0, OUTPUT = 1 };

static void move(int from, int to)
{
    if (from == to)
        return;
    dup2(from, to);
    close(from);
}

/* Begins a run in a child, with the given input and output, of which the parent keeps none. */
static void begin_run(int count, char **words, int input, int output, int unused)
{
    if (fork() == 0) {
        if (unused != INPUT)
            close(unused);
        move(input, INPUT);
        move(output, OUTPUT);
        words[count] = NULL;
        exit(run_program(count, words));
    }
    if (input != INPUT)
        close(input);
    if (output != OUTPUT)
        close(output);
}

/* How many words stand before the next `then` or `into`. */
static int length_of_run(int count, char **words)
{
    int length = 0;
    while (length < count && strcmp(words[length], "then") != 0 && strcmp(words[length], "into") != 0)
        length++;
    return length;
}

/* Waits for all children; tells the greatest of their statuses. */
static int wait_for_all(void)
{
    int status, worst = 0;
    while (waitpid(-1, &status, 0) > 0)
        if (status > worst)
            worst = status;
    return worst;
}

int main(int count, char **words)
{
    int input = INPUT, worst = 0;
    for (count--, words++; count > 0;) {
        int length = length_of_run(count, words), status, ends[2] = { INPUT, OUTPUT };
        int is_piped = length < count && strcmp(words[length], "into") == 0;
        if (is_piped && pipe(ends) != 0)
            return EXIT_FAILURE;
        begin_run(length, words, input, ends[1], ends[0]);
        input = ends[0];
        status = is_piped ? 0 : wait_for_all();
        worst = status > worst ? status : worst;
        count -= length + 1;
        words += length + 1;
    }
    return worst == 0 ? EXIT_SUCCESS : EXIT_FAILURE;
}
