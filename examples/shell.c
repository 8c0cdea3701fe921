/* A small shell, which does what the file `script` says, a line at a time. A line is a row of commands with `|` between
 * them; each runs in a process of its own, with what the one before it writes as its input. `< FILE` and `> FILE` behind
 * a command take its input from a file and its output to one, `>> FILE` puts it behind what the file has. The commands:
 * `echo WORD..`, `cat`, `upper`, `count` (lines and bytes), `remove FILE`. */
#include "text.h"

enum {
    SCRIPT_BYTES = 2048,
    WORDS = 32,
};

static char script[SCRIPT_BYTES + 1];

/* A command with its words, and where its input comes from and its output goes to. */
struct command {
    char *words[WORDS];
    word count;
    const char *input, *output;
    word output_flags;
};

static int is_same(const char *a, const char *b)
{
    while (*a && *a == *b)
        a++, b++;
    return *a == *b;
}

static word length_of(const char *text)
{
    word length = 0;
    while (text[length])
        length++;
    return length;
}

static void say(const char *text)
{
    write_all(OUTPUT, text, length_of(text));
}

static int fail(const char *what, const char *name)
{
    char line[96];
    char *to = put_text(line, "shell: ");
    to = put_text(to, what);
    to = put_text(to, " ");
    write_line(line, put_text(to, name));
    return 1;
}

static int echo(struct command *command)
{
    for (word at = 1; at < command->count; at++) {
        say(command->words[at]);
        say(at + 1 < command->count ? " " : "\n");
    }
    return 0;
}

/* Writes its input, with small letters made big where that is asked for. */
static int copy(int is_upper)
{
    char bytes[256];
    word count;
    while ((count = read(INPUT, bytes, sizeof bytes)) != 0) {
        if (is_error(count))
            return 1;
        for (word at = 0; is_upper && at < count; at++)
            if (bytes[at] >= 'a' && bytes[at] <= 'z')
                bytes[at] -= 'a' - 'A';
        write_all(OUTPUT, bytes, count);
    }
    return 0;
}

static int count_input(void)
{
    char bytes[256];
    word count, lines = 0, total = 0;
    while ((count = read(INPUT, bytes, sizeof bytes)) != 0) {
        if (is_error(count))
            return 1;
        for (word at = 0; at < count; at++)
            lines += bytes[at] == '\n';
        total += count;
    }
    char line[48];
    char *to = put_number(line, lines, 10, 1);
    to = put_text(to, " lines, ");
    to = put_number(to, total, 10, 1);
    to = put_text(to, " bytes\n");
    write_all(OUTPUT, line, to - line);
    return 0;
}

static int run(struct command *command)
{
    if (command->count == 0)
        return 0;
    const char *name = command->words[0];
    if (is_same(name, "echo"))
        return echo(command);
    if (is_same(name, "cat"))
        return copy(0);
    if (is_same(name, "upper"))
        return copy(1);
    if (is_same(name, "count"))
        return count_input();
    if (is_same(name, "remove") && command->count == 2)
        return is_error(remove_file(command->words[1])) ? fail("no file", command->words[1]) : 0;
    return fail("no command", name);
}

/* Takes input and output to where the command says, and runs it. */
static void run_redirected(struct command *command)
{
    if (command->input) {
        word file = open(command->input, 0);
        if (is_error(file))
            exit_group(fail("no file", command->input));
        move_descriptor(file, INPUT);
    }
    if (command->output) {
        word file = open(command->output, WRITE_ONLY | CREATE | command->output_flags);
        if (is_error(file))
            exit_group(fail("can't write", command->output));
        move_descriptor(file, OUTPUT);
    }
    exit_group(run(command));
}

/* The next word of a line, of which the place behind it is kept; none at its end. */
static char *next_word(char **place)
{
    char *at = *place;
    while (*at == ' ')
        at++;
    if (!*at)
        return 0;
    char *begin = at;
    while (*at && *at != ' ')
        at++;
    if (*at)
        *at++ = 0;
    *place = at;
    return begin;
}

/* Reads a command up to `|` or the line's end, and tells whether another follows. */
static int read_command(char **place, struct command *command)
{
    command->count = 0;
    command->input = command->output = 0;
    for (char *text; (text = next_word(place)) != 0;) {
        if (is_same(text, "|"))
            return 1;
        if (is_same(text, "<")) {
            command->input = next_word(place);
        } else if (is_same(text, ">") || is_same(text, ">>")) {
            command->output_flags = text[1] ? APPEND : TRUNCATE;
            command->output = next_word(place);
        } else if (command->count < WORDS) {
            command->words[command->count++] = text;
        }
    }
    return 0;
}

/* Runs the commands of a line, and waits for all of them. */
static void run_line(char *line)
{
    struct command command;
    word before = 0, children = 0, status, worst = 0;
    for (int follows = 1; follows;) {
        word ends[2] = { 0, 0 };
        follows = read_command(&line, &command);
        if (follows && is_error(pipe(ends)))
            exit_group(1);
        word child = fork();
        if (is_error(child))
            exit_group(1);
        if (child == 0) {
            move_descriptor(before, INPUT);
            if (follows) {
                close(ends[0]);
                move_descriptor(ends[1], OUTPUT);
            }
            run_redirected(&command);
        }
        children++;
        if (before)
            close(before);
        if (follows)
            close(ends[1]);
        before = ends[0];
    }
    while (children--) {
        wait_for_child(&status);
        if (status > worst)
            worst = status;
    }
    if (worst)
        say("shell: a command failed\n");
}

int main(void)
{
    word file = open("script", 0);
    if (is_error(file))
        return fail("no file", "script");
    word length = read(file, script, SCRIPT_BYTES);
    close(file);
    script[length] = 0;
    for (char *line = script; *line;) {
        char *end = line;
        while (*end && *end != '\n')
            end++;
        char *next = *end ? end + 1 : end;
        *end = 0;
        if (*line) {
            say("$ ");
            say(line);
            say("\n");
            run_line(line);
        }
        line = next;
    }
    return 0;
}
