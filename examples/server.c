/* Serves sums: of each connection it reads words of four bytes, and answers each with the sum of those that came so far.
 * A child serves each connection. When all clients have gone it writes how many numbers each child added.
 * Arguments: how many clients to wait for. The port is 7000. */
#include "text.h"

enum {
    PORT = 7000,
    BACKLOG = 4,
};

static word number_in(const char *text)
{
    word number = 0;
    while (*text)
        number = number * 10 + (*text++ - '0');
    return number;
}

/* Adds what comes until the other side closes, and answers how many numbers that were. */
static word serve(word connection)
{
    word sum = 0, served = 0, number;
    while (read(connection, &number, sizeof number) == sizeof number) {
        sum += number;
        served++;
        write_all(connection, (const char *)&sum, sizeof sum);
    }
    return served;
}

int main(int count, char **arguments)
{
    struct address here = address_of(0, PORT);
    word clients = count > 1 ? number_in(arguments[1]) : 1;
    word listener = internet_socket();
    if (is_error(bind(listener, &here)) || is_error(listen(listener, BACKLOG)))
        return 1;
    for (word client = 0; client < clients; client++) {
        word connection = accept(listener);
        if (is_error(connection))
            return 1;
        if (fork() == 0) {
            close(listener);
            return serve(connection) & 0xFF;
        }
        close(connection);
    }
    close(listener);
    for (word client = 0; client < clients; client++) {
        word status;
        char line[64];
        wait_for_child(&status);
        char *to = put_text(line, "server: a client sent ");
        to = put_number(to, status >> 8, 10, 1);
        write_line(line, put_text(to, " numbers"));
    }
    return 0;
}
