/* Sends the numbers from its first argument to its second to the server on host 0, one by one, and writes each sum that
 * comes back. Where nobody listens there yet it tries again. */
#include "text.h"

enum {
    PORT = 7000,
};

static word number_in(const char *text)
{
    word number = 0;
    while (*text)
        number = number * 10 + (*text++ - '0');
    return number;
}

static word connected(void)
{
    struct address server = address_of(0, PORT);
    word socket = internet_socket(), answer;
    while ((answer = connect(socket, &server)) == (word)REFUSED)
        yield();
    return is_error(answer) ? answer : socket;
}

int main(int count, char **arguments)
{
    if (count != 3)
        return 1;
    word first = number_in(arguments[1]), last = number_in(arguments[2]);
    word server = connected();
    if (is_error(server))
        return 1;
    for (word number = first; number <= last; number++) {
        word sum;
        write_all(server, (const char *)&number, sizeof number);
        if (read(server, &sum, sizeof sum) != sizeof sum)
            return 1;
        char line[64];
        char *to = put_number(line, first, 10, 1);
        to = put_text(to, " to ");
        to = put_number(to, number, 10, 1);
        to = put_text(to, " make ");
        write_line(line, put_number(to, sum, 10, 1));
    }
    return 0;
}
