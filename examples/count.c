/* Writes the numbers from 1 to 500, a line each, with some work before each. */
#include "text.h"

static char line[16];

/* Some thousand instructions that no compiler can leave out. */
static void work(void)
{
    for (volatile word i = 0; i < 400; i++)
        ;
}

int main(void)
{
    for (word count = 1; count <= 500; count++) {
        work();
        write_line(line, put_number(line, count, 10, 1));
    }
    return 0;
}
