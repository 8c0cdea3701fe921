/* Adds the numbers of a table in writable memory, and writes their sum. */
#include "text.h"

static word numbers[] = {1, 20, 300, 4000, 50000, 600000};
static char line[16];

int main(void)
{
    word sum = 0;
    for (word i = 0; i < sizeof numbers / sizeof numbers[0]; i++) {
        sum += numbers[i];
        numbers[i] = sum;
    }
    write_line(line, put_number(line, sum, 10, 1));
    return 0;
}
