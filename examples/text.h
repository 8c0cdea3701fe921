/* Lines of text, put together in memory and written in one call. */
#ifndef TEXT_H
#define TEXT_H

#include "syscalls.h"

/* Puts a text, and gives the place behind it. */
static inline char *put_text(char *to, const char *text)
{
    while (*text)
        *to++ = *text++;
    return to;
}

/* Puts a number in at least so many digits, and gives the place behind it. */
static inline char *put_number(char *to, word number, word base, word digits)
{
    char reversed[32];
    word count = 0;
    do
        reversed[count++] = "0123456789ABCDEF"[number % base];
    while ((number /= base) || count < digits);
    while (count)
        *to++ = reversed[--count];
    return to;
}

/* Writes the line from its begin to its end, with a newline behind it. */
static inline void write_line(char *begin, char *end)
{
    *end++ = '\n';
    write_console(begin, end - begin);
}

#endif
