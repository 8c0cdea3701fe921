/* Where a program's C begins and ends, and its standard streams. */
#include <stdio.h>
#include <stdio-bufio.h>
#include <stdlib.h>
#include <unistd.h>

void __libc_init_array(void);
int main(int count, char **arguments, char **environment);

#define STREAM(name, number, way, how)                                                               \
    static char name##_bytes[BUFSIZ];                                                                \
    static struct __file_bufio name##_file =                                                         \
        FDEV_SETUP_BUFIO(number, name##_bytes, BUFSIZ, read, write, lseek, close, way, how);         \
    FILE *const name = &name##_file.xfile.cfile.file

STREAM(stdin, 0, __SRD, 0);
STREAM(stdout, 1, __SWR, __BLBF);
STREAM(stderr, 2, __SWR, __BLBF);

static void flush_streams(void)
{
    fflush(stdout);
    fflush(stderr);
}

void begin(int count, char **arguments)
{
    __libc_init_array();
    atexit(flush_streams);
    exit(main(count, arguments, arguments + count + 1));
}
