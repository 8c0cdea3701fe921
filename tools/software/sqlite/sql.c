/* Puts the statements of a file to a database, and writes the answers as the shell of SQLite does: sql DATABASE FILE */
#include <stdio.h>
#include <stdlib.h>

#include "sqlite3.h"

enum { MOST_BYTES = 65536, USAGE = 2 };

sqlite3_vfs *sqlite3_demovfs(void);

int sqlite3_os_init(void)
{
    return sqlite3_vfs_register(sqlite3_demovfs(), 1);
}

int sqlite3_os_end(void)
{
    return SQLITE_OK;
}

static int write_row(void *nothing, int count, char **values, char **names)
{
    for (int column = 0; column < count; column++)
        printf("%s%s", column == 0 ? "" : "|", values[column] ? values[column] : "");
    putchar('\n');
    return 0;
}

static const char *text_of(const char *name)
{
    static char text[MOST_BYTES];
    FILE *file = fopen(name, "r");
    size_t length = file ? fread(text, 1, sizeof text - 1, file) : 0;
    if (file)
        fclose(file);
    return length == 0 || length == sizeof text - 1 ? NULL : text;
}

int main(int count, char **words)
{
    sqlite3 *database;
    char *why = NULL;
    const char *statements = count == 3 ? text_of(words[2]) : NULL;
    if (!statements)
        return USAGE;
    if (sqlite3_open(words[1], &database) != SQLITE_OK)
        return EXIT_FAILURE;
    if (sqlite3_exec(database, statements, write_row, NULL, &why) != SQLITE_OK)
        printf("error: %s\n", why);
    return sqlite3_close(database) == SQLITE_OK && !why ? EXIT_SUCCESS : EXIT_FAILURE;
}
