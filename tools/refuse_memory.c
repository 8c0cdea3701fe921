/* Refuses memory to the program that it is loaded into (LD_PRELOAD): the piece that the program itself asks for as its
 * REFUSED-th, and where REFUSED_ON is set each one after it too. Pieces that a library asks for are not counted. The file
 * REFUSAL is made at the first refusal. */
#define _GNU_SOURCE
#include <errno.h>
#include <fcntl.h>
#include <link.h>
#include <stdbool.h>
#include <stdint.h>
#include <stdlib.h>
#include <unistd.h>

extern void *__libc_malloc(size_t size);
extern void *__libc_realloc(void *old, size_t size);

static uintptr_t program_start, program_end;
static unsigned long refused, asked;
static bool goes_on;
static const char *refusal;

/* The first object is the program. */
static int note_program(struct dl_phdr_info *info, size_t size, void *data)
{
    (void)size, (void)data;
    program_start = UINTPTR_MAX;
    for (int i = 0; i < info->dlpi_phnum; i++) {
        const ElfW(Phdr) *segment = &info->dlpi_phdr[i];
        uintptr_t start = info->dlpi_addr + segment->p_vaddr;
        if (segment->p_type != PT_LOAD)
            continue;
        if (start < program_start)
            program_start = start;
        if (start + segment->p_memsz > program_end)
            program_end = start + segment->p_memsz;
    }
    return 1;
}

__attribute__((constructor)) static void begin(void)
{
    const char *number = getenv("REFUSED");
    refused = number ? strtoul(number, NULL, 10) : 0;
    goes_on = getenv("REFUSED_ON") != NULL;
    refusal = getenv("REFUSAL");
    dl_iterate_phdr(note_program, NULL);
}

static bool is_refused(void *caller)
{
    uintptr_t place = (uintptr_t)caller;
    if (refused == 0 || place < program_start || place >= program_end)
        return false;
    asked++;
    if (asked < refused || (asked > refused && !goes_on))
        return false;
    if (asked == refused && refusal)
        close(open(refusal, O_WRONLY | O_CREAT, 0666));
    errno = ENOMEM;
    return true;
}

void *malloc(size_t size)
{
    return is_refused(__builtin_return_address(0)) ? NULL : __libc_malloc(size);
}

void *realloc(void *old, size_t size)
{
    return is_refused(__builtin_return_address(0)) ? NULL : __libc_realloc(old, size);
}
