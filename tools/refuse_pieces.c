/* Refuses memory to a program that was built unproved (`rt try`), into which it is loaded (LD_PRELOAD): the piece that the
 * program asks for as its REFUSED-th; then the file REFUSAL is made. ALLOC_AT and REALLOC_AT are where the program has its functions for pieces
 * (rattle_alloc and rattle_realloc, in hexadecimal, of the file); their code is written over before the program starts. */
#define _GNU_SOURCE
#include <fcntl.h>
#include <link.h>
#include <stdbool.h>
#include <stdint.h>
#include <stdlib.h>
#include <string.h>
#include <sys/mman.h>
#include <unistd.h>

/* What the program expects: whether there is a piece, and where. */
struct piece {
    uint64_t is_there;
    void *place;
};

static unsigned long refused, asked;
static const char *refusal;

static bool is_refused(void)
{
    if (++asked != refused)
        return false;
    close(open(refusal, O_WRONLY | O_CREAT, 0666));
    return true;
}

static struct piece piece_at(void *place)
{
    static char nowhere;
    return (struct piece){place != NULL, place != NULL ? place : &nowhere};
}

static struct piece alloc_or_refuse(size_t size, size_t at_least)
{
    return piece_at(is_refused() ? NULL : malloc(size != 0 ? size : at_least));
}

static struct piece realloc_or_refuse(void *old, size_t old_size, size_t size, size_t at_least)
{
    (void)old_size;
    return piece_at(is_refused() ? NULL : realloc(old, size != 0 ? size : at_least));
}

static int note_start(struct dl_phdr_info *info, size_t size, void *start)
{
    (void)size;
    *(uintptr_t *)start = info->dlpi_addr;
    return 1;
}

/* Has the function at this place of the file go on at another. */
static void write_over(uintptr_t start, const char *place, void *other)
{
    uint8_t code[12] = {0x48, 0xb8, 0, 0, 0, 0, 0, 0, 0, 0, 0xff, 0xe0}; /* movabs other, %rax; jmp *%rax */
    uint8_t *function = (uint8_t *)(start + strtoul(place, NULL, 16));
    uintptr_t page = (uintptr_t)function & ~(uintptr_t)4095;
    memcpy(code + 2, &other, sizeof other);
    if (mprotect((void *)page, 8192, PROT_READ | PROT_WRITE | PROT_EXEC) != 0)
        _exit(99);
    memcpy(function, code, sizeof code);
}

__attribute__((constructor)) static void begin(void)
{
    uintptr_t start = 0;
    const char *number = getenv("REFUSED"), *alloc_at = getenv("ALLOC_AT"), *realloc_at = getenv("REALLOC_AT");
    refusal = getenv("REFUSAL");
    if (refusal == NULL || number == NULL || alloc_at == NULL || realloc_at == NULL)
        return;
    refused = strtoul(number, NULL, 10);
    dl_iterate_phdr(note_start, &start);
    write_over(start, alloc_at, (void *)alloc_or_refuse);
    write_over(start, realloc_at, (void *)realloc_or_refuse);
}
