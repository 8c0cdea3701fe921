/* Fills the memory that a process may have: pieces of the heap (brk) and mapped pieces (mmap) in turn, each as large as is
 * still granted. It writes a line after each piece, with the checksum so far, and reads everything again at the end. */
#include "text.h"

enum {
    PAGE = 4096,
    LARGEST_PIECE = 128, /* pages */
    STRIDE = 256,        /* bytes from one word that is written to the next */
    PIECES = 64,
};

struct piece {
    word start;
    word pages;
};

static struct piece pieces[PIECES];
static char line[64];

/* The start of so many new pages of the heap, 0 where they are refused: the break is then the old one. */
static word grow_heap(word pages)
{
    word old = brk(0);
    return brk(old + pages * PAGE) == old ? 0 : old;
}

/* The start of so many mapped pages that can be read and written, 0 where they are refused. */
static word map_pages(word pages)
{
    word start = mmap(pages * PAGE);
    return start % PAGE ? 0 : start;
}

/* A word for each place: no two places near each other have the same. */
static word mixed(word address)
{
    return (address ^ address >> 15) * 0x2C1B3C6D;
}

static void fill(const struct piece *piece)
{
    for (word at = piece->start; at != piece->start + piece->pages * PAGE; at += STRIDE)
        *(volatile word *)at = mixed(at);
}

/* The checksum after one more piece, as it stands in memory. */
static word sum_with(word sum, const struct piece *piece)
{
    for (word at = piece->start; at != piece->start + piece->pages * PAGE; at += STRIDE)
        sum = (sum << 5 | sum >> 27) ^ *(volatile word *)at;
    return sum;
}

/* A line of what was filled, how many pages stand by now, and their checksum. */
static void say(const char *what, word pages, word sum)
{
    char *end = put_text(line, what);
    end = put_number(end, pages, 10, 1);
    end = put_text(end, " pages, checksum ");
    write_line(line, put_number(end, sum, 16, 8));
}

int main(void)
{
    word count = 0, pages = 0, sum = 0, size = LARGEST_PIECE;
    while (size > 0 && count < PIECES) {
        word on_heap = count % 2 == 0;
        word start = on_heap ? grow_heap(size) : map_pages(size);
        if (start == 0) {
            size /= 2;
            continue;
        }
        struct piece *piece = &pieces[count++];
        piece->start = start;
        piece->pages = size;
        fill(piece);
        pages += size;
        sum = sum_with(sum, piece);
        say(on_heap ? "heap: " : "map: ", pages, sum);
    }
    word again = 0;
    for (word i = 0; i < count; i++)
        again = sum_with(again, &pieces[i]);
    say("all: ", pages, again);
    return again != sum;
}
