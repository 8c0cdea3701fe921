"""Snippets that move the break, map and unmap pages, and touch what is there then."""

from guests.arguments import wild
from guests.builder import A0, FREE, T1, T2, Area, Guest, Operand, Register, Word
from guests.events import Mark, Tag, tag_of
from guests.layout import HEAP_END, LINK, MAPPINGS, MAPPINGS_END, PAGE
from guests.numbers import ANONYMOUS, PRIVATE, Call
from guests.routines import mix_memory, mix_registers
from riscv import immediate_word, jalr_word, load_word, register_word, shift_word, store_word

STEPS = [0, 1, 3, 100, PAGE - 1, PAGE, PAGE + 1, 3 * PAGE + 17, 20 * PAGE]
FLAGS = PRIVATE | ANONYMOUS
KEPT = 9  # the register that has a place while calls are made
MOST_PAGES = 2048


def ask_break(guest: Guest, break_: Operand) -> None:
    """Asks for a break, and tells which one."""
    guest.mark(Mark.ASKED_BREAK, break_)
    guest.call(Call.BRK, break_)


def move_break(guest: Guest) -> None:
    """Moves the break up and down by odd amounts, and touches the bytes around it."""
    rng = guest.rng
    for _ in range(rng.randint(1, 4)):
        ask_break(guest, Word(guest.heap, rng.choice(STEPS)))
        if rng.random() < 0.6:
            touch_heap(guest)


def touch_heap(guest: Guest) -> None:
    """Reads and writes the last bytes below the break, where there are some. a0 is the break."""
    text = guest.text
    past = text.fresh("heap")
    text.number(T1, guest.heap)
    text.put(load_word("lw", T1, 0, T1), immediate_word("addi", T1, T1, 4))
    text.branch("bltu", A0, T1, past)
    offset = -guest.rng.randint(1, 4)
    text.put(load_word("lbu", guest.rng.choice(FREE[9:]), offset, A0), store_word("sb", A0, offset, A0))
    text.label(past)
    mix_registers(guest)


def odd_break(guest: Guest) -> None:
    """Asks for a break below its start, at the end of the heap, beyond it, or for more pages than there may be."""
    rng = guest.rng
    ask_break(guest, rng.choice([
        0, Word(guest.heap, -1), HEAP_END - 1, HEAP_END, HEAP_END + 1, 0xFFFFFFFF, wild(guest),
        Word(guest.heap, MOST_PAGES * PAGE), Word(guest.heap, (MOST_PAGES - 64) * PAGE),
    ]))


def zeros_again(guest: Guest) -> None:
    """Writes to the heap, lowers the break within a page or below it, raises it again and reads what is there."""
    rng = guest.rng
    ask_break(guest, Word(guest.heap, 2 * PAGE))
    past = guest.text.fresh("heap")
    guest.text.number(T1, guest.heap)
    guest.text.put(load_word("lw", T1, 0, T1))
    guest.text.branch("beq", A0, T1, past)
    for at in (0, 1000, 2044):
        guest.text.put(store_word("sw", A0, at, T1))
    guest.text.label(past)
    ask_break(guest, Word(guest.heap, rng.choice([0, 1, 999, 1002, PAGE, PAGE + 1])))
    ask_break(guest, Word(guest.heap, 2 * PAGE))
    guest.text.number(T1, guest.heap)
    guest.text.put(load_word("lw", T1, 0, T1))
    past = guest.text.fresh("heap")
    guest.text.branch("beq", A0, T1, past)
    for at in (0, 1000, 2044):
        guest.text.put(load_word("lw", rng.choice(FREE[9:]), at, T1))
    guest.text.label(past)
    mix_registers(guest)


def unmap(guest: Guest) -> None:
    """Unmaps pages near the ends of the mappings, from a page's start or not."""
    rng = guest.rng
    starts = [MAPPINGS, MAPPINGS + PAGE, MAPPINGS + 2 * PAGE, MAPPINGS - PAGE, MAPPINGS_END - PAGE, MAPPINGS_END, 0]
    lengths = [0, 1, PAGE, PAGE + 1, 2 * PAGE, 0xFFFFFFFF, MAPPINGS_END - MAPPINGS, 0x80000000]
    guest.call(Call.MUNMAP, rng.choice(starts) + rng.choice([0, 0, 0, 1, 0x800]), rng.choice(lengths))


def map_pages(guest: Guest, pages: int, rights: int) -> None:
    """Maps pages, and keeps their place, or -12 where there is no room, in KEPT."""
    length = pages * PAGE - guest.rng.choice([0, 0, 1, PAGE - 1])
    guest.ask(Call.MMAP, wild(guest), length, rights, FLAGS, 0xFFFFFFFF, 0)
    guest.text.copy(KEPT, A0)
    guest.record(tag_of(Tag.CALL, Call.MMAP), Register(A0))


def holes(guest: Guest) -> None:
    """Maps a range, takes pages out of its middle, and maps ranges that fit into the hole or don't."""
    rng = guest.rng
    size = rng.randint(4, 9)
    map_pages(guest, size, 3)
    first, count = rng.randrange(size), rng.randint(1, 3)
    guest.add(KEPT, first * PAGE)
    guest.call(Call.MUNMAP, Register(KEPT), count * PAGE - rng.choice([0, 1]))
    for pages in rng.sample(range(1, 5), 2):
        guest.call(Call.MMAP, 0, pages * PAGE, rng.randrange(8), FLAGS, 0, 0)
    if rng.random() < 0.7:
        guest.call(Call.MUNMAP, MAPPINGS, rng.choice([3, 20]) * PAGE)


def use_mapping(guest: Guest) -> None:
    """Writes to a new mapping, reads it, unmaps it and maps it again: then it holds zeros."""
    for _ in range(2):
        map_pages(guest, 2, 3)
        past = guest.text.fresh("mapping")
        guest.text.branch("blt", KEPT, 0, past)
        guest.text.put(load_word("lw", 20, 0, KEPT), store_word("sw", KEPT, 0, KEPT), load_word("lw", 21, 0, KEPT))
        guest.text.label(past)
        mix_registers(guest)
        guest.call(Call.MUNMAP, Register(KEPT), 2 * PAGE)


def run_mapping(guest: Guest) -> None:
    """Writes a routine into a new mapping and runs it, where the mapping can be executed."""
    map_pages(guest, 1, 7)
    past = guest.text.fresh("mapping")
    guest.text.branch("blt", KEPT, 0, past)
    for at, word in enumerate([immediate_word("addi", A0, A0, 77), jalr_word(0, 0, LINK)]):
        guest.text.number(T2, word)
        guest.text.put(store_word("sw", T2, 4 * at, KEPT))
    guest.text.put(jalr_word(LINK, 0, KEPT))
    guest.text.label(past)
    guest.record(tag_of(Tag.MARK, Mark.REWRITTEN), Register(A0))
    guest.call(Call.MUNMAP, Register(KEPT), PAGE)


def fill(guest: Guest) -> None:
    """Maps half as many pages each time there is no room for more, until not one is left. Then all is unmapped."""
    rights = guest.rng.randrange(4)
    top, less, done = (guest.text.fresh("fill") for _ in range(3))
    pages, total = 20, 21
    guest.text.number(pages, 1024)
    guest.text.number(total, 0)
    guest.text.label(top)
    guest.text.put(shift_word("slli", 11, pages, 12))
    guest.ask(Call.MMAP, 0, Register(11), rights, FLAGS, 0, 0)
    guest.record(tag_of(Tag.CALL, Call.MMAP), Register(A0))
    guest.text.branch("blt", A0, 0, less)
    guest.text.put(register_word("add", total, total, pages))
    guest.text.jump(top)
    guest.text.label(less)
    guest.text.put(shift_word("srli", pages, pages, 1))
    guest.text.branch("bne", pages, 0, top)
    guest.text.label(done)
    guest.mark(Mark.FILLED, Register(total))
    ask_break(guest, Word(guest.heap, guest.rng.choice([1, PAGE, 2 * PAGE])))
    guest.call(Call.MUNMAP, MAPPINGS, MAPPINGS_END - MAPPINGS)


def mix_data(guest: Guest) -> None:
    """Mixes the words of the areas' heads, which other threads write too."""
    for area in guest.rng.sample(guest.areas, 2):
        mix_memory(guest, area + Area.CHECKSUM, 2)


SNIPPETS = [move_break, move_break, odd_break, zeros_again, unmap, holes, use_mapping, run_mapping, mix_data]
