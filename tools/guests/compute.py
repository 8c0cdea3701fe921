"""Snippets that compute: instructions in a row, loads and stores, loops, and code that is rewritten."""

from guests.builder import A0, FREE, T1, T2, SCRATCH_BYTES, Guest, Register
from guests.events import Mark, Tag, tag_of
from guests.layout import LINK, PAGE, Code
from guests.routines import mix_memory, mix_registers
from riscv import (
    BRANCH, FENCE, IMMEDIATE, LOAD, REGISTER, SHIFT, STORE, branch_word, immediate_word, jalr_word, load_word,
    register_word, shift_word, store_word, u_type,
)

EDGES = [0, 1, 2, 31, 32, 0x7FF, 0x800, 0xFFFF, 0x7FFFFFFF, 0x80000000, 0x80000001, 0xFFFF8000, 0xFFFFFFFE, 0xFFFFFFFF]
QUANTUM = 4096


def number(guest: Guest) -> int:
    return guest.rng.choice(EDGES) if guest.rng.random() < 0.5 else guest.rng.getrandbits(32)


def random_word(guest: Guest) -> int:
    """One instruction that goes on behind itself and changes nothing but a free register."""
    rng, rd, rs1, rs2 = guest.rng, guest.rng.choice(FREE), guest.rng.randrange(32), guest.rng.randrange(32)
    name = rng.choice([*REGISTER, *IMMEDIATE, *SHIFT, "lui", "auipc", "fence"])
    if name in REGISTER:
        return register_word(name, rd, rs1, rs2)
    if name in IMMEDIATE:
        return immediate_word(name, rd, rs1, rng.choice([0, 1, -1, 2047, -2048, rng.getrandbits(12)]))
    if name in SHIFT:
        return shift_word(name, rd, rs1, rng.randrange(32))
    if name == "fence":
        return FENCE | rs2 << 20 | rs1 << 15 | rd << 7
    return u_type(rng.getrandbits(20), rd, 0x37 if name == "lui" else 0x17)


def compute(guest: Guest) -> None:
    """Numbers into some registers, and random instructions, over some of which branches go."""
    rng = guest.rng
    for register in rng.sample(FREE, rng.randint(1, 5)):
        guest.text.number(register, number(guest))
    for _ in range(rng.randint(3, 20)):
        if rng.random() < 0.2:
            guest.text.put(branch_word(rng.choice(list(BRANCH)), rng.choice(FREE), rng.choice(FREE), 8))
        guest.text.put(random_word(guest))
    if rng.random() < 0.5:
        mix_registers(guest)


def move(guest: Guest) -> None:
    """Loads from and stores to the scratch bytes, at any alignment."""
    rng = guest.rng
    guest.text.number(T1, guest.scratch)
    for _ in range(rng.randint(2, 12)):
        name = rng.choice([*LOAD, *STORE])
        at = rng.randrange(SCRATCH_BYTES - 3)
        if name in LOAD:
            guest.text.put(load_word(name, rng.choice([0, *FREE]), at, T1))
        else:
            guest.text.put(store_word(name, rng.choice(FREE), at, T1))
    mix_memory(guest, guest.scratch + rng.randrange(4), rng.randint(1, SCRATCH_BYTES // 4 - 1))


def move_across(guest: Guest) -> None:
    """Loads and stores across two pages which have the right that each needs."""
    pages = guest.layout.strip
    pairs = list(zip(pages, pages[1:]))
    for right, names in ((4, LOAD), (2, STORE)):
        for _, upper in [pair for pair in pairs if pair[0].can(right) and pair[1].can(right)]:
            guest.text.number(T1, upper.address)
            for name in names:
                guest.text.put(_access(guest, name, -guest.rng.randrange(5)))
    mix_registers(guest)


def _access(guest: Guest, name: str, at: int) -> int:
    register = guest.rng.choice(FREE)
    return load_word(name, register, at, T1) if name in LOAD else store_word(name, register, at, T1)


def loop(guest: Guest) -> None:
    """A loop, which runs past a quantum as often as not."""
    rng = guest.rng
    body = [random_word(guest) for _ in range(rng.randint(1, 6))]
    each = len(body) + 2
    rounds = rng.choice([rng.randint(2, 60), (QUANTUM + rng.randint(-8, 8)) // each, rng.randint(500, 1500)])
    if not guest.takes_instructions(rounds * each):
        return
    guest.text.number(T2, rounds)
    top = guest.text.fresh("loop")
    guest.text.label(top)
    guest.text.put(*body, immediate_word("addi", T2, T2, -1))
    guest.text.branch("bne", T2, 0, top)
    guest.mark(Mark.LOOPED, rounds)
    mix_registers(guest)


def rewrite(guest: Guest) -> None:
    """Writes a routine into a page of code, runs it, and changes some of its bytes and runs it again."""
    rng = guest.rng
    page = guest.layout.page_with(rng, 7)
    at = page.address + 4 * rng.randrange(32, 900)
    guest.text.number(T1, at)
    for word, offset in ((random_a0_word(guest), 0), (random_a0_word(guest), 4), (jalr_word(0, 0, LINK), 8)):
        guest.text.number(T2, word)
        guest.text.put(store_word("sw", T2, offset, T1))
    for name in rng.sample(list(STORE), 2):
        guest.text.number(T1, at)
        guest.text.put(jalr_word(LINK, 0, T1))
        guest.record(tag_of(Tag.MARK, Mark.REWRITTEN), Register(A0))
        guest.text.number(T1, at)
        guest.text.number(T2, random_a0_word(guest))
        guest.text.put(store_word(name, T2, 0, T1))


def random_a0_word(guest: Guest) -> int:
    """An instruction that changes a0; its bytes may stand in place of another's."""
    rng = guest.rng
    name = rng.choice(list(IMMEDIATE))
    return immediate_word(name, A0, A0, rng.randint(0, 15) << 8 | rng.getrandbits(8) & 0xF0)


def rewrite_ahead(guest: Guest) -> None:
    """Overwrites the instruction that comes next, where the text may be written."""
    if not guest.layout.text_is_writable():
        return
    ahead = guest.text.fresh("ahead")
    guest.text.address(T1, ahead)
    guest.text.number(T2, random_a0_word(guest))
    guest.text.put(store_word("sw", T2, 0, T1))
    guest.text.label(ahead)
    guest.text.put(random_a0_word(guest))
    guest.record(tag_of(Tag.MARK, Mark.REWRITTEN), Register(A0))


def visit(guest: Guest) -> None:
    """Calls a routine in a page of the strip that may be executed, from behind bit 0 half of the time."""
    page = guest.layout.page_with(guest.rng, 1)
    guest.text.number(T1, page.address + guest.rng.choice([Code.RETURNS, Code.ADDS]))
    guest.text.put(jalr_word(LINK, guest.rng.randrange(2), T1))
    guest.record(tag_of(Tag.MARK, Mark.REWRITTEN), Register(A0))


def run_across(guest: Guest) -> None:
    """Runs from one page of code into the next, where there are two."""
    pages = guest.layout.strip
    for lower, upper in zip(pages, pages[1:]):
        if lower.can(1) and upper.can(1):
            guest.text.number(T1, lower.address)
            guest.add(T1, Code.RUNS_OFF)
            guest.text.put(jalr_word(LINK, 0, T1))
            guest.mark(Mark.REWRITTEN, upper.address // PAGE)


SNIPPETS = [compute, compute, move, move_across, loop, rewrite, rewrite_ahead, visit, run_across]
