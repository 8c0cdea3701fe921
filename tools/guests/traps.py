"""Snippets that trap: each cause, with a handler that mends the instruction or breaks out; and the ways to end by a
signal."""

from collections.abc import Callable

from guests import threads
from guests.builder import A0, FREE, T1, Area, Guest, Label, Own, OwnPlace, Word
from guests.events import Death, Mark
from guests.handlers import DEFAULT, IGNORE, Handler, install
from guests.layout import LINK, PAGE, RETURN_PAGE_END, STACK_END, Code
from guests.numbers import SA_NODEFER, TRAPS, Call, How
from guests.routines import mix_memory, mix_registers
from guests.signals import CATCHABLE, CONTEXTS, bit, change_mask, send
from riscv import (
    EBREAK, ECALL, LOAD, REGISTER, STORE, branch_word, i_type, j_type, jalr_word, load_word, r_type, s_type,
    store_word,
)

TRAP_LIMIT = 5  # traps of one snippet before its handler gives up
ILLEGAL, BREAK, MISALIGNED, FAULT = TRAPS


def no_instruction(guest: Guest) -> int:
    """A word that is none of RV32IM: of another extension, or with a field that no row has."""
    rng = guest.rng
    rd, rs1, rs2 = rng.choice(FREE), rng.randrange(32), rng.randrange(32)
    funct7 = rng.choice([n for n in range(128) if n not in (0, 1, 32)])
    register = rng.choice(list(REGISTER.values()))
    return rng.choice([
        0, 0xFFFFFFFF, rng.getrandbits(32) & ~3, rng.getrandbits(32) & ~3 | rng.randrange(3),
        r_type(funct7, rs2, rs1, register[1], rd, 0x33), r_type(32, rs2, rs1, rng.choice([1, 2, 3, 4, 6, 7]), rd, 0x33),
        r_type(rng.choice([1, 2, 16, 32, 64]), rs2, rs1, 1, rd, 0x13), r_type(1, rs2, rs1, 5, rd, 0x13),
        i_type(0, rs1, rng.choice([3, 6, 7]), rd, 0x03), s_type(0, rs2, rs1, rng.randrange(3, 8)),
        r_type(0, rs2, rs1, rng.choice([2, 3]), 8, 0x63), i_type(0, rs1, rng.randrange(1, 8), rd, 0x67),
        i_type(0, 0, rng.randrange(1, 8), 0, 0x0F), i_type(0x305, rs1, 1, rd, 0x73), 0x30200073, 0x10500073, 0x00200073,
        ECALL | 1 << 7, EBREAK | 1 << 15, ECALL | 1 << 12,
        rng.getrandbits(25) << 7 | rng.choice([0x07, 0x1B, 0x27, 0x2F, 0x3B, 0x43, 0x53, 0x5B, 0x77, 0x7F]),
    ])


def put_illegal(guest: Guest) -> None:
    guest.text.put(no_instruction(guest))


def put_break(guest: Guest) -> None:
    guest.text.put(EBREAK)


def put_misaligned(guest: Guest) -> None:
    """A jump, or a branch that is taken, to an address that is even and no multiple of 4."""
    rng, rd = guest.rng, guest.rng.choice(FREE)
    by = rng.choice([-2, 2, 6, 4094, -4094, 10])
    guest.text.put(rng.choice([
        j_type(rng.choice([by, 0xFFFFE, -0xFFFFE]), rd), jalr_word(rd, rng.choice([2, 3, -2, 6]), T1),
        branch_word("beq", rd, rd, by), branch_word("bgeu", rd, 0, by), branch_word("bge", rd, rd, by),
    ]))


def table_size(name: str) -> int:
    """How many bytes a load or store touches."""
    return LOAD[name][1] if name in LOAD else STORE[name][1]


def put_fault(guest: Guest) -> None:
    """A load or store of which some byte may not be touched. Its address was put into T1."""
    put_access(guest, guest.rng.choice([*LOAD, *STORE]))


def put_access(guest: Guest, name: str) -> None:
    if name in LOAD:
        guest.text.put(load_word(name, guest.rng.choice(FREE), 0, T1))
    else:
        guest.text.put(store_word(name, guest.rng.choice(FREE), 0, T1))


def bad_place(guest: Guest) -> int:
    """An address near a page that lacks a right, or is not there."""
    rng = guest.rng
    page = guest.layout.page_without(rng, rng.choice([2, 4]))
    return rng.choice([
        page.address + rng.randrange(PAGE), page.address - rng.randint(1, 3), page.address + PAGE - rng.randint(1, 3),
        guest.layout.edge(rng), 0xFFFFFFFF - rng.randrange(4), STACK_END - rng.randint(1, 3),
        RETURN_PAGE_END - rng.randint(1, 3),
    ])


BODIES: dict[int, Callable[[Guest], None]] = {
    ILLEGAL: put_illegal, BREAK: put_break, MISALIGNED: put_misaligned, FAULT: put_fault,
}


def guard(guest: Guest, signal: int) -> None:
    """Installs a handler that mends an instruction or breaks out."""
    can_mend = guest.layout.text_is_writable() and guest.rng.random() < 0.6
    handler = Handler.MENDS if can_mend else Handler.BREAKS_OUT
    install(guest, signal, handler.place(), guest.rng.choice([0, SA_NODEFER]))


def guard_all(guest: Guest) -> None:
    for signal in TRAPS:
        guard(guest, signal)


def recover_behind(guest: Guest, put: Callable[[], None], signal: int) -> None:
    """Words that trap, and the place where a handler that breaks out goes on: there the signal is let through again."""
    fault, recovery = guest.text.fresh("fault"), guest.text.fresh("recovery")
    guest.store(OwnPlace(Area.FAULT), Label(fault))
    guest.store(OwnPlace(Area.RECOVERY), Label(recovery))
    guest.store(OwnPlace(Area.LEFT), TRAP_LIMIT)
    guest.text.address(LINK, recovery)  # where code goes back to that is entered by chance
    guest.text.number(T1, bad_place(guest))
    guest.text.label(fault)
    put()
    guest.text.label(recovery)
    if guest.rng.random() < 0.7:
        change_mask(guest, How.UNBLOCK, bit(signal))
    guest.mark(Mark.PASSED_TRAP, signal)
    mix_registers(guest)


def trap(guest: Guest) -> None:
    """One trap, of any cause."""
    signal = guest.rng.choice(TRAPS)
    if guest.rng.random() < 0.3:
        guard(guest, signal)
    recover_behind(guest, lambda: BODIES[signal](guest), signal)


def trap_across(guest: Guest) -> None:
    """A load or store across two pages of which one lacks the right. A store then writes no byte of the other."""
    rng, strip = guest.rng, guest.layout.strip
    table = rng.choice([LOAD, STORE, STORE])
    right = 4 if table is LOAD else 2
    names = [name for name in table if table_size(name) > 1]
    uppers = [upper for lower, upper in zip(strip, strip[1:]) if lower.can(right) != upper.can(right)]
    if not uppers:
        return
    upper, name = rng.choice(uppers), rng.choice(names)
    guard(guest, FAULT)

    def put() -> None:
        fault = guest.text.fresh("across")
        guest.store(OwnPlace(Area.FAULT), Label(fault))
        guest.text.number(T1, upper.address - rng.randrange(1, table_size(name)))
        guest.text.label(fault)
        put_access(guest, name)

    recover_behind(guest, put, FAULT)
    for page, at in ((strip[strip.index(upper) - 1], upper.address - 8), (upper, upper.address)):
        if page.can(4):
            mix_memory(guest, at, 2)


def trap_pending(guest: Guest) -> None:
    """A trap whose signal is pending and blocked, or pending and due."""
    signal = guest.rng.choice(TRAPS)
    install(guest, signal, Handler.BREAKS_OUT.place(), SA_NODEFER)
    other = guest.rng.choice(CATCHABLE)
    install(guest, other, Handler.PLAIN.place())
    change_mask(guest, How.BLOCK, bit(other))
    send(guest, other)
    recover_behind(guest, lambda: BODIES[signal](guest), signal)
    change_mask(guest, How.UNBLOCK, bit(other))
    guest.mark(Mark.RETURNED, other)


def trap_due(guest: Guest) -> None:
    """A trap at which its own signal is pending and not blocked: the thread has sent it to itself just before."""
    signal = guest.rng.choice([ILLEGAL, BREAK, FAULT])
    guard(guest, signal)

    def put() -> None:
        fault = guest.text.fresh("due")
        guest.store(OwnPlace(Area.FAULT), Label(fault))
        guest.ask(Call.TGKILL, guest.place.process, Own(Area.TID), signal)
        guest.text.label(fault)
        {ILLEGAL: put_illegal, BREAK: put_break, FAULT: put_bad_load}[signal](guest)

    recover_behind(guest, put, signal)
    guest.mark(Mark.PASSED_DUE, signal)


def visit_return_page(guest: Guest) -> None:
    """Jumps to the page to which handlers return: where no context is saved, no instruction stands behind its call."""
    install(guest, ILLEGAL, Handler.BREAKS_OUT.place(), SA_NODEFER)

    def put() -> None:
        guest.text.number(T1, STACK_END)
        guest.text.put(jalr_word(LINK, guest.rng.choice([0, 0, 8]), T1))

    recover_behind(guest, put, ILLEGAL)
    guest.mark(Mark.RETURN_PAGE)


def leave_code(guest: Guest) -> None:
    """Jumps to a page that may not be executed, or off the end of one that may."""
    layout, rng = guest.layout, guest.rng
    install(guest, FAULT, Handler.BREAKS_OUT.place(), SA_NODEFER)

    def put() -> None:
        pairs = zip(layout.strip, layout.strip[1:])
        ends = [lower.address + Code.RUNS_OFF for lower, upper in pairs if lower.can(1) and not upper.can(1)]
        target = rng.choice([layout.page_without(rng, 1).address + 4 * rng.randrange(1024), *ends])
        guest.text.number(T1, target)
        guest.text.put(jalr_word(LINK, 0, T1))

    recover_behind(guest, put, FAULT)


def die(guest: Guest, death: Death) -> None:
    """Tells how the process is to end, and ends it so."""
    rng = guest.rng
    if death is Death.TOO_DEEP:
        guest.store(OwnPlace(Area.DEPTH), CONTEXTS + 1)
        install(guest, 15, Handler.DEEPENS.place(), SA_NODEFER)
    guest.mark(Mark.DEADLY, death)
    guest.flush()
    trap_signal = rng.choice(TRAPS)
    match death:
        case Death.BY_DEFAULT:
            signal = rng.choice([s for s in CATCHABLE + TRAPS if s not in (17, 23, 28)])
            install(guest, signal, DEFAULT, 0x40000000)
            send(guest, signal)
        case Death.BY_KILL:
            change_mask(guest, How.SET, 0xFFFFFFFF)
            send(guest, 9)
        case Death.BY_OTHER:
            die_by_other(guest)
        case Death.TOO_DEEP:
            send(guest, 15)
        case Death.BAD_HANDLER:
            install(guest, FAULT, rng.choice([2, 0xFFFFFFFF, 0x40000001, bad_place(guest) | 2]), SA_NODEFER)
            BODIES[ILLEGAL](guest) if rng.random() < 0.1 else put_bad_load(guest)
        case _:
            die_by_trap(guest, death, trap_signal)


def die_by_other(guest: Guest) -> None:
    """A thread that waits gets a signal that ends the process."""
    signal = guest.rng.choice([9, 6, 31])
    if signal != 9:
        install(guest, signal, DEFAULT)
    word = guest.data.word()
    spawned = threads.spawn(guest, lambda: threads.wait(guest, word, 0))
    threads.yields(guest, 2)
    guest.call(Call.TGKILL, guest.place.process, Word(spawned.number), signal)
    threads.yields(guest, 1)


def put_bad_load(guest: Guest) -> None:
    guest.text.put(load_word("lw", A0, 0, 0))


def die_by_trap(guest: Guest, death: Death, signal: int) -> None:
    """A trap whose signal has no handler, is masked, or is ignored."""
    if death is Death.TRAP_BY_DEFAULT:
        install(guest, signal, DEFAULT)
    elif death is Death.TRAP_IGNORED:
        install(guest, signal, IGNORE)
    else:
        install(guest, signal, Handler.PLAIN.place())
        change_mask(guest, How.BLOCK, bit(signal))
    guest.text.number(T1, 0)
    BODIES[signal](guest)


SNIPPETS = [trap, trap, trap, trap_across, trap_pending, trap_due, visit_return_page, leave_code]
