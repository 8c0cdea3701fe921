"""Arguments of calls: good ones, and bad ones that are close to them."""

from collections.abc import Callable

from guests.builder import SCRATCH_BYTES, Area, Guest, Operand, Own, OwnPlace, Word
from guests.layout import PAGE, STACK, STACK_END
from guests.numbers import NEVER_SENT, NEW_PROCESS, NEW_THREAD, SIGNALS, THREAD_OPTIONS, Clone

Argument = Callable[[Guest], Operand]
FAR_NUMBERS = [0x7FFFFFFF, 0x80000000, 0xFFFFFFFF, 0xFFFFFFFE, 0x10000, 0x100000000 - 9]


def wild(guest: Guest) -> Operand:
    """Any number."""
    rng = guest.rng
    return rng.choice([rng.randrange(20), rng.getrandbits(32), rng.choice(FAR_NUMBERS), guest.layout.edge(rng)])


def descriptor(guest: Guest) -> Operand:
    rng = guest.rng
    return rng.choice([0, 1, 1, 2, 2, 3, 255, 256, rng.choice(FAR_NUMBERS)])


def buffer(size: int, right: int) -> Argument:
    """A place of so many bytes: in the scratch bytes, at the end of a page with the right, or where it is missing."""

    def choose(guest: Guest) -> Operand:
        rng = guest.rng
        kind = rng.random()
        if kind < 0.45:
            return guest.scratch + rng.randrange(SCRATCH_BYTES - size + 1)
        if kind < 0.55:
            return OwnPlace(Area.BYTES + rng.randrange(64 - min(size, 64) + 1))
        if kind < 0.75:
            return guest.layout.page_with(rng, right).address + PAGE - size + rng.choice([0, 0, 1, -1, size])
        if kind < 0.85:
            return guest.layout.page_without(rng, right).address + rng.choice([0, -size, -1, 1])
        return rng.choice([guest.layout.edge(rng), 0, STACK_END - size, STACK_END - 1, 0xFFFFFFFF])

    return choose


def or_none(choose: Argument) -> Argument:
    """The same, or 0, which is no buffer."""
    return lambda guest: 0 if guest.rng.random() < 0.25 else choose(guest)


def writing(guest: Guest) -> tuple[Operand, Operand]:
    """A buffer and a count for a write: counts from 0 to beyond the limit, over memory that is there or isn't."""
    rng = guest.rng
    if rng.random() < 0.12 and guest.console_left > 0:
        guest.console_left -= 1
        return STACK + rng.randrange(PAGE), rng.choice([65535, 65536, 65537, 100_000, 0xFFFFFFFF])
    if rng.random() < 0.15:
        return STACK_END - rng.choice([1, 65535, 65536]), rng.choice([65537, 0x7FFFFFFF, 0xFFFFFFFF])
    count = rng.choice([0, 1, 2, 3, 17, rng.randrange(SCRATCH_BYTES)])
    return buffer(count, 4)(guest), count


def eight(guest: Guest) -> Operand:
    """The size of a set of signals, mostly the right one."""
    return 8 if guest.rng.random() < 0.8 else guest.rng.choice([0, 4, 7, 9, 16, 0xFFFFFFFF])


def signal(guest: Guest) -> Operand:
    if guest.rng.random() < 0.7:
        return guest.rng.choice(SIGNALS)
    return guest.rng.choice([0, 9, 19, 32, 33, 64, 0xFFFFFFFF, 0x80000001])


def how(guest: Guest) -> Operand:
    return guest.rng.choice([0, 0, 1, 1, 2, 3, 0xFFFFFFFF])


def process(guest: Guest) -> Operand:
    first = guest.place.process
    return guest.rng.choice([first] * 4 + [first - 1, first + 1, first + 1, 0, 1, 0x80000000, 0xFFFFFFFF])


def thread(guest: Guest) -> Operand:
    rng = guest.rng
    return rng.choice([Own(Area.TID), guest.place.process + rng.randrange(6), Word(rng.choice(guest.areas) + Area.TID),
                       0, 1, 0xFFFFFFFF])


def unsent(guest: Guest) -> Operand:
    """A signal that a call only asks for, or refuses."""
    return 0 if guest.rng.random() < 0.5 else guest.rng.choice([32, 33, 0x80000000, 0xFFFFFFFF, *NEVER_SENT])


def refused_flags(guest: Guest) -> Operand:
    """Flags of a clone that have no form: some missing, some too many."""
    rng = guest.rng
    some = sum(rng.sample(THREAD_OPTIONS, rng.randrange(4)))
    missing = rng.choice([Clone.VM, Clone.FS, Clone.FILES, Clone.SIGHAND, Clone.THREAD])
    more = rng.choice([0x1, 0x11, 0x1000, 0x2000, 0x4000, 0x20000, 0x400000, 0x80000000, 0x2000000])
    return rng.choice([
        (NEW_THREAD | some) & ~missing, NEW_THREAD | some | more, NEW_PROCESS | Clone.SETTLS,
        NEW_PROCESS | Clone.SYSVSEM, NEW_PROCESS | Clone.VM, 0, some,
    ])


def protection(guest: Guest) -> Operand:
    return guest.rng.choice([0, 1, 2, 3, 3, 3, 4, 5, 6, 7, 7, 8, 0xFFFFFFFF])


def length(guest: Guest) -> Operand:
    """A length for a mapping."""
    rng = guest.rng
    small = rng.choice([1, 100, PAGE - 1, PAGE, PAGE + 1, 3 * PAGE, 10 * PAGE + 5])
    return rng.choice([small, small, small, 0, 2048 * PAGE, 0x30000000, 0x30000001, 0x80000000, 0xFFFFF001, 0xFFFFFFFF])


def aligned_word(guest: Guest) -> Operand:
    """A word to wait on, mostly."""
    rng = guest.rng
    return rng.choice([rng.choice(guest.futexes), rng.choice(guest.futexes) + rng.randrange(4), buffer(4, 4)(guest)])


def operation(guest: Guest) -> Operand:
    return guest.rng.choice([0, 0, 0, 1, 1, 128, 129, 2, 3, 127, 130, 256, 257, 0x80000000, 0xFFFFFFFF])


def no_timeout(guest: Guest) -> Operand:
    return 0 if guest.rng.random() < 0.7 else wild(guest)


def ready_word(guest: Guest) -> int:
    """A word that the same number is never found in."""
    return guest.rng.getrandbits(31) | 0x40000000
