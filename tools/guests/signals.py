"""Snippets that send signals to the thread itself, and set what is done on them."""

from guests.arguments import thread
from guests.builder import SP, T1, T2, Area, Guest, Operand, Own, OwnPlace
from guests.compute import number
from guests.events import Mark
from guests.handlers import BACK, DEFAULT, IGNORE, RETURNING, Handler, install
from guests.numbers import IGNORED_BY_DEFAULT, NEVER_SENT, SA_NODEFER, SA_RESTART, SIGNALS, TRAPS, Call, How
from guests.routines import mix_own, mix_registers
from riscv import store_word

CATCHABLE = [s for s in SIGNALS if s not in (9, *TRAPS, *NEVER_SENT)]
FLAGS = [0, 0, SA_NODEFER, SA_RESTART, SA_NODEFER | SA_RESTART, 0x4, 0x8BFFFFFF, 0xFFFFFFFF & ~SA_NODEFER]
CONTEXTS = 64


def bit(signal: int) -> int:
    return 1 << signal - 1


def some_mask(guest: Guest) -> int:
    """A mask without the signals of traps."""
    rng = guest.rng
    mask = rng.choice([0, 0, bit(rng.choice(CATCHABLE)), rng.getrandbits(32), 0xFFFFFFFF])
    return mask & ~sum(bit(s) for s in TRAPS)


def ignored_or_handled(guest: Guest) -> Operand:
    return guest.rng.choice([IGNORE, *(handler.place() for handler in RETURNING)])


def send(guest: Guest, signal: int) -> None:
    """Sends the thread itself a signal."""
    guest.call(Call.TGKILL, guest.place.process, Own(Area.TID), signal)


def change_mask(guest: Guest, how: How, mask: int) -> None:
    guest.call(Call.RT_SIGPROCMASK, how, guest.data.place(mask.to_bytes(8, "little")), OwnPlace(Area.BYTES), 8)


def handled(guest: Guest) -> None:
    """A handler that returns, on a signal that the thread sends itself."""
    rng = guest.rng
    signal = rng.choice(CATCHABLE)
    install(guest, signal, rng.choice(RETURNING).place(), rng.choice(FLAGS), some_mask(guest))
    if rng.random() < 0.4:
        guest.text.number(SP, number(guest))
    send(guest, signal)
    guest.mark(Mark.RETURNED, signal)
    mix_registers(guest)


def ignored(guest: Guest) -> None:
    """A signal that is ignored, by its action or by default."""
    rng = guest.rng
    signal = rng.choice(IGNORED_BY_DEFAULT)
    if rng.random() < 0.5:
        signal = rng.choice(CATCHABLE)
        install(guest, signal, IGNORE, rng.choice(FLAGS), some_mask(guest))
    else:
        install(guest, signal, DEFAULT, rng.choice(FLAGS))
    send(guest, signal)
    guest.mark(Mark.PASSED_IGNORED, signal)


def blocked(guest: Guest) -> None:
    """Blocks some signals, sends them, some of them twice, and lets them through again."""
    rng = guest.rng
    chosen = rng.sample(CATCHABLE, rng.randint(1, 3))
    for signal in chosen:
        install(guest, signal, ignored_or_handled(guest), rng.choice(FLAGS), some_mask(guest))
    mask = sum(bit(s) for s in chosen) | bit(9) | bit(19) | rng.choice([0, 0xFF << 32])
    change_mask(guest, rng.choice([How.BLOCK, How.BLOCK, How.SET]), mask)
    for signal in rng.choices(chosen, k=len(chosen) + 1):
        send(guest, signal)
    guest.mark(Mark.PASSED_BLOCKED, chosen[0])
    mix_own(guest)
    if rng.random() < 0.8:
        change_mask(guest, How.UNBLOCK, mask)
    change_mask(guest, How.SET, 0)
    guest.mark(Mark.RETURNED, chosen[0])


def nested(guest: Guest) -> None:
    """Handlers inside handlers: one sends another signal, which is masked there, or not."""
    rng = guest.rng
    for signal in (10, 12, 14, 29):
        flags = rng.choice(FLAGS)
        handler = rng.choice([Handler.PLAIN, Handler.ASKS_MASK, Handler.UNBLOCKS])
        install(guest, signal, handler.place(), flags, some_mask(guest))
    install(guest, 1, Handler.NESTS.place(), rng.choice(FLAGS), rng.choice([0, 0xFFFFFBA7, some_mask(guest)]))
    send(guest, 1)
    guest.mark(Mark.RETURNED, 1)
    mix_registers(guest)


def deep(guest: Guest) -> None:
    """Handlers so deep inside each other as there are contexts, and with one more the process ends."""
    rng = guest.rng
    levels = rng.choice([2, 5, CONTEXTS - 1, CONTEXTS, CONTEXTS, CONTEXTS + 1])
    guest.store(OwnPlace(Area.DEPTH), levels)
    install(guest, 15, Handler.DEEPENS.place(), SA_NODEFER)
    guest.mark(Mark.DEEP, levels)
    if levels > CONTEXTS - 1:
        guest.flush()
    send(guest, 15)
    guest.mark(Mark.RETURNED, 15)


def returns_from_nothing(guest: Guest) -> None:
    """Asks to return from a handler where none was entered, or goes back once more."""
    guest.call(Call.RT_SIGRETURN)


def signal_others(guest: Guest) -> None:
    """Sends a signal that is handled, or ignored, to some thread that may be there."""
    rng = guest.rng
    signal = rng.choice([s for s in CATCHABLE if s not in IGNORED_BY_DEFAULT])
    install(guest, signal, ignored_or_handled(guest), rng.choice(FLAGS), some_mask(guest))
    for _ in range(rng.randint(1, 3)):
        guest.call(Call.TGKILL, guest.place.process, thread(guest), signal)


def odd_handler(guest: Guest) -> None:
    """A handler at an address that is no multiple of 4, or across two pages: its one word goes back."""
    rng, strip = guest.rng, guest.layout.strip
    signal = rng.choice(CATCHABLE)
    ends = [upper.address - 4 for lower, upper in zip(strip, strip[1:]) if lower.can(3) and upper.can(2)]
    at = rng.choice([guest.layout.page_with(rng, 7).address + 4 * rng.randrange(32, 900), *ends]) + rng.randint(1, 3)
    guest.text.number(T1, at)
    guest.text.number(T2, BACK)
    guest.text.put(store_word("sw", T2, 0, T1))
    install(guest, signal, at)
    send(guest, signal)
    guest.mark(Mark.ODD_HANDLER, signal)
    install(guest, signal, Handler.PLAIN.place())


def uncatchable(guest: Guest) -> None:
    """Asks what is done on a signal whose action can't be set, and tries to set it."""
    signal = guest.rng.choice([9, 19])
    guest.call(Call.RT_SIGACTION, signal, 0, OwnPlace(Area.BYTES), 8)
    guest.call(Call.RT_SIGACTION, signal, guest.scratch, OwnPlace(Area.BYTES), 8)
    mix_own(guest)


SNIPPETS = [handled, handled, handled, ignored, blocked, blocked, nested, returns_from_nothing, signal_others,
            uncatchable, odd_handler]
