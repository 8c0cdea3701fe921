"""The signal handlers of a guest, and the words that install them."""

import enum
from collections.abc import Callable

from guests.builder import (
    A0, AREA, RA, SP, T1, T2, VALUE, Area, Guest, Label, Operand, Own, OwnPlace, Register, Word,
)
from guests.events import Futex, Mark, Tag, tag_of
from guests.numbers import NEW_THREAD, Call, How
from guests.routines import mix_own
from riscv import NOP, immediate_word, jalr_word, load_word, register_word, shift_word, store_word, words_of

IGNORE, DEFAULT = 1, 0
PATIENCE = 6  # how many traps handlers mend before they end the process
BROKEN = 77  # the status then


class Handler(enum.Enum):
    """What a handler does beside telling that it began."""

    PLAIN = "plain"
    RETURNS_ITSELF = "returns_itself"
    ASKS_MASK = "asks_mask"
    UNBLOCKS = "unblocks"
    NESTS = "nests"
    DEEPENS = "deepens"
    WAKES = "wakes"
    WRITES = "writes"
    CLONES = "clones"
    WAITS = "waits"
    ENDS_THREAD = "ends_thread"
    ENDS_ALL = "ends_all"
    MENDS = "mends"  # of traps: overwrites the instruction
    BREAKS_OUT = "breaks_out"  # of traps: goes on behind it

    def place(self) -> Label:
        return Label(f"handler.{self.value}")


RETURNING = [Handler.PLAIN, Handler.RETURNS_ITSELF, Handler.ASKS_MASK, Handler.UNBLOCKS, Handler.NESTS,
             Handler.WAKES, Handler.WRITES, Handler.CLONES]
BACK = jalr_word(0, 0, RA)


def tell(guest: Guest) -> None:
    """Keeps a record of the signal, the stack pointer, and whether a1 and a2 are 0."""
    guest.text.put(
        shift_word("slli", VALUE, SP, 1), register_word("or", VALUE, VALUE, A0),
        register_word("add", VALUE, VALUE, 11), register_word("add", VALUE, VALUE, 12),
    )
    guest.record(tag_of(Tag.MARK, Mark.HANDLED), Register(VALUE))


def put_plain(guest: Guest) -> None:
    guest.text.put(BACK)


def put_returns_itself(guest: Guest) -> None:
    guest.call(Call.RT_SIGRETURN)  # there is an answer only where no context is saved
    guest.text.put(BACK)


def put_asks_mask(guest: Guest) -> None:
    guest.call(Call.RT_SIGPROCMASK, How.BLOCK, 0, OwnPlace(Area.BYTES), 8)
    mix_own(guest)
    guest.text.put(BACK)


def put_unblocks(guest: Guest) -> None:
    """Lets all signals through; what was pending comes while the handler still runs."""
    guest.call(Call.RT_SIGPROCMASK, How.SET, guest.data.place(bytes(8)), OwnPlace(Area.BYTES), 8)
    guest.text.put(BACK)


def put_nests(guest: Guest) -> None:
    """Sends its own thread another signal."""
    guest.call(Call.TGKILL, guest.place.process, Own(Area.TID), guest.nested_signal)
    guest.text.put(BACK)


def put_deepens(guest: Guest) -> None:
    """Sends its own thread the same signal again, so many times as DEPTH says."""
    done = guest.text.fresh("deep")
    guest.text.put(load_word("lw", T1, Area.DEPTH, AREA), immediate_word("addi", T1, T1, -1))
    guest.text.put(store_word("sw", T1, Area.DEPTH, AREA))
    guest.text.branch("bge", 0, T1, done)
    guest.ask(Call.TGKILL, guest.place.process, Own(Area.TID), Register(A0 + 2))
    guest.text.label(done)
    guest.text.put(BACK)


def put_wakes(guest: Guest) -> None:
    """Changes a word, and wakes who waits there."""
    guest.store(guest.futexes[0], Register(SP))
    guest.call(Call.FUTEX, guest.futexes[0], 1, 1, variant=Futex.WAKE)
    guest.text.put(BACK)


def put_waits(guest: Guest) -> None:
    """Waits on the second word, whatever it holds."""
    word = guest.futexes[1]
    guest.call(Call.FUTEX, word, 0, Word(word), 0, variant=Futex.WAIT)
    guest.text.put(BACK)


def put_writes(guest: Guest) -> None:
    guest.flush()
    guest.text.put(BACK)


def put_clones(guest: Guest) -> None:
    """Makes a thread, which has no context to return to."""
    def child() -> None:
        guest.mark(Mark.CLONED)
        guest.call(Call.RT_SIGRETURN)
        put_ends_thread(guest)

    label = guest.put_later("cloned", guest.areas[-1], child)
    guest.ask(Call.CLONE, NEW_THREAD, 0, 0, 0, 0)
    parent = guest.text.fresh("parent")
    guest.text.branch("bne", A0, 0, parent)
    guest.text.jump(label)
    guest.text.label(parent)
    guest.text.put(BACK)


def put_ends_thread(guest: Guest) -> None:
    guest.mark(Mark.LEAVES)
    guest.flush()
    guest.ask(Call.EXIT, 3)


def put_ends_all(guest: Guest) -> None:
    guest.mark(Mark.ENDS_ALL)
    guest.flush()
    guest.ask(Call.EXIT_GROUP, 4)


def put_patience(guest: Guest, over: str) -> None:
    """Counts a trap, and goes elsewhere when there were too many."""
    guest.text.put(load_word("lw", T1, Area.LEFT, AREA), immediate_word("addi", T1, T1, -1))
    guest.text.put(store_word("sw", T1, Area.LEFT, AREA))
    guest.text.branch("blt", T1, 0, over)


def put_mends(guest: Guest) -> None:
    """Overwrites the instruction at FAULT by one that does nothing."""
    put_patience(guest, "handler.breaks_out")
    guest.text.number(T2, NOP)
    guest.text.put(load_word("lw", T1, Area.FAULT, AREA), store_word("sw", T2, 0, T1), BACK)


def put_breaks_out(guest: Guest) -> None:
    """Goes on at RECOVERY and doesn't return."""
    guest.mark(Mark.BREAKS_OUT)
    guest.text.put(load_word("lw", T1, Area.LEFT, AREA), immediate_word("addi", T1, T1, -1))
    guest.text.put(store_word("sw", T1, Area.LEFT, AREA), immediate_word("addi", T1, T1, PATIENCE))
    over = guest.text.fresh("broken")
    guest.text.branch("blt", T1, 0, over)
    guest.text.put(load_word("lw", T1, Area.RECOVERY, AREA))
    guest.text.branch("beq", T1, 0, over)
    guest.text.put(jalr_word(0, 0, T1))
    guest.text.label(over)
    guest.flush()
    guest.ask(Call.EXIT_GROUP, BROKEN)


BODIES: dict[Handler, Callable[[Guest], None]] = {
    Handler.PLAIN: put_plain, Handler.RETURNS_ITSELF: put_returns_itself, Handler.ASKS_MASK: put_asks_mask,
    Handler.UNBLOCKS: put_unblocks, Handler.NESTS: put_nests, Handler.DEEPENS: put_deepens, Handler.WAKES: put_wakes,
    Handler.WRITES: put_writes, Handler.CLONES: put_clones, Handler.WAITS: put_waits,
    Handler.ENDS_THREAD: put_ends_thread, Handler.ENDS_ALL: put_ends_all, Handler.MENDS: put_mends,
    Handler.BREAKS_OUT: put_breaks_out,
}


def put_handlers(guest: Guest) -> None:
    for handler, body in BODIES.items():
        guest.text.label(handler.place().name)
        tell(guest)
        guest.text.copy(A0 + 2, A0)
        body(guest)


def install(guest: Guest, signal: int, handler: Operand, flags: int = 0, mask: int = 0) -> None:
    """Sets what is done on a signal."""
    action = guest.data.place(words_of([0, flags, mask, guest.rng.choice([0, 0xFFFFFFFF])]))
    if handler != DEFAULT:
        guest.store(action, handler)
    guest.call(Call.RT_SIGACTION, signal, action, guest.rng.choice([0, OwnPlace(Area.BYTES)]), 8)
