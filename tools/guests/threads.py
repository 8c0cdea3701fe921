"""Snippets of several threads: making them, waiting and waking, and signals between them."""

from collections.abc import Callable
from dataclasses import dataclass

from guests.arguments import buffer, wild
from guests.builder import A0, AREA, T1, T2, Area, Guest, Operand, Register, Word
from guests.events import Futex, Mark, Tag, tag_of
from guests.handlers import IGNORE, Handler, install
from guests.layout import STACK
from guests.numbers import IGNORED_BY_DEFAULT, NEW_THREAD, SA_RESTART, Call, Clone, How
from guests.routines import mix_registers
from guests.signals import CATCHABLE, FLAGS, bit, change_mask, some_mask
from riscv import immediate_word, load_word, store_word

ANSWER = 12  # the register in which a word's value is handed on
ALL = 0xFFFFFFFF


@dataclass
class Spawned:
    """A thread that was made: the word with its number, and the word that its end clears."""

    number: int
    end: int
    clears: bool


def leave(guest: Guest) -> None:
    """Writes the records and ends the thread."""
    guest.mark(Mark.LEAVES)
    guest.flush()
    guest.ask(Call.EXIT, guest.rng.randrange(256))


def begin(guest: Guest) -> None:
    """The first words of a thread: it finds its number."""
    guest.call(Call.GETTID)
    guest.text.put(store_word("sw", A0, Area.TID, AREA))
    mix_registers(guest)


def spawn(guest: Guest, body: Callable[[], None], joinable: bool = False) -> Spawned:
    """Makes a thread with random flags of the allowed form."""
    rng = guest.rng
    spawned = Spawned(guest.data.word(), guest.data.word(), True)
    flags = NEW_THREAD | Clone.PARENT_SETTID
    for option in (Clone.SETTLS, Clone.SYSVSEM):
        flags |= rng.choice([0, option])
    for option in (Clone.CHILD_SETTID, Clone.CHILD_CLEARTID):
        flags |= option if joinable else rng.choice([0, option])
    spawned.clears = bool(flags & Clone.CHILD_CLEARTID)

    def child() -> None:
        begin(guest)
        body()

    label = guest.put_later("thread", guest.new_area(), child)
    stack = rng.choice([0, STACK + 0x1000, rng.getrandbits(32)])
    guest.ask(Call.CLONE, flags, stack, spawned.number, rng.getrandbits(32), spawned.end)
    parent = guest.text.fresh("parent")
    guest.text.branch("bne", A0, 0, parent)
    guest.text.jump(label)
    guest.text.label(parent)
    guest.record(tag_of(Tag.CALL, Call.CLONE), Register(A0))
    return spawned


def wait(guest: Guest, word: int, value: Operand) -> None:
    guest.call(Call.FUTEX, word, guest.rng.choice([0, 128]), value, 0, variant=Futex.WAIT)


def wake(guest: Guest, word: int, count: int) -> None:
    guest.call(Call.FUTEX, word, guest.rng.choice([1, 129]), count, 0, variant=Futex.WAKE)


def yields(guest: Guest, times: int) -> None:
    for _ in range(times):
        guest.ask(Call.SCHED_YIELD)


def join(guest: Guest, spawned: Spawned) -> None:
    """Waits until the end of a thread has cleared its word."""
    top, done = guest.text.fresh("join"), guest.text.fresh("joined")
    guest.text.label(top)
    guest.text.number(T1, spawned.end)
    guest.text.put(load_word("lw", ANSWER, 0, T1))
    guest.text.branch("beq", ANSWER, 0, done)
    wait(guest, spawned.end, Register(ANSWER))
    guest.text.jump(top)
    guest.text.label(done)
    guest.mark(Mark.CLEARED)


def hand_over(guest: Guest) -> None:
    """Two threads wait for each other in turn, each on a new word."""
    rounds = [(guest.data.word(), guest.data.word()) for _ in range(guest.rng.randint(1, 3))]

    def other() -> None:
        for there, back in rounds:
            wait(guest, there, 0)
            guest.store(back, 1)
            wake(guest, back, 1)
        leave(guest)

    spawn(guest, other)
    for there, back in rounds:
        guest.store(there, 1)
        wake(guest, there, guest.rng.choice([1, 2, ALL]))
        wait(guest, back, 0)


def queue(guest: Guest) -> None:
    """Some threads wait on one word and are woken a few at a time; each tells the how-manieth it is."""
    rng = guest.rng
    word = guest.data.word()

    def waiter() -> None:
        wait(guest, word, 0)
        guest.text.number(T1, guest.order)
        guest.text.put(load_word("lw", ANSWER, 0, T1), immediate_word("addi", ANSWER, ANSWER, 1))
        guest.text.put(store_word("sw", ANSWER, 0, T1))
        guest.mark(Mark.ORDER, Register(ANSWER))
        leave(guest)

    count = rng.randint(2, 4)
    for _ in range(count):
        spawn(guest, waiter)
    yields(guest, rng.randint(0, 3))
    for _ in range(rng.randint(1, 3)):
        wake(guest, word + rng.choice([0, 0, 0, 4]), rng.choice([0, 1, 1, 2, ALL]))
    guest.store(word, 1)
    wake(guest, word, rng.choice([count, 64, ALL]))


def interrupt(guest: Guest) -> None:
    """A thread that waits gets a signal from another one, and is woken at last."""
    rng = guest.rng
    signal, flags = rng.choice(CATCHABLE), rng.choice(FLAGS)
    handler = rng.choice([Handler.PLAIN, Handler.PLAIN, Handler.WAKES, Handler.ASKS_MASK, Handler.WRITES, Handler.WAITS,
                          Handler.ENDS_THREAD, Handler.CLONES])
    is_ignored, is_blocked = rng.random() < 0.2, rng.random() < 0.2
    if is_ignored and rng.random() < 0.5:
        signal = rng.choice(IGNORED_BY_DEFAULT)
    word = rng.choice([guest.data.word(), guest.futexes[0]])

    def waiter() -> None:
        if is_blocked:
            change_mask(guest, How.BLOCK, bit(signal))
        wait(guest, word, Word(word))
        is_begun_again = flags & SA_RESTART and not is_ignored and not is_blocked
        guest.mark(Mark.RESTARTED if is_begun_again else Mark.INTERRUPTED, Register(A0))
        change_mask(guest, How.SET, 0)
        leave(guest)

    install(guest, signal, IGNORE if is_ignored else handler.place(), flags, some_mask(guest))
    spawned = spawn(guest, waiter)
    yields(guest, rng.randint(1, 3))
    guest.call(Call.TGKILL, guest.place.process, Word(spawned.number), signal)
    guest.mark(Mark.WAKES, signal)
    yields(guest, rng.randint(0, 2))
    if rng.random() < 0.4:
        guest.store(word, rng.getrandbits(32))
    wake(guest, word, ALL)
    if handler is Handler.WAITS:
        guest.call(Call.TGKILL, guest.place.process, Word(spawned.number), rng.choice([0, signal]))
        yields(guest, 2)
        wake(guest, guest.futexes[1], ALL)


def clear(guest: Guest) -> None:
    """A thread waits on the word that another one's end clears, one that may be written or not."""
    rng = guest.rng
    word = rng.choice([guest.data.word(7), guest.layout.page_with(rng, 4).address + 8 * rng.randrange(500)])

    def waiter() -> None:
        wait(guest, word, Word(word))
        guest.mark(Mark.CLEARED, Word(word))
        leave(guest)

    def ender() -> None:
        guest.call(Call.SET_TID_ADDRESS, word)
        yields(guest, rng.randint(0, 2))
        leave(guest)

    for body in rng.choice([[waiter, ender], [waiter, waiter, ender], [ender, waiter]]):
        spawn(guest, body)
    yields(guest, 4)
    wake(guest, word, ALL)


def clear_elsewhere(guest: Guest) -> None:
    """A thread whose end clears a word that is not there, or across two pages."""
    place = buffer(4, 2)(guest)

    def ender() -> None:
        guest.call(Call.SET_TID_ADDRESS, place)
        leave(guest)

    spawn(guest, ender)


def bad_places(guest: Guest) -> None:
    """A clone that makes a thread only where the places for its number can be written. The thread ends at once."""
    rng = guest.rng
    places = [rng.choice([guest.data.word(), buffer(4, 2)(guest)]) for _ in range(2)]
    flags = NEW_THREAD | sum(rng.sample([Clone.PARENT_SETTID, Clone.CHILD_SETTID, Clone.CHILD_CLEARTID], 2))
    label = guest.put_later("thread", guest.new_area(), lambda: leave(guest))
    guest.ask(Call.CLONE, flags, 0, places[0], wild(guest), places[1])
    parent = guest.text.fresh("parent")
    guest.text.branch("bne", A0, 0, parent)
    guest.text.jump(label)
    guest.text.label(parent)
    guest.record(tag_of(Tag.CALL, Call.CLONE), Register(A0))


def crowd(guest: Guest) -> None:
    """Makes threads that wait until no more can be made, and ends the process or wakes some of them."""
    text, word, count = guest.text, guest.data.word(), 22

    def one_of_many() -> None:
        guest.ask(Call.FUTEX, word, 0, 0, 0)
        guest.ask(Call.EXIT, 0)

    label = guest.put_later("one_of_many", guest.areas[-1], one_of_many)
    top, parent, done = text.fresh("crowd"), text.fresh("parent"), text.fresh("crowded")
    text.number(count, 0)
    text.label(top)
    guest.ask(Call.CLONE, NEW_THREAD, 0, 0, 0, 0)
    text.branch("bne", A0, 0, parent)
    text.jump(label)
    text.label(parent)
    text.branch("blt", A0, 0, done)
    text.put(immediate_word("addi", count, count, 1))
    text.jump(top)
    text.label(done)
    guest.record(tag_of(Tag.CALL, Call.CLONE), Register(A0))
    guest.mark(Mark.CROWD, Register(count))
    wake(guest, word, guest.rng.choice([0, 1, 3]))
    text.number(T2, 0)
    yields(guest, 2)


SNIPPETS = [hand_over, queue, interrupt, interrupt, interrupt, clear, clear_elsewhere, bad_places]
