"""Snippets of several processes: forks, waits, and signals between processes."""

from collections.abc import Callable

from guests import nets, sharing
from guests.builder import A0, Area, Guest, Operand, OwnPlace, Register, Word
from guests.events import Mark, Tag, tag_of
from guests.handlers import DEFAULT, IGNORE, Handler, install
from guests.numbers import NEW_PROCESS, SA_RESTART, Call, Clone
from guests.routines import mix_own
from guests.threads import begin, leave, yields

ANY_CHILD = 0xFFFFFFFF
NO_HANG = 1
CHILD_ENDED, PIPE_BROKEN = 17, 13
OPTIONS = [Clone.PARENT_SETTID, Clone.CHILD_SETTID, Clone.CHILD_CLEARTID]


def ends(guest: Guest) -> None:
    """The process ends by a call, or by a signal that it sends itself."""
    rng = guest.rng
    if rng.random() < 0.75:
        leave(guest)
        return
    guest.mark(Mark.ENDS_ALL)
    guest.flush()
    guest.ask(Call.GETPID)
    guest.ask(Call.KILL, Register(A0), rng.choice([9, 6, 15]))
    yields(guest, 1)
    guest.ask(Call.EXIT_GROUP, rng.randrange(256))


def fork(guest: Guest, body: Callable[[], None]) -> int:
    """A child that does this, and then ends; gives the word with its number in the parent."""
    number = guest.data.word()
    flags = NEW_PROCESS | Clone.PARENT_SETTID | sum(guest.rng.sample(OPTIONS[1:], guest.rng.randrange(3)))

    def child() -> None:
        begin(guest)
        guest.mark(Mark.FORKED)
        body()
        ends(guest)

    label = guest.put_later("child", guest.new_area(), child)
    guest.ask(Call.CLONE, flags, 0, number, 0, guest.data.word())
    parent = guest.text.fresh("parent")
    guest.text.branch("bne", A0, 0, parent)
    guest.text.jump(label)
    guest.text.label(parent)
    guest.record(tag_of(Tag.CALL, Call.CLONE), Register(A0))
    return number


def wait(guest: Guest, number: int) -> None:
    """Waits for a child, or asks whether it has ended."""
    rng = guest.rng
    which: Operand = rng.choice([ANY_CHILD, Word(number)])
    place: Operand = rng.choice([0, OwnPlace(Area.BYTES)])
    guest.call(Call.WAIT4, which, place, rng.choice([0, 0, 0, NO_HANG]), 0)
    mix_own(guest)


def may_fork(guest: Guest) -> bool:
    """Whether the guest may still fork, which is then taken off."""
    guest.forks_left -= 1
    return guest.forks_left >= 0


def some(guest: Guest, most: int = 3) -> None:
    """Some snippets of what a process does with what it shares."""
    for _ in range(guest.rng.randint(0, most)):
        refusing = sharing.REFUSING if guest.rng.random() < 0.3 else []
        guest.rng.choice([*sharing.SNIPPETS, *nets.SNIPPETS, *refusing])(guest)
        if guest.rng.random() < 0.1:
            guest.flush()


def sends(guest: Guest) -> None:
    """A child writes into a pipe that its parent reads, or the other way round."""
    rng = guest.rng
    if not may_fork(guest):
        return
    reading, writing = sharing.pipe(guest)
    is_reader = rng.random() < 0.3

    def writes() -> None:
        sharing.ends_at_last(guest, reading)
        for _ in range(rng.randint(1, 3)):
            sharing.write(guest, Word(writing))
            yields(guest, rng.randrange(2))
        sharing.ends_at_last(guest, writing)

    def reads() -> None:
        sharing.ends_at_last(guest, writing)
        for _ in range(rng.randint(1, 4)):
            sharing.read(guest, Word(reading))
        sharing.ends_at_last(guest, reading)

    number = fork(guest, reads if is_reader else writes)
    (writes if is_reader else reads)()
    if rng.random() < 0.8:
        wait(guest, number)


def chats(guest: Guest) -> None:
    """A child and its parent talk over a pair, each with its own end."""
    rng = guest.rng
    if not may_fork(guest):
        return
    first, second = sharing.pair(guest)

    def child() -> None:
        sharing.ends_at_last(guest, first)
        sharing.read(guest, Word(second))
        sharing.write(guest, Word(second))
        some(guest, 1)

    number = fork(guest, child)
    sharing.ends_at_last(guest, second)
    sharing.write(guest, Word(first))
    yields(guest, rng.randrange(3))
    sharing.read(guest, Word(first))
    if rng.random() < 0.5:
        guest.call(Call.SHUTDOWN, Word(first), rng.choice([0, 1, 2]))
    if rng.random() < 0.8:
        wait(guest, number)


def shares(guest: Guest) -> None:
    """A child and its parent use the same descriptions."""
    rng = guest.rng
    if not may_fork(guest):
        return
    word = sharing.opened(guest, sharing.CREAT | 2)
    number = fork(guest, lambda: some(guest))
    for _ in range(rng.randint(1, 3)):
        rng.choice([sharing.read, sharing.write, sharing.seek])(guest, Word(word))
    some(guest, 1)
    for _ in range(rng.randint(0, 2)):
        wait(guest, number)


def serves_itself(guest: Guest) -> None:
    """A child connects to its parent."""
    if not may_fork(guest):
        return
    number = fork(guest, lambda: nets.visits(guest))
    nets.serves(guest)
    wait(guest, number)


def signals(guest: Guest) -> None:
    """A signal to a child, which waits in a call or computes."""
    rng = guest.rng
    if not may_fork(guest):
        return
    signal = rng.choice([10, 12, 14, 1, 16])
    handler = rng.choice([Handler.PLAIN.place(), Handler.WRITES.place(), IGNORE, DEFAULT])
    install(guest, signal, handler, rng.choice([0, SA_RESTART]))
    reading, writing = sharing.pipe(guest)

    def child() -> None:
        sharing.read(guest, Word(reading))
        guest.mark(Mark.INTERRUPTED)

    number = fork(guest, child)
    yields(guest, rng.randint(0, 3))
    guest.call(Call.KILL, Word(number), rng.choice([signal, signal, 0, 9]))
    guest.call(Call.TGKILL, Word(number), Word(number), rng.choice([signal, 0]))
    yields(guest, rng.randint(0, 2))
    sharing.write(guest, Word(writing))
    sharing.ends_at_last(guest, writing)
    wait(guest, number)


def orphans(guest: Guest) -> None:
    """A child that has a child of its own, and ends first or last."""
    if not may_fork(guest):
        return

    def child() -> None:
        if may_fork(guest):
            number = fork(guest, lambda: guest.call(Call.GETPPID))
            if guest.rng.random() < 0.5:
                wait(guest, number)

    number = fork(guest, child)
    yields(guest, guest.rng.randrange(4))
    if guest.rng.random() < 0.5:
        wait(guest, number)


def told_of_ends(guest: Guest) -> None:
    """A handler for the end of a child, and for a pipe that nobody reads."""
    rng = guest.rng
    for signal in rng.sample([CHILD_ENDED, PIPE_BROKEN], rng.randint(1, 2)):
        install(guest, signal, rng.choice([Handler.PLAIN.place(), IGNORE]), rng.choice([0, SA_RESTART]))


def others(guest: Guest) -> None:
    """Asks for any process, or sends it a signal that mostly does nothing."""
    rng = guest.rng
    for _ in range(rng.randint(1, 3)):
        number = rng.choice([guest.place.process, 40000, 40001, 40002, 40003, 40004])
        signal = rng.choice([0, 0, 0, 17, 23, 28, 10, 15])
        guest.call(rng.choice([Call.KILL, Call.TGKILL]), number, signal if rng.random() < 0.7 else number, signal)


def no_child(guest: Guest) -> None:
    """A wait that is refused, or finds nobody."""
    rng = guest.rng
    pid = rng.choice([ANY_CHILD, 0, 40000, 39999, 0x80000000])
    guest.call(Call.WAIT4, pid, 0, rng.choice([NO_HANG, NO_HANG, 2]), rng.choice([0, 0, 0, 1]))


SNIPPETS = [sends, sends, chats, chats, shares, serves_itself, signals, orphans, told_of_ends, others, no_child]
