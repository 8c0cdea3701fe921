"""A job that has something of each kind open at once, keeps it for a while, and then uses all of it."""

import random

from guests import families, nets, sharing, signals, threads
from guests.builder import A0, FIRST_PROCESS, Guest, Place, Register, Word
from guests.handlers import Handler, install, put_handlers
from guests.jobs import Job
from guests.layout import layout_of, strip_segments
from guests.numbers import Call, How
from guests.program import put_start
from guests.routines import put_routines

OWN, OTHER = (0, 80), (3, 81)
"""Where the two programs listen, each on its host."""
MOST_DESCRIPTORS = 24
NAME = b"x\0"
FOR_PROCESS, FOR_THREAD, HANDLED = 10, 12, 14
HELD_BACK = signals.bit(FOR_PROCESS) | signals.bit(FOR_THREAD)


def put_files(guest: Guest) -> None:
    """A file with a name, and one without any more, to which two descriptors refer."""
    name = guest.data.place(NAME)
    sharing.made(guest, Call.OPENAT, sharing.CURRENT, guest.data.place(b"a\0"), 2 | sharing.APPEND | sharing.CLOEXEC, 0)
    word = sharing.made(guest, Call.OPENAT, sharing.CURRENT, name, 2 | sharing.CREAT, 0)
    guest.call(Call.WRITE, Word(word), guest.scratch, 9)
    guest.call(Call.LSEEK, Word(word), 2, 0)
    sharing.made(guest, Call.DUP, Word(word))
    guest.call(Call.UNLINKAT, sharing.CURRENT, name, 0)


def put_channels(guest: Guest) -> tuple[int, int]:
    """A pipe with bytes, one that nobody reads, and a pair with bytes both ways; gives an empty pipe too."""
    for count in (5, 0):
        reading, writing = sharing.pipe(guest)
        guest.call(Call.WRITE, Word(writing), guest.scratch, count)
        if not count:
            guest.call(Call.CLOSE, Word(reading))
    first, second = sharing.pair(guest)
    guest.call(Call.WRITE, Word(first), guest.scratch, 3)
    guest.call(Call.WRITE, Word(second), guest.scratch, 200)
    guest.call(Call.FCNTL, Word(first), sharing.SET_OWNER, guest.place.process)
    guest.call(Call.SHUTDOWN, Word(second), 1)
    return sharing.pipe(guest)


def put_sockets(guest: Guest) -> None:
    """Sockets that are bound and not, a listener at which a connection waits, and connections to both hosts."""
    sharing.made(guest, Call.SOCKET, 2, 1 | sharing.NONBLOCK, 0)
    bound = sharing.made(guest, Call.SOCKET, 2, 1, 0)
    guest.call(Call.BIND, Word(bound), nets.address(guest, guest.place.host, 0), 16)
    listener = sharing.made(guest, Call.SOCKET, 2, 1, 0)
    guest.call(Call.BIND, Word(listener), nets.address(guest, *OWN), 16)
    guest.call(Call.LISTEN, Word(listener), 2)
    for _ in range(2):
        word = sharing.made(guest, Call.SOCKET, 2, 1, 0)
        guest.call(Call.CONNECT, Word(word), nets.address(guest, *OWN), 16)
        guest.call(Call.WRITE, Word(word), guest.scratch, 7)
    sharing.made(guest, Call.ACCEPT, Word(listener), 0, 0)
    far = sharing.made(guest, Call.SOCKET, 2, 1, 0)
    threads.yields(guest, 4)
    guest.call(Call.CONNECT, Word(far), nets.address(guest, *OTHER), 16)
    guest.call(Call.WRITE, Word(far), guest.scratch, 11)


def put_signals(guest: Guest) -> None:
    """Signals for the process and for a thread, which hold them back, and a thread that waits in a handler."""
    def is_told() -> None:
        signals.send(guest, HANDLED)
        threads.leave(guest)

    for signal in (FOR_PROCESS, FOR_THREAD):
        install(guest, signal, Handler.PLAIN.place())
    install(guest, HANDLED, Handler.WAITS.place())
    signals.change_mask(guest, How.BLOCK, HELD_BACK)
    guest.call(Call.KILL, guest.place.process, FOR_PROCESS)
    signals.send(guest, FOR_THREAD)
    threads.spawn(guest, is_told)


def put_processes(guest: Guest, reading: int, writing: int) -> None:
    """A child that has ended, one that waits in a read, and a thread that waits on a word."""
    def reads() -> None:
        guest.call(Call.CLOSE, Word(writing))
        guest.call(Call.READ, Word(reading), guest.scratch, 8)

    def waits() -> None:
        threads.wait(guest, guest.data.word(), 0)
        threads.leave(guest)

    families.fork(guest, lambda: None)
    families.fork(guest, reads)
    threads.spawn(guest, waits)


def put_uses(guest: Guest) -> None:
    """Reads, writes and asks at every descriptor, waits for the children, and ends."""
    rng = guest.rng
    for fd in rng.sample(range(3, MOST_DESCRIPTORS), 12):
        guest.ask(Call.FCNTL, fd, sharing.SET_FLAGS, sharing.NONBLOCK)
        rng.choice([sharing.read, sharing.write, *sharing.ON_ANY])(guest, fd)
        if rng.random() < 0.2:
            guest.call(Call.CLOSE, fd)
    guest.call(Call.WAIT4, families.ANY_CHILD, 0, families.NO_HANG, 0)
    sharing.made(guest, Call.SOCKET, 2, 1, 0)
    guest.call(Call.BIND, Register(A0), nets.address(guest, guest.place.host, 0), 16)
    guest.flush()
    guest.ask(Call.EXIT_GROUP, 0)


def put_first(guest: Guest) -> None:
    """The program of host 0."""
    put_files(guest)
    install(guest, families.PIPE_BROKEN, Handler.PLAIN.place())
    reading, writing = put_channels(guest)
    put_sockets(guest)
    put_signals(guest)
    put_processes(guest, reading, writing)
    threads.yields(guest, 16)
    signals.change_mask(guest, How.UNBLOCK, HELD_BACK)
    put_uses(guest)


def put_second(guest: Guest) -> None:
    """The program of host 3: a listener, and the connection of the other program."""
    listener = sharing.made(guest, Call.SOCKET, 2, 1, 0)
    guest.call(Call.BIND, Word(listener), nets.address(guest, *OTHER), 16)
    guest.call(Call.LISTEN, Word(listener), 1)
    word = sharing.made(guest, Call.ACCEPT, Word(listener), 0, 0)
    guest.call(Call.WRITE, Word(word), guest.scratch, 100)
    threads.yields(guest, 14)
    put_uses(guest)


def make_everything(rng: random.Random) -> Job:
    """The job; the layout of its programs and what they do at last follow from this source of numbers."""
    files = {"a": rng.randbytes(30)}
    words = ["--file", "a"]
    for index, (host, put) in enumerate(((OWN[0], put_first), (OTHER[0], put_second))):
        guest = Guest(rng, layout_of(rng), Place(FIRST_PROCESS + index, host, (OWN, OTHER)))
        put_start(guest)
        put(guest)
        guest.put_all_later()
        put_routines(guest)
        put_handlers(guest)
        guest.put_all_later()
        files[f"g{index}.elf"] = guest.file(strip_segments(rng, guest.layout))
        words.append(f"{host}:g{index}.elf")
    return Job(files, words)
