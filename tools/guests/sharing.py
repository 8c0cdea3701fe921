"""Snippets of what a process has open: files, pipes, pairs, counters, and the descriptors that refer to them."""

from collections.abc import Callable

from guests.builder import A0, SCRATCH_BYTES, Area, Guest, Operand, OwnPlace, Register, Word
from guests.layout import STACK
from guests.numbers import Call
from guests.routines import mix_memory, mix_own

APPEND, NONBLOCK, CLOEXEC = 0x400, 0x800, 0x80000
CREAT, EXCL, TRUNC = 0x40, 0x80, 0x200
CURRENT = -100 & 0xFFFFFFFF
NONE = 0xFFFFFFFF
STREAM, DATAGRAM = 1, 2
LOCAL = 1
FULL = 65_536
NAMES = [b"a", b"b", b"text", b"d/e", b"n" * 255]
SET_FLAGS, SET_OWNER = 4, 8
FILE_LIMIT = 67_108_864
LOOPBACK = bytes([2, 0, 0, 80, 127, 0, 0, 1]) + bytes(8)  # port 80 of the own host


def some_flags(guest: Guest) -> int:
    """Flags of a call that makes descriptors; one that is none now and then."""
    return guest.rng.choice([0, 0, 0, NONBLOCK, NONBLOCK, CLOEXEC, NONBLOCK | CLOEXEC, 1])


def keep(guest: Guest) -> int:
    """Keeps the descriptor that a call answered, and gives the word in which it is."""
    word = guest.data.word(NONE)
    guest.store(word, Register(A0))
    guest.descriptors.append(word)
    return word


def made(guest: Guest, number: Call, *arguments: Operand) -> int:
    """Makes a call that answers a descriptor."""
    guest.call(number, *arguments)
    return keep(guest)


def two_made(guest: Guest, number: Call, *before: Operand, flags: int = 0) -> tuple[int, int]:
    """Makes a call that writes two descriptors; the place of them comes behind the arguments `before`."""
    place = guest.data.place(b"\xff" * 8)
    arguments = [*before, place] if before else [place, flags]
    guest.call(number, *arguments)
    mix_memory(guest, place, 2)
    guest.descriptors += [place, place + 4]
    return place, place + 4


def some_descriptor(guest: Guest) -> Operand:
    """A descriptor that was made, mostly."""
    rng = guest.rng
    if guest.descriptors and rng.random() < 0.85:
        return Word(rng.choice(guest.descriptors[-8:]))
    return rng.choice([0, 1, 2, 3, 4, 5, 9, 255, 256, NONE])


def closable(guest: Guest) -> Operand:
    """A descriptor that isn't one of the console's."""
    operand = some_descriptor(guest)
    return guest.rng.choice([3, 7, 255, 256, NONE]) if isinstance(operand, int) else operand


def path(guest: Guest) -> int:
    return guest.data.place(guest.rng.choice([*NAMES[:3], *NAMES]) + b"\0")


def does_not_block(guest: Guest, descriptor: Operand) -> None:
    """Reads and writes answer in place of waiting, mostly."""
    if guest.rng.random() < 0.8:
        guest.ask(Call.FCNTL, descriptor, SET_FLAGS, NONBLOCK)


def read(guest: Guest, descriptor: Operand) -> None:
    """Reads some bytes, and mixes them."""
    count = guest.rng.choice([0, 1, 5, 8, 64, 64, 200, SCRATCH_BYTES])
    guest.call(Call.READ, descriptor, guest.scratch, count)
    mix_memory(guest, guest.scratch, 64)


def write(guest: Guest, descriptor: Operand) -> None:
    """Writes some bytes."""
    rng = guest.rng
    count = rng.choice([0, 1, 3, 8, 17, 100, SCRATCH_BYTES])
    guest.call(Call.WRITE, descriptor, guest.scratch, count)
    if rng.random() < 0.05:
        guest.call(Call.WRITE, descriptor, STACK, rng.choice([4096, 4097, 65_535, FULL, 70_000]))


def pipe(guest: Guest, flags: int = 0) -> tuple[int, int]:
    """The words of the reading and the writing end of a pipe."""
    return two_made(guest, Call.PIPE2, flags=flags)


def pair(guest: Guest, kind: int = STREAM) -> tuple[int, int]:
    """The words of both ends of a pair."""
    return two_made(guest, Call.SOCKETPAIR, LOCAL, kind, 0)


def pipes(guest: Guest) -> None:
    """A pipe that is written and read."""
    reading, writing = pipe(guest, some_flags(guest))
    write(guest, Word(writing))
    does_not_block(guest, Word(reading))
    read(guest, Word(reading))


def pairs(guest: Guest) -> None:
    """A pair with bytes both ways, or one that is refused."""
    rng = guest.rng
    if rng.random() < 0.2:
        domain, kind, protocol = rng.choice([(2, 1, 0), (3, 1, 0), (1, 3, 0), (1, 1, 6), (1, 1 | 0x10, 0)])
        two_made(guest, Call.SOCKETPAIR, domain, kind, protocol)
        return
    ends = pair(guest, STREAM | rng.choice([0, NONBLOCK, CLOEXEC]))
    for end in rng.sample(ends, 2):
        write(guest, Word(end))
    for end in rng.sample(ends, rng.randrange(3)):
        does_not_block(guest, Word(end))
        read(guest, Word(end))


def ends_at_last(guest: Guest, *words: int) -> None:
    """Closes descriptors, mostly."""
    for word in words:
        if guest.rng.random() < 0.93:
            guest.call(Call.CLOSE, Word(word))


def datagrams(guest: Guest) -> None:
    """A pair of datagram ends, which refuses checkpoints while it is open."""
    rng = guest.rng
    ends = pair(guest, DATAGRAM | rng.choice([0, NONBLOCK]))
    for end in rng.sample(ends, 2):
        does_not_block(guest, Word(end))
        write(guest, Word(end))
    if rng.random() < 0.3:
        guest.call(Call.WRITE, Word(ends[0]), STACK, 4097)
    for end in ends:
        read(guest, Word(end))
    guest.call(rng.choice([Call.SHUTDOWN, Call.LISTEN, Call.ACCEPT]), Word(ends[0]), 1, 0)
    ends_at_last(guest, ends[1])
    write(guest, Word(ends[0]))
    read(guest, Word(ends[0]))
    ends_at_last(guest, ends[0])


def counter(guest: Guest) -> None:
    """An event counter, which refuses checkpoints while it is open."""
    rng = guest.rng
    word = made(guest, Call.EVENTFD2, rng.choice([0, 1, 5, NONE]), rng.choice([NONBLOCK, NONBLOCK, 0, CLOEXEC, 1]))
    does_not_block(guest, Word(word))
    for value in rng.sample([1, 7, 2**64 - 2, 2**64 - 1, 2**63], 3):
        guest.call(Call.WRITE, Word(word), guest.data.place(value.to_bytes(8, "little")), rng.choice([8, 8, 8, 7, 9]))
        guest.call(Call.READ, Word(word), OwnPlace(Area.BYTES), rng.choice([8, 8, 4, 9]))
    mix_own(guest)
    ends_at_last(guest, word)


def opened(guest: Guest, flags: int) -> int:
    """The word of a descriptor of a file."""
    return made(guest, Call.OPENAT, CURRENT, path(guest), flags, 0)


def files(guest: Guest) -> None:
    """A file that is made or opened, written, sought in and read."""
    rng = guest.rng
    more = rng.choice([0, 0, APPEND, TRUNC, EXCL, CLOEXEC, NONBLOCK])
    word = opened(guest, rng.choice([0, 1, 2, 2, 3]) | rng.choice([0, CREAT, CREAT]) | more)
    for _ in range(rng.randint(1, 4)):
        rng.choice([read, write, write, seek])(guest, Word(word))
    if rng.random() < 0.3:
        guest.call(Call.UNLINKAT, rng.choice([CURRENT, CURRENT, 3]), path(guest), rng.choice([0, 0, 0, 1]))


def seek(guest: Guest, descriptor: Operand) -> None:
    """Another offset; where it is too far, what is written there is refused."""
    rng = guest.rng
    far = rng.choice([FILE_LIMIT, 0x7FFFFFFF, 0x7FFFFFF0])
    offset = rng.choice([0, 1, 10, -1 & NONE, -10 & NONE, 300, far])
    guest.call(Call.LSEEK, descriptor, offset, rng.choice([0, 0, 1, 2, 3]))
    if offset == far:
        guest.call(Call.WRITE, descriptor, guest.scratch, rng.choice([1, 20, SCRATCH_BYTES]))
        guest.call(Call.LSEEK, descriptor, 0, 0)


def copies(guest: Guest) -> None:
    """Further descriptors, marks, flags and owners."""
    rng = guest.rng
    for _ in range(rng.randint(1, 3)):
        descriptor = some_descriptor(guest)
        match rng.randrange(4):
            case 0:
                made(guest, Call.DUP, descriptor)
            case 1:
                guest.call(Call.DUP3, descriptor, rng.choice([3, 9, 100, 255, 256]), rng.choice([0, CLOEXEC, NONBLOCK]))
            case 2:
                made(guest, Call.FCNTL, descriptor, rng.choice([0, 1030]), rng.choice([0, 20, 250, 255, 255, 256]))
            case _:
                command = rng.choice([1, 2, 3, 4, 8, 8, 9, 5])
                owner = rng.choice([0, guest.place.process, guest.place.process + 1, 40009])
                argument = owner if command == SET_OWNER else rng.choice([0, 1, 0xC00])
                guest.call(Call.FCNTL, descriptor, command, argument)
                guest.call(Call.FCNTL, descriptor, rng.choice([1, 3, 9]), 0)


def closes(guest: Guest) -> None:
    """Closes some of what was made."""
    for _ in range(guest.rng.randint(1, 3)):
        guest.call(Call.CLOSE, closable(guest))


def fills(guest: Guest) -> None:
    """Fills a pipe until no more has room, and reads some of it."""
    reading, writing = pipe(guest, NONBLOCK)
    for _ in range(guest.rng.randint(1, 3)):
        guest.call(Call.WRITE, Word(writing), STACK, guest.rng.choice([FULL, FULL - 1, 40_000]))
    guest.call(Call.READ, Word(reading), guest.scratch, SCRATCH_BYTES)
    if guest.rng.random() < 0.5:
        guest.call(Call.CLOSE, Word(reading))
        guest.call(Call.RT_SIGPROCMASK, 0, guest.data.place((1 << 12).to_bytes(8, "little")), 0, 8)
        guest.call(Call.WRITE, Word(writing), guest.scratch, 1)


def mess(guest: Guest) -> None:
    """Calls on any descriptor, whatever it refers to."""
    rng = guest.rng
    for _ in range(rng.randint(2, 5)):
        descriptor = some_descriptor(guest)
        does_not_block(guest, descriptor)
        rng.choice(ON_ANY)(guest, descriptor)


def ask_address(guest: Guest, call: Call, descriptor: Operand) -> None:
    """A call that writes an address, for which there is room or not; what is told is mixed."""
    guest.store(OwnPlace(Area.BYTES + 20), guest.rng.choice([16, 16, 2, 0, 5]))
    guest.call(call, descriptor, OwnPlace(Area.BYTES), OwnPlace(Area.BYTES + 20))
    mix_own(guest)


ON_ANY: list[Callable[[Guest, Operand], None]] = [
    read, read, write, write, seek,
    lambda guest, fd: ask_address(guest, Call.GETSOCKNAME, fd),
    lambda guest, fd: ask_address(guest, Call.GETPEERNAME, fd),
    lambda guest, fd: ask_address(guest, Call.ACCEPT, fd),
    lambda guest, fd: guest.call(Call.SHUTDOWN, fd, guest.rng.choice([0, 1, 2, 3, 3])),
    lambda guest, fd: guest.call(Call.SETSOCKOPT, fd, 1, 2, 0, 0),
    lambda guest, fd: guest.call(Call.LISTEN, fd, guest.rng.choice([0, 1, 200])),
    lambda guest, fd: guest.call(Call.CONNECT, fd, guest.data.place(LOOPBACK), 16),
    lambda guest, fd: guest.call(Call.BIND, fd, guest.data.place(LOOPBACK), 16),
]

SNIPPETS = [pipes, pipes, pairs, pairs, files, files, files, copies, copies, closes, fills, mess, mess, mess]
REFUSING = [datagrams, counter]  # what these have open refuses checkpoints
