"""The errors in order of the rows of descriptors, files, transfers, pipes, pairs and counters."""

from ..numbers import Command, Errno, Number
from ..objects import Counter, File, OpenFile
from .bench import DATA, FIRST, HERE, LOCKED, NOWHERE, SECOND, TEXT, Came
from .orders import (
    BAD,
    CHANNELS,
    CONSOLE,
    COUNTER,
    CREAT,
    DATAGRAM,
    FILE,
    FREE,
    LOCKED_BUFFER,
    MADE_ALL,
    NO_BUFFER,
    NO_DESCRIPTORS,
    ONE_DESCRIPTOR,
    OTHER_DATAGRAM,
    READING,
    SOCKET,
    STREAM,
    WRITING,
    Asked,
    Order,
    Ordered,
    Spoil,
    argument,
    does_not_block,
    put,
    together,
)

EXCL, TRUNC = 0x80, 0x200
DESCRIPTORS = [
    Ordered(Number.DUP, (CONSOLE,), [BAD, NO_DESCRIPTORS]),
    Ordered(Number.DUP3, (CONSOLE, FREE, 0), [BAD, (Errno.EINVAL, argument(2, 1)), (Errno.EBADF, argument(1, 256))]),
    Ordered(Number.DUP3, (CONSOLE, FREE, 0), [BAD, (Errno.EINVAL, argument(1, CONSOLE))]),
    Ordered(Number.FCNTL, (CONSOLE, Command.DUPFD, FREE), [BAD, (Errno.EINVAL, argument(2, 256)), NO_DESCRIPTORS]),
    Ordered(Number.FCNTL, (CONSOLE, Command.SETOWN, FIRST), [BAD, (Errno.ESRCH, argument(2, SECOND))]),
    Ordered(Number.FCNTL, (CONSOLE, Command.GETFD, 0), [BAD, (Errno.EINVAL, argument(1, 7))]),
    Ordered(Number.CLOSE, (CONSOLE,), [BAD]),
]


def path(text: bytes) -> Spoil:
    """A path in memory, with a zero byte behind it."""
    return lambda asked: put(asked, text + b"\0")


def no_file_number(asked: Asked) -> None:
    """No number of a file is left, and no file has the name."""
    put(asked, b"new\0")
    asked.bench.machine.next_file = 2**32 - 1


NO_DIRECTORY = (Errno.EBADF, argument(0, 3))
TOO_LONG = (Errno.ENAMETOOLONG, path(b"n" * 256))
NO_SUCH_FILE = (Errno.ENOENT, path(b"new"))
OPENING: Order = [
    NO_BUFFER,
    NO_DIRECTORY,
    TOO_LONG,
    (Errno.ENOENT, path(b"")),
    (Errno.EINVAL, lambda asked: asked.give(2, asked.arguments[2] | 3)),
    MADE_ALL,
    NO_DESCRIPTORS,
]
UNLINKING: Order = [NO_BUFFER, NO_DIRECTORY, (Errno.EINVAL, argument(2, 0x200)), TOO_LONG, NO_SUCH_FILE]
EXISTS = (Errno.EEXIST, argument(2, CREAT | EXCL | TRUNC))
SEEKING: Order = [BAD, (Errno.ESPIPE, argument(0, CONSOLE))]
FILES = [
    Ordered(Number.UNLINKAT, (HERE, TEXT, 0), UNLINKING, path(b"old")),
    Ordered(Number.OPENAT, (HERE, TEXT, 0), [*OPENING, NO_SUCH_FILE], path(b"old")),
    Ordered(Number.OPENAT, (HERE, TEXT, CREAT), [*OPENING, (Errno.ENOSPC, no_file_number)], path(b"old")),
    Ordered(Number.OPENAT, (HERE, TEXT, CREAT), [*OPENING, EXISTS], path(b"old")),
    Ordered(Number.LSEEK, (FILE, 0, 0), [*SEEKING, (Errno.EINVAL, argument(2, 3))]),
    Ordered(Number.LSEEK, (FILE, 0, 0), [*SEEKING, (Errno.EINVAL, argument(1, -1))]),
]


def arrived(count: int) -> Spoil:
    """So many bytes have arrived at the stream."""

    def spoil(asked: Asked) -> None:
        direction = asked.bench.channel(STREAM).sent_to(0)
        direction.data[:], direction.arrived = bytes(count), count

    return spoil


def messages(fd: int, count: int) -> Spoil:
    """So many messages wait at a datagram end."""

    def spoil(asked: Asked) -> None:
        waiting = asked.bench.object(fd).messages
        waiting.clear()
        waiting.extend([b""] * count)

    return spoil


def counted(value: int) -> Spoil:
    """The counter has a value."""
    return lambda asked: setattr(asked.bench.described(COUNTER), "object", Counter(value))


def end_direction(asked: Asked) -> None:
    """The stream sends no more."""
    asked.bench.channel(STREAM).sent_by(0).ended = True


def fill_direction(asked: Asked) -> None:
    """65,536 bytes that the stream sent are not read."""
    asked.bench.channel(STREAM).sent_by(0).data[:] = bytes(65_536)


def at_last_offset(asked: Asked) -> None:
    """The file's offset is the last one."""
    asked.bench.described(FILE).object = OpenFile(1, 2**31 - 1)


def fill_files(asked: Asked) -> None:
    """All files together have all bytes that they may have."""
    asked.bench.machine.files[2] = File(b"large", bytearray(67_108_864))


def quit_other_end(asked: Asked) -> None:
    """The other datagram end is closed."""
    asked.bench.call(Number.CLOSE, OTHER_DATAGRAM)


def again(spoil: Spoil) -> tuple[Errno, Spoil]:
    """EAGAIN, where a call that does not block would wait."""
    return Errno.EAGAIN, together(spoil, does_not_block)


READING_ERRORS: Order = [LOCKED_BUFFER, BAD, (Errno.EBADF, argument(0, WRITING))]
WRITING_ERRORS: Order = [NO_BUFFER, BAD, (Errno.EBADF, argument(0, READING))]
COUNTING: Order = [BAD, (Errno.EINVAL, argument(2, 7))]
ALL_ONES = (Errno.EINVAL, lambda asked: put(asked, b"\xff" * 8, DATA))
TRANSFERS = [
    Ordered(Number.READ, (FILE, DATA, 1), [*READING_ERRORS, (Errno.ENOTCONN, argument(0, SOCKET))]),
    Ordered(Number.READ, (STREAM, DATA, 1), [*READING_ERRORS, (Came.WAITS, arrived(0))], arrived(1)),
    Ordered(Number.READ, (STREAM, DATA, 1), [*READING_ERRORS, again(arrived(0))], arrived(1)),
    Ordered(Number.READ, (DATAGRAM, DATA, 1), [LOCKED_BUFFER, BAD, (Came.WAITS, messages(DATAGRAM, 0))],
            messages(DATAGRAM, 1)),
    Ordered(Number.READ, (COUNTER, DATA, 8), [LOCKED_BUFFER, *COUNTING, (Came.WAITS, counted(0))]),
    Ordered(Number.READ, (COUNTER, DATA, 8), [LOCKED_BUFFER, *COUNTING, again(counted(0))]),
    Ordered(Number.WRITE, (FILE, DATA, 1), [
        *WRITING_ERRORS, (Errno.EFBIG, at_last_offset), (Errno.ENOSPC, fill_files)]),
    Ordered(Number.WRITE, (STREAM, DATA, 1), [
        *WRITING_ERRORS, (Errno.EPIPE, end_direction), (Came.WAITS, fill_direction)]),
    Ordered(Number.WRITE, (STREAM, DATA, 1), [*WRITING_ERRORS, again(fill_direction)]),
    Ordered(Number.WRITE, (FILE, DATA, 1), [*WRITING_ERRORS, (Errno.EPIPE, argument(0, SOCKET))]),
    Ordered(Number.WRITE, (DATAGRAM, DATA, 1), [
        *WRITING_ERRORS, (Errno.EMSGSIZE, argument(2, 4097)), (Errno.ECONNREFUSED, quit_other_end)]),
    Ordered(Number.WRITE, (DATAGRAM, DATA, 1), [
        *WRITING_ERRORS, (Errno.EMSGSIZE, argument(2, 4097)), (Came.WAITS, messages(OTHER_DATAGRAM, 64))]),
    Ordered(Number.WRITE, (COUNTER, DATA, 8), [NO_BUFFER, *COUNTING, ALL_ONES]),
    Ordered(Number.WRITE, (COUNTER, DATA, 8), [NO_BUFFER, *COUNTING, (Came.WAITS, counted(2**64 - 2))],
            lambda asked: put(asked, b"\1" + bytes(7), DATA)),
]
PAIRS = [
    Ordered(Number.EVENTFD2, (0, 0), [(Errno.EINVAL, argument(1, 1)), MADE_ALL, NO_DESCRIPTORS]),
    Ordered(Number.PIPE2, (DATA, 0), [
        (Errno.EFAULT, argument(0, LOCKED)), (Errno.EINVAL, argument(1, 0x400)), MADE_ALL, ONE_DESCRIPTOR]),
    Ordered(Number.PIPE2, (DATA, 0), [(Errno.EINVAL, argument(1, 0x400)), CHANNELS, ONE_DESCRIPTOR]),
    Ordered(Number.SOCKETPAIR, (1, 1, 0, DATA), [
        (Errno.EFAULT, argument(3, NOWHERE)), (Errno.EOPNOTSUPP, argument(0, 2)), (Errno.EAFNOSUPPORT, argument(0, 3)),
        (Errno.EINVAL, argument(2, 1)), CHANNELS, ONE_DESCRIPTOR]),
    Ordered(Number.SOCKETPAIR, (1, 2, 0, DATA), [(Errno.EINVAL, argument(1, 3)), MADE_ALL, ONE_DESCRIPTOR]),
]
