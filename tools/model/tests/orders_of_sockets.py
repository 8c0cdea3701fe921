"""The errors in order of the rows of sockets and of processes."""

from ..numbers import Errno, Number
from ..objects import ChannelName
from ..state import Thread, Zombie
from .bench import DATA, FIRST, LOCKED, SECOND, TEXT, THIRD, Came
from .orders import (
    BAD,
    CHANNELS,
    CONSOLE,
    DATAGRAM,
    FAR,
    LENGTH_PLACE,
    LISTENER,
    LOCKED_BUFFER,
    MADE_ALL,
    NO_BUFFER,
    NO_DESCRIPTORS,
    SOCKET,
    STREAM,
    Asked,
    Order,
    Ordered,
    address_of,
    argument,
    does_not_block,
    put_address,
    together,
    use_all_ports,
)

NO_SOCKET = (Errno.ENOTSOCK, argument(0, CONSOLE))
IS_DATAGRAM = (Errno.EOPNOTSUPP, argument(0, DATAGRAM))
TOO_SHORT = (Errno.EINVAL, argument(2, 15))
NO_LENGTH = (Errno.EFAULT, argument(2, LOCKED))


def somebody_waits(asked: Asked) -> None:
    """A connection waits at the listener."""
    asked.bench.connected(0, 80)


def nobody_waits(asked: Asked) -> None:
    """No connection waits at the listener."""
    asked.bench.object(LISTENER).waiting.clear()


def fill_backlog(asked: Asked) -> None:
    """As many wait at the listener of host 3 as its backlog."""
    asked.bench.object(3, by=SECOND).waiting.append(ChannelName(SECOND, FAR))


CONNECTING: Order = [
    NO_BUFFER,
    BAD,
    NO_SOCKET,
    IS_DATAGRAM,
    (Errno.EISCONN, argument(0, LISTENER)),
    TOO_SHORT,
    (Errno.EAFNOSUPPORT, put_address((10, 0, 0, 4), 80, 0)),
    (Errno.ECONNREFUSED, put_address((10, 0, 0, 4), 80)),
    MADE_ALL,
]
ACCEPTING: Order = [NO_LENGTH, BAD, NO_SOCKET, (Errno.EINVAL, argument(0, SOCKET)), MADE_ALL, NO_DESCRIPTORS]
SOCKETS = [
    Ordered(Number.SOCKET, (2, 1, 0), [
        (Errno.EAFNOSUPPORT, argument(0, 1)), (Errno.EINVAL, argument(1, 2)), MADE_ALL, NO_DESCRIPTORS]),
    Ordered(Number.BIND, (SOCKET, TEXT, 16), [
        NO_BUFFER, BAD, NO_SOCKET, TOO_SHORT, (Errno.EAFNOSUPPORT, put_address((10, 0, 0, 9), 80, 1)),
        (Errno.EADDRNOTAVAIL, put_address((10, 0, 0, 9), 80)), (Errno.EADDRINUSE, put_address((127, 0, 0, 1), 80)),
    ], address_of(0, 81)),
    Ordered(Number.BIND, (SOCKET, TEXT, 16), [
        NO_BUFFER, BAD, NO_SOCKET, (Errno.EINVAL, argument(0, LISTENER)), (Errno.EADDRINUSE, use_all_ports),
    ], address_of(0, 0)),
    Ordered(Number.LISTEN, (SOCKET, 1), [
        BAD, NO_SOCKET, IS_DATAGRAM, (Errno.EINVAL, argument(0, STREAM)), (Errno.EADDRINUSE, use_all_ports)]),
    Ordered(Number.ACCEPT, (LISTENER, DATA, LENGTH_PLACE), [*ACCEPTING, (Came.WAITS, nobody_waits)], somebody_waits),
    Ordered(Number.ACCEPT, (LISTENER, DATA, LENGTH_PLACE), [
        *ACCEPTING, (Errno.EAGAIN, together(nobody_waits, does_not_block))], somebody_waits),
    Ordered(Number.CONNECT, (SOCKET, TEXT, 16), [
        *CONNECTING, (Errno.EADDRNOTAVAIL, use_all_ports), (Came.WAITS, fill_backlog)], address_of(3, 90)),
    Ordered(Number.CONNECT, (SOCKET, TEXT, 16), [
        CHANNELS, (Errno.EADDRNOTAVAIL, use_all_ports), (Errno.EAGAIN, together(fill_backlog, does_not_block)),
    ], address_of(3, 90)),
    Ordered(Number.GETSOCKNAME, (SOCKET, DATA, LENGTH_PLACE), [NO_LENGTH, BAD, NO_SOCKET]),
    Ordered(Number.GETPEERNAME, (STREAM, DATA, LENGTH_PLACE), [
        LOCKED_BUFFER, BAD, NO_SOCKET, (Errno.ENOTCONN, argument(0, LISTENER))]),
    Ordered(Number.SETSOCKOPT, (SOCKET,), [BAD, NO_SOCKET]),
    Ordered(Number.SHUTDOWN, (STREAM, 0), [
        BAD, NO_SOCKET, IS_DATAGRAM, (Errno.EINVAL, argument(1, 3)), (Errno.ENOTCONN, argument(0, SOCKET))]),
]

FORK, THREAD, PARENT_SETTID = 17, 0x10F00, 0x100000


def last_number(asked: Asked) -> None:
    """No number is left."""
    asked.bench.machine.next_id = 2**31 - 1


def all_processes(asked: Asked) -> None:
    """There are 128 processes, most of which have ended."""
    numbers = range(FAR, FAR + 125)
    asked.bench.machine.zombies |= {number: Zombie(number, FIRST, 0, 1, 0) for number in numbers}


def all_threads(asked: Asked) -> None:
    """The process has 64 threads."""
    asked.bench.process().threads |= {number: Thread(number) for number in range(FAR, FAR + 63)}


def child_ended(asked: Asked) -> None:
    """A child has ended."""
    asked.bench.call(Number.EXIT, 1, by=asked.bench.fork())


def childless(asked: Asked) -> None:
    """The process has no child."""
    asked.bench.machine.zombies.clear()


def child_lives(asked: Asked) -> None:
    """The child lives."""
    childless(asked)
    asked.bench.fork()


def no_place(asked: Asked) -> None:
    """A number is to be written where it can't be, and the flags have no form."""
    asked.arguments[0:3] = [PARENT_SETTID | 5, 0, LOCKED]


NO_FORM = (Errno.EINVAL, argument(0, 18))
NO_PID = (Errno.EINVAL, argument(0, 0))
OTHER_HOST = (Errno.ESRCH, argument(0, SECOND))
WAITING: Order = [LOCKED_BUFFER, (Errno.EINVAL, argument(2, 2))]
PROCESSES = [
    Ordered(Number.KILL, (THIRD, 1), [NO_PID, (Errno.EINVAL, argument(1, 18)), OTHER_HOST]),
    Ordered(Number.TGKILL, (THIRD, THIRD, 1), [
        NO_PID, (Errno.EINVAL, argument(2, 32)), OTHER_HOST, (Errno.ESRCH, argument(1, FIRST))]),
    Ordered(Number.CLONE, (FORK, 0, 0, 0, 0), [(Errno.EFAULT, no_place), NO_FORM, (Errno.EAGAIN, all_processes)]),
    Ordered(Number.CLONE, (FORK, 0, 0, 0, 0), [NO_FORM, (Errno.EAGAIN, last_number)]),
    Ordered(Number.CLONE, (THREAD, 0, 0, 0, 0), [(Errno.EFAULT, no_place), NO_FORM, (Errno.EAGAIN, all_threads)]),
    Ordered(Number.CLONE, (THREAD, 0, 0, 0, 0), [NO_FORM, (Errno.EAGAIN, last_number)]),
    Ordered(Number.WAIT4, (-1, DATA, 0, 0), [*WAITING, (Errno.ECHILD, childless)], child_ended),
    Ordered(Number.WAIT4, (-1, DATA, 0, 0), [*WAITING, (Came.WAITS, child_lives)], child_ended),
]
