"""Calls of which each error has its cause in turn, on a state with an object of each kind."""

from dataclasses import dataclass
from typing import Callable

from ..addresses import address_bytes
from ..numbers import Errno, Number
from ..objects import NONBLOCK, READ_AND_WRITE, Address, Channel, ChannelKind, ChannelName, Description, DescriptionName
from ..objects import Socket
from .bench import DATA, FIRST, LOCKED, NOWHERE, SECOND, TEXT, Bench, Came

CONSOLE, DATAGRAM, OTHER_DATAGRAM, STREAM, OTHER_STREAM, SOCKET, LISTENER, CONNECTED = 0, 3, 4, 5, 6, 7, 8, 9
UNBOUND, READING, WRITING, COUNTER, FILE = 10, 11, 12, 13, 14
"""The descriptors of `everything`."""
FREE, NO_DESCRIPTOR = 20, 256
LENGTH_PLACE = DATA + 64
CREAT, READ_WRITE = 0x40, 2
FAR = 100_000
"""From here on are the numbers of what nobody made by a call."""
PORTS = range(32_768, 61_000)


def everything(is_spoiled: bool = False) -> Bench:
    """A bench with something of each kind, a listener at port 90 of host 3, and another process on host 0."""
    bench = Bench((0, 3, 0), is_spoiled)
    bench.listener(90, 2, by=SECOND)
    bench.pair(2)
    bench.pair(1)
    bench.call(Number.SOCKET, 2, 1, 0)
    bench.listener(80, 1)
    bench.connected(3, 90)
    bench.call(Number.SOCKET, 2, 1, 0)
    bench.pipe()
    bench.call(Number.EVENTFD2, 1, 0)
    bench.open(b"old", CREAT | READ_WRITE)
    bench.put((16).to_bytes(4, "little"), LENGTH_PLACE)
    return bench


@dataclass
class Asked:
    """A call on a bench, of which things can be spoiled."""

    bench: Bench
    number: Number
    arguments: list[int]

    def give(self, index: int, value: int) -> None:
        """Another argument."""
        self.arguments[index] = value


Spoil = Callable[[Asked], None]
Order = list[tuple[Errno | Came, Spoil]]


def nothing(_asked: Asked) -> None:
    """Spoils nothing."""


@dataclass(frozen=True)
class Ordered:
    """A call that is answered, and the errors of its row in order, each with what causes it."""

    number: Number
    arguments: tuple[int, ...]
    order: Order
    prepare: Spoil = nothing

    def ask(self) -> Asked:
        """The call, on a bench of its own."""
        asked = Asked(everything(is_spoiled=True), self.number, list(self.arguments))
        self.prepare(asked)
        return asked

    def found(self) -> list[tuple[int | Came, int | Came]]:
        """For each error, what is expected, and what the call comes to in which it and all later ones have a cause."""
        found: list[tuple[int | Came, int | Came]] = []
        for place, (expected, _) in enumerate(self.order):
            asked = self.ask()
            for _, spoil in reversed(self.order[place:]):
                spoil(asked)
            wanted = expected if isinstance(expected, Came) else -expected
            found.append((wanted, asked.bench.call(asked.number, *asked.arguments)))
        return found

    def answered(self) -> int | Came:
        """What it comes to without a cause of an error."""
        asked = self.ask()
        return asked.bench.call(asked.number, *asked.arguments)


def argument(index: int, value: int) -> Spoil:
    """Another argument."""
    return lambda asked: asked.give(index, value)


def put_address(host: tuple[int, int, int, int], port: int, family: int = 2) -> Spoil:
    """An address in memory, with bytes behind the host at which nobody looks."""
    data = bytes([family, 0, port >> 8, port & 255, *host, *range(8)])
    return lambda asked: put(asked, data)


def put(asked: Asked, data: bytes, at: int = TEXT) -> None:
    """Bytes in memory."""
    asked.bench.put(data, at)


def address_of(host: int, port: int) -> Spoil:
    """The address of a host in memory."""
    return lambda asked: put(asked, address_bytes(Address(host, port)))


ON_ALL_PORTS = {
    DescriptionName(FIRST, FAR + port): Description(READ_AND_WRITE, object=Socket(0, port)) for port in PORTS
}
"""Sockets on all automatic ports of host 0, which nobody holds."""


def use_all_ports(asked: Asked) -> None:
    """No automatic port of host 0 is left."""
    asked.bench.machine.descriptions |= ON_ALL_PORTS


def has_made_all(asked: Asked) -> None:
    """The process has no number left for what it makes."""
    asked.bench.process().made = 2**32 - 4


def all_channels(asked: Asked) -> None:
    """There are 256 channels."""
    names = [ChannelName(FIRST, FAR + place) for place in range(256)]
    asked.bench.machine.channels |= {name: Channel(ChannelKind.PIPE) for name in names}


def few_descriptors(left: int) -> Spoil:
    """So many descriptors are free."""
    return lambda asked: asked.bench.fill_descriptors(left)


def does_not_block(asked: Asked) -> None:
    """The description that the call names does not block."""
    asked.bench.described(asked.arguments[0]).flags |= NONBLOCK


def together(*spoils: Spoil) -> Spoil:
    """All of these."""
    return lambda asked: [spoil(asked) for spoil in spoils] and None


BAD = (Errno.EBADF, argument(0, NO_DESCRIPTOR))
NO_BUFFER = (Errno.EFAULT, argument(1, NOWHERE))
LOCKED_BUFFER = (Errno.EFAULT, argument(1, LOCKED))
MADE_ALL = (Errno.ENFILE, has_made_all)
CHANNELS = (Errno.ENFILE, all_channels)
NO_DESCRIPTORS = (Errno.EMFILE, few_descriptors(0))
ONE_DESCRIPTOR = (Errno.EMFILE, few_descriptors(1))
