"""What processes share: open descriptions with their objects, files, and channels (docs/CALLS.md, "Words")."""

from collections import deque
from dataclasses import dataclass, field
from enum import IntEnum

ACCESS_MODE, READ_ONLY, WRITE_ONLY, READ_AND_WRITE, BOTH_MODES = 3, 0, 1, 2, 3
APPEND, NONBLOCK = 0x400, 0x800
SETTABLE_FLAGS = APPEND | NONBLOCK
"""The status flags that `fcntl` changes."""


@dataclass(frozen=True, order=True)
class DescriptionName:
    """The process that made a description, and that process's running number."""

    pid: int
    num: int


@dataclass(frozen=True, order=True)
class ChannelName:
    """The process that made a channel, and that process's running number."""

    pid: int
    num: int


@dataclass(frozen=True, order=True)
class DirectionName:
    """A direction of a channel: the channel, and the side that sends."""

    channel: ChannelName
    side: int


@dataclass(frozen=True, order=True)
class Address:
    """A host, 0 to 15, and a port."""

    host: int
    port: int


@dataclass
class File:
    """A file's name, None where it has none any more, and its bytes."""

    name: bytes | None
    data: bytearray = field(default_factory=bytearray)


@dataclass
class Direction:
    """The bytes that a side sent and that are not read yet, and how many of them have arrived."""

    data: bytearray = field(default_factory=bytearray)
    arrived: int = 0
    ended: bool = False
    unread: bool = False

    def on_their_way(self) -> int:
        """How many bytes have not arrived."""
        return len(self.data) - self.arrived

    def is_broken(self) -> bool:
        """Whether nothing more can be sent: it is ended, or nobody reads it."""
        return self.ended or self.unread

    def make_unread(self) -> None:
        """Nobody reads it any more; what was sent is gone."""
        self.unread = True
        self.data.clear()
        self.arrived = 0

    def take(self, count: int) -> bytes:
        """Reads bytes that have arrived."""
        taken = bytes(self.data[:count])
        del self.data[:count]
        self.arrived -= count
        return taken


class ChannelKind(IntEnum):
    """How a channel was made; the numbers are those of images."""

    PAIR = 0
    INTERNET = 1
    PIPE = 2


@dataclass
class Channel:
    """Two sides, and a direction from each to the other, under the number of the side that sends.

    The sides of an internet channel have addresses."""

    kind: ChannelKind
    addresses: tuple[Address, Address] | None = None
    directions: tuple[Direction, Direction] = field(default_factory=lambda: (Direction(), Direction()))
    open_sides: set[int] = field(default_factory=lambda: {0, 1})

    def sent_by(self, side: int) -> Direction:
        """The direction from a side."""
        return self.directions[side]

    def sent_to(self, side: int) -> Direction:
        """The direction to a side."""
        return self.directions[1 - side]

    def close(self, side: int) -> None:
        """A side is closed."""
        self.sent_by(side).ended = True
        self.sent_to(side).make_unread()
        self.open_sides.discard(side)


@dataclass(frozen=True)
class Console:
    """The console."""


@dataclass
class OpenFile:
    """A file by its number, and an offset."""

    file: int
    offset: int = 0


@dataclass(frozen=True)
class ChannelEnd:
    """A side of a channel."""

    channel: ChannelName
    side: int


@dataclass(frozen=True)
class Socket:
    """A socket of a host, bound to a port or not."""

    host: int
    port: int | None = None

    def address(self) -> Address | None:
        """Where it is bound."""
        return None if self.port is None else Address(self.host, self.port)


@dataclass
class Listener:
    """The channels of the connections that wait for `accept`, the first one first."""

    address: Address
    backlog: int
    waiting: deque[ChannelName] = field(default_factory=deque)


@dataclass
class DatagramEnd:
    """The description of the other end, and the messages that wait here, the first one first."""

    other: DescriptionName
    messages: deque[bytes] = field(default_factory=deque)


@dataclass
class Counter:
    """A number of 64 bits."""

    value: int


Object = Console | OpenFile | ChannelEnd | Socket | Listener | DatagramEnd | Counter


@dataclass
class Description:
    """An open description: its status flags, its owner (0: none) and its object."""

    flags: int
    owner: int = 0
    object: Object = field(default_factory=Console)

    def can_read(self) -> bool:
        """Whether it is open for reading."""
        return self.flags & ACCESS_MODE in (READ_ONLY, READ_AND_WRITE)

    def can_write(self) -> bool:
        """Whether it is open for writing."""
        return self.flags & ACCESS_MODE in (WRITE_ONLY, READ_AND_WRITE)
