"""The reading of a shared image's files, channels and open descriptions (docs/FORMATS.md, "Shared image")."""

from collections import deque
from dataclasses import dataclass, field

from .closing import ACCEPTING_SIDE
from .files import FILES_LIMIT
from .images import NO_HOST, NO_PORT, READ_NO_MORE, SENDS_NO_MORE, ObjectKind
from .objects import (
    ACCESS_MODE,
    BOTH_MODES,
    READ_ONLY,
    SETTABLE_FLAGS,
    WRITE_ONLY,
    Address,
    Channel,
    ChannelEnd,
    ChannelKind,
    ChannelName,
    Console,
    Description,
    DescriptionName,
    Direction,
    File,
    Listener,
    Object,
    OpenFile,
    Socket,
)
from .pairs import READING_SIDE, WRITING_SIDE
from .reader import Reader
from .rows import CHANNELS_LIMIT
from .state import Machine
from .transfers import ALL_FILES_LIMIT, DIRECTION_LIMIT

HOSTS = 16
PORTS_END = 65_536
LONGEST_NAME = 255
KNOWN_FLAGS = ACCESS_MODE | SETTABLE_FLAGS
PIPE_MODES = {WRITING_SIDE: WRITE_ONLY, READING_SIDE: READ_ONLY}


@dataclass
class Shared:
    """A shared image that is read: what was read so far, the sides of channels that streams and listeners named, and
    the addresses of sockets and listeners."""

    reader: Reader
    machine: Machine
    sides: set[tuple[ChannelName, int]] = field(default_factory=set)
    addresses: set[Address] = field(default_factory=set)

    def pair(self, last: tuple[int, int]) -> tuple[int, int]:
        """A name of two numbers, above the one before."""
        pid = self.reader.word(lambda value: last[0] <= value < self.machine.next_id)
        return pid, self.reader.word(lambda value: (pid, value) > last)

    def host(self) -> int:
        """A host."""
        return self.reader.word(lambda value: value < HOSTS)


def read_files(shared: Shared) -> None:
    """The list of files, in rising order."""
    files, names, total, last = shared.machine.files, {b""}, 0, 0
    for _ in range(shared.reader.word(lambda count: count <= FILES_LIMIT)):
        last = shared.reader.word(lambda value: last < value < shared.machine.next_file)
        length = shared.reader.number(2, lambda value: value <= LONGEST_NAME)
        name = shared.reader.text(length, lambda text: 0 not in text and (text == b"" or text not in names))
        size = shared.reader.word(lambda value: total + value <= ALL_FILES_LIMIT)
        files[last] = File(name or None, bytearray(shared.reader.field(size)))
        names.add(name)
        total += size


def _read_side(shared: Shared, kind: ChannelKind, side: int) -> tuple[Direction, Address]:
    """What a side sent and where it is."""
    reader, has_address = shared.reader, kind is ChannelKind.INTERNET
    flags = reader.byte(lambda value: value <= SENDS_NO_MORE | READ_NO_MORE)
    is_empty = bool(flags & READ_NO_MORE) or (kind is ChannelKind.PIPE and side == READING_SIDE)
    length = reader.word(lambda value: value <= (0 if is_empty else DIRECTION_LIMIT))
    data = bytearray(reader.field(length))
    host = reader.word(lambda value: value < HOSTS if has_address else value == NO_HOST)
    port = reader.word(lambda value: value < PORTS_END if has_address else value == NO_PORT)
    return Direction(data, length, bool(flags & SENDS_NO_MORE), bool(flags & READ_NO_MORE)), Address(host, port)


def read_channels(shared: Shared) -> None:
    """The list of channels, in rising order; which sides are open the descriptions say."""
    last = (-1, -1)
    for _ in range(shared.reader.word(lambda count: count <= CHANNELS_LIMIT)):
        last = shared.pair(last)
        kind = ChannelKind(shared.reader.byte(lambda value: value < len(ChannelKind)))
        (first, one), (second, other) = _read_side(shared, kind, 0), _read_side(shared, kind, 1)
        addresses = (one, other) if kind is ChannelKind.INTERNET else None
        shared.machine.channels[ChannelName(*last)] = Channel(kind, addresses, (first, second), set())


def _name_side(shared: Shared, name: ChannelName, side: int) -> None:
    """A stream or a place of a listener's row has a side, which so is open."""
    shared.sides.add((name, side))
    shared.machine.channels[name].open_sides.add(side)


def _read_stream(shared: Shared, flags: int) -> ChannelEnd:
    reader, channels = shared.reader, shared.machine.channels
    pid = reader.word()
    name = ChannelName(pid, reader.word(lambda value: ChannelName(pid, value) in channels))
    is_pipe, mode = channels[name].kind is ChannelKind.PIPE, flags & ACCESS_MODE

    def allowed(side: int) -> bool:
        return side <= 1 and (name, side) not in shared.sides and (not is_pipe or mode == PIPE_MODES[side])

    side = reader.byte(allowed)
    _name_side(shared, name, side)
    return ChannelEnd(name, side)


def _read_address(shared: Shared, can_be_unbound: bool) -> Address:
    """An address that no earlier socket and no earlier listener has; port 0 is none."""
    host = shared.host()

    def allowed(port: int) -> bool:
        if port == NO_PORT:
            return can_be_unbound
        return port < PORTS_END and Address(host, port) not in shared.addresses

    port = shared.reader.word(allowed)
    if port != NO_PORT:
        shared.addresses.add(Address(host, port))
    return Address(host, port)


def _read_waiting(shared: Shared) -> ChannelName:
    """A connection that waits, of which nobody has side 1 yet."""
    channels, pid = shared.machine.channels, shared.reader.word()

    def allowed(num: int) -> bool:
        name = ChannelName(pid, num)
        is_internet = name in channels and channels[name].kind is ChannelKind.INTERNET
        return is_internet and (name, ACCEPTING_SIDE) not in shared.sides

    name = ChannelName(pid, shared.reader.word(allowed))
    _name_side(shared, name, ACCEPTING_SIDE)
    return name


def _read_listener(shared: Shared) -> Listener:
    address, backlog = _read_address(shared, can_be_unbound=False), shared.reader.word()
    count = shared.reader.word(lambda value: value <= backlog)
    return Listener(address, backlog, deque(_read_waiting(shared) for _ in range(count)))


def _read_object(shared: Shared, kind: ObjectKind, flags: int) -> Object:
    """The fields of a description's kind."""
    match kind:
        case ObjectKind.FILE:
            number = shared.reader.word(lambda value: value in shared.machine.files)
            return OpenFile(number, shared.reader.word())
        case ObjectKind.STREAM:
            return _read_stream(shared, flags)
        case ObjectKind.SOCKET:
            address = _read_address(shared, can_be_unbound=True)
            return Socket(address.host, None if address.port == NO_PORT else address.port)
        case ObjectKind.LISTENER:
            return _read_listener(shared)
        case ObjectKind.CONSOLE:
            return Console()


def _flags_allowed(flags: int) -> bool:
    """Status flags: the known bits, and not both of the access mode."""
    return flags & ~KNOWN_FLAGS == 0 and flags & ACCESS_MODE != BOTH_MODES


def read_descriptions(shared: Shared) -> None:
    """The list of open descriptions, in rising order."""
    reader, last = shared.reader, (-1, -1)
    for _ in range(reader.word()):
        last = shared.pair(last)
        kind = ObjectKind(reader.byte(lambda value: value < len(ObjectKind)))
        flags = reader.word(_flags_allowed)
        owner = reader.word()
        made = Description(flags, owner, _read_object(shared, kind, flags))
        shared.machine.descriptions[DescriptionName(*last)] = made
