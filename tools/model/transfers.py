"""Rows of `read` and `write`, by what the description refers to (docs/CALLS.md, "Reading and writing")."""

from typing import Callable

from .files import OFFSET_LIMIT
from .numbers import Errno, Number
from .objects import (
    APPEND,
    ChannelEnd,
    Console,
    Counter,
    DatagramEnd,
    Description,
    Direction,
    Listener,
    OpenFile,
    Socket,
)
from .rows import Caller, Effect, Failed, Row, test, wait_on
from .state import Machine, Thread, signal_bit

TRANSFER_LIMIT = 65536
DIRECTION_LIMIT = 65536
ALL_FILES_LIMIT = 67_108_864
LONGEST_MESSAGE = 4096
MESSAGES_LIMIT = 64
COUNTER_SIZE = 8
COUNTER_LIMIT = 2**64 - 2
BROKEN_PIPE = 13

Transfer = Callable[[Caller, Description], Effect]


def _count(caller: Caller) -> int:
    """The count, of which at most 65,536 bytes are taken."""
    return min(caller.argument(2), TRANSFER_LIMIT)


def _bytes(caller: Caller) -> bytes:
    """The bytes that are to be written."""
    return caller.process.memory.peek(caller.argument(1), _count(caller))


def _put(caller: Caller, data: bytes) -> int:
    """Puts bytes at the buffer and gives how many."""
    caller.process.memory.poke(caller.argument(1), data)
    return len(data)


def _nothing(_caller: Caller, _description: Description) -> Effect:
    """0 bytes of the console."""
    return lambda: 0


def _not_connected(_caller: Caller, _description: Description) -> Effect:
    raise Failed(Errno.ENOTCONN)


def _broken(thread: Thread) -> Effect:
    """EPIPE, and its signal is pending for the thread."""

    def effect() -> int:
        thread.pending |= signal_bit(BROKEN_PIPE)
        return -Errno.EPIPE

    return effect


def _write_unconnected(caller: Caller, _description: Description) -> Effect:
    return _broken(caller.thread)


def _write_console(caller: Caller, _description: Description) -> Effect:
    def effect() -> int:
        caller.machine.console += _bytes(caller)
        return _count(caller)

    return effect


def _read_file(caller: Caller, description: Description) -> Effect:
    opened: OpenFile = description.object

    def effect() -> int:
        data = caller.machine.files[opened.file].data
        count = _put(caller, bytes(data[opened.offset : opened.offset + _count(caller)]))
        opened.offset += count
        return count

    return effect


def _size_of_all(machine: Machine) -> int:
    """The bytes of all files together."""
    return sum(len(file.data) for file in machine.files.values())


def _write_file(caller: Caller, description: Description) -> Effect:
    opened: OpenFile = description.object
    if _count(caller) == 0:
        return lambda: 0
    content = caller.machine.files[opened.file].data
    start = len(content) if description.flags & APPEND else opened.offset
    end = start + _count(caller)
    test(end <= OFFSET_LIMIT, Errno.EFBIG)
    growth = max(0, end - len(content))
    test(_size_of_all(caller.machine) + growth <= ALL_FILES_LIMIT, Errno.ENOSPC)

    def effect() -> int:
        content.extend(bytes(max(0, start - len(content))))
        content[start:end] = _bytes(caller)
        opened.offset = end
        return end - start

    return effect


def _read_channel(caller: Caller, description: Description) -> Effect:
    end: ChannelEnd = description.object
    direction: Direction = caller.machine.channels[end.channel].sent_to(end.side)
    if _count(caller) == 0 or (direction.is_broken() and not direction.data):
        return lambda: 0
    if direction.arrived == 0:
        wait_on(description)
    return lambda: _put(caller, direction.take(min(direction.arrived, _count(caller))))


def _write_channel(caller: Caller, description: Description) -> Effect:
    end: ChannelEnd = description.object
    direction: Direction = caller.machine.channels[end.channel].sent_by(end.side)
    if _count(caller) == 0:
        return lambda: 0
    if direction.is_broken():
        return _broken(caller.thread)
    room = DIRECTION_LIMIT - len(direction.data)
    if room == 0:
        wait_on(description)

    def effect() -> int:
        taken = _bytes(caller)[:room]
        direction.data += taken
        return len(taken)

    return effect


def _read_datagram(caller: Caller, description: Description) -> Effect:
    end: DatagramEnd = description.object
    if end.messages:
        return lambda: _put(caller, end.messages.popleft()[: _count(caller)])
    if end.other in caller.machine.descriptions:
        wait_on(description)
    return lambda: 0


def _write_datagram(caller: Caller, description: Description) -> Effect:
    test(caller.argument(2) <= LONGEST_MESSAGE, Errno.EMSGSIZE)
    other = caller.machine.descriptions.get(description.object.other)
    test(other is not None, Errno.ECONNREFUSED)
    messages = other.object.messages
    if len(messages) >= MESSAGES_LIMIT:
        wait_on(description)

    def effect() -> int:
        messages.append(_bytes(caller))
        return _count(caller)

    return effect


def _read_counter(caller: Caller, description: Description) -> Effect:
    counter: Counter = description.object
    test(caller.argument(2) >= COUNTER_SIZE, Errno.EINVAL)
    if counter.value == 0:
        wait_on(description)

    def effect() -> int:
        taken, counter.value = counter.value, 0
        return _put(caller, taken.to_bytes(COUNTER_SIZE, "little"))

    return effect


def _write_counter(caller: Caller, description: Description) -> Effect:
    counter: Counter = description.object
    test(caller.argument(2) >= COUNTER_SIZE, Errno.EINVAL)
    added = int.from_bytes(_bytes(caller)[:COUNTER_SIZE], "little")
    test(added <= COUNTER_LIMIT, Errno.EINVAL)
    if counter.value + added > COUNTER_LIMIT:
        wait_on(description)

    def effect() -> int:
        counter.value += added
        return COUNTER_SIZE

    return effect


READS: dict[type, Transfer] = {
    Console: _nothing,
    OpenFile: _read_file,
    ChannelEnd: _read_channel,
    Socket: _not_connected,
    Listener: _not_connected,
    DatagramEnd: _read_datagram,
    Counter: _read_counter,
}
WRITES: dict[type, Transfer] = {
    Console: _write_console,
    OpenFile: _write_file,
    ChannelEnd: _write_channel,
    Socket: _write_unconnected,
    Listener: _write_unconnected,
    DatagramEnd: _write_datagram,
    Counter: _write_counter,
}


def _read(caller: Caller) -> Effect:
    """Call 63."""
    description = caller.description()
    test(description.can_read(), Errno.EBADF)
    return READS[type(description.object)](caller, description)


def _write(caller: Caller) -> Effect:
    """Call 64."""
    description = caller.description()
    test(description.can_write(), Errno.EBADF)
    return WRITES[type(description.object)](caller, description)


TRANSFER_ROWS: dict[int, Row] = {
    Number.READ: _read,
    Number.WRITE: _write,
}
