"""Rows of pipes, pairs and counters (docs/CALLS.md, "Pipes, pairs and counters")."""

from .numbers import Errno, Number, OpenFlag
from .objects import (
    NONBLOCK,
    READ_AND_WRITE,
    READ_ONLY,
    WRITE_ONLY,
    Channel,
    ChannelEnd,
    ChannelKind,
    Counter,
    DatagramEnd,
    DescriptionName,
)
from .rows import Caller, Effect, Row, test

MADE_FLAGS = NONBLOCK | OpenFlag.CLOEXEC
"""The flags of calls that make descriptors, also among the bits of a socket's type."""
LOCAL_DOMAIN, INTERNET_DOMAIN = 1, 2
STREAMS, DATAGRAMS = 1, 2
TYPE_MASK = 15
READING_SIDE, WRITING_SIDE = 1, 0


def _eventfd2(caller: Caller) -> Effect:
    """Call 19."""
    value, flags = caller.argument(0), caller.argument(1)
    test(not flags & ~MADE_FLAGS, Errno.EINVAL)
    caller.test_can_make()
    descriptor = caller.free_descriptor()

    def effect() -> int:
        made = caller.make_description(READ_AND_WRITE | flags & NONBLOCK, Counter(value))
        return caller.refer(descriptor, made, bool(flags & OpenFlag.CLOEXEC))

    return effect


def _refer_both(caller: Caller, place: int, flags: int, found: dict[int, DescriptionName]) -> int:
    """Two descriptors refer to two descriptions, and their numbers are written."""
    for index, (number, name) in enumerate(found.items()):
        caller.refer(number, name, bool(flags & OpenFlag.CLOEXEC))
        caller.put_word(place + 4 * index, number)
    return 0


def _pipe2(caller: Caller) -> Effect:
    """Call 59."""
    place, flags = caller.argument(0), caller.argument(1)
    test(not flags & ~MADE_FLAGS, Errno.EINVAL)
    caller.test_can_make_channel()
    first, second = caller.two_free_descriptors()

    def effect() -> int:
        channel = caller.make_channel(Channel(ChannelKind.PIPE))
        kept = flags & NONBLOCK
        reading = caller.make_description(READ_ONLY | kept, ChannelEnd(channel, READING_SIDE))
        writing = caller.make_description(WRITE_ONLY | kept, ChannelEnd(channel, WRITING_SIDE))
        return _refer_both(caller, place, flags, {first: reading, second: writing})

    return effect


def _make_streams(caller: Caller, flags: int) -> list[DescriptionName]:
    """A channel with both ends, in the order of its sides."""
    channel = caller.make_channel(Channel(ChannelKind.PAIR))
    return [caller.make_description(flags, ChannelEnd(channel, side)) for side in (0, 1)]


def _make_datagrams(caller: Caller, flags: int) -> list[DescriptionName]:
    """Two ends that know each other."""
    pid, num = caller.process.number, caller.process.made
    first, second = DescriptionName(pid, num), DescriptionName(pid, num + 1)
    return [caller.make_description(flags, DatagramEnd(other)) for other in (second, first)]


def _socketpair(caller: Caller) -> Effect:
    """Call 199."""
    domain, kind, protocol, place = (caller.argument(index) for index in range(4))
    test(domain != INTERNET_DOMAIN, Errno.EOPNOTSUPP)
    test(domain == LOCAL_DOMAIN, Errno.EAFNOSUPPORT)
    streams = kind & TYPE_MASK == STREAMS
    known = streams or kind & TYPE_MASK == DATAGRAMS
    test(known and not kind & ~TYPE_MASK & ~MADE_FLAGS and protocol == 0, Errno.EINVAL)
    caller.test_can_make_channel() if streams else caller.test_can_make()
    numbers = caller.two_free_descriptors()

    def effect() -> int:
        make = _make_streams if streams else _make_datagrams
        names = make(caller, READ_AND_WRITE | kind & NONBLOCK)
        return _refer_both(caller, place, kind, dict(zip(numbers, names)))

    return effect


PAIR_ROWS: dict[int, Row] = {
    Number.EVENTFD2: _eventfd2,
    Number.PIPE2: _pipe2,
    Number.SOCKETPAIR: _socketpair,
}
