"""The rows of pipes, pairs and counters (docs/CALLS.md, "Pipes, pairs and counters")."""

from ..numbers import Errno, Number
from ..objects import NONBLOCK, ChannelEnd, ChannelKind, ChannelName, Counter, DatagramEnd, DescriptionName
from .bench import DATA, FIRST, BenchCase
from .orders import Asked, all_channels

CLOEXEC = 0x80000


class Made(BenchCase):
    """What is made, and with which names and numbers."""

    def test_types(self) -> None:
        wrong = [0, 3, 5, 15, 0x11, 1 | 0x400, 1 | 1 << 31]
        found = [self.bench.call(Number.SOCKETPAIR, 1, kind, 0, DATA) for kind in wrong]
        self.assertEqual(found, [-Errno.EINVAL] * len(wrong))
        self.assertEqual(self.bench.call(Number.SOCKETPAIR, 1, 1, 6, DATA), -Errno.EINVAL)
        self.assertEqual(self.bench.call(Number.SOCKETPAIR, 0, 9, 9, DATA), -Errno.EAFNOSUPPORT)

    def test_datagrams_need_no_channel(self) -> None:
        self.bench.is_spoiled = True
        all_channels(Asked(self.bench, Number.SOCKETPAIR, []))
        self.assertEqual(self.bench.call(Number.SOCKETPAIR, 1, 1, 0, DATA), -Errno.ENFILE)
        self.assertEqual(self.bench.call(Number.SOCKETPAIR, 1, 2, 0, DATA), 0)

    def test_names(self) -> None:
        self.bench.pipe()
        self.bench.pair(1)
        self.bench.pair(2)
        self.bench.call(Number.EVENTFD2, 7, 0)
        pipe, pair = ChannelName(FIRST, 1), ChannelName(FIRST, 4)
        ends = [DescriptionName(FIRST, num) for num in (7, 8)]
        expected = [
            (2, ChannelEnd(pipe, 1)),
            (3, ChannelEnd(pipe, 0)),
            (5, ChannelEnd(pair, 0)),
            (6, ChannelEnd(pair, 1)),
            (7, DatagramEnd(ends[1])),
            (8, DatagramEnd(ends[0])),
            (9, Counter(7)),
        ]
        descriptors = self.bench.process().descriptors
        found = [(descriptors[fd].name.num, self.bench.object(fd)) for fd in range(3, 10)]
        self.assertEqual((found, self.bench.process().made), (expected, 10))
        kinds = [channel.kind for channel in self.bench.machine.channels.values()]
        self.assertEqual(kinds, [ChannelKind.PIPE, ChannelKind.PAIR])

    def test_places(self) -> None:
        self.bench.call(Number.CLOSE, 1)
        self.assertEqual(self.bench.pipe(), (1, 3))
        self.assertEqual(self.bench.pair(), (4, 5))
        self.assertEqual(self.bench.pair(2), (6, 7))

    def test_flags(self) -> None:
        both = NONBLOCK | CLOEXEC
        fds = [*self.bench.pipe(both), *self.bench.pair(1 | both), *self.bench.pair(2 | both)]
        fds.append(self.bench.call(Number.EVENTFD2, 0, both))
        flags = [self.bench.described(fd).flags for fd in fds]
        self.assertEqual(flags, [NONBLOCK, 1 | NONBLOCK, *[2 | NONBLOCK] * 5])
        self.assertEqual({self.bench.call(Number.FCNTL, fd, 1) for fd in fds}, {1})
        self.assertEqual({self.bench.call(Number.FCNTL, fd, 1) for fd in self.bench.pipe()}, {0})

    def test_last_numbers(self) -> None:
        self.bench.process().made = 2**32 - 5
        self.assertEqual(self.bench.call(Number.PIPE2, DATA, 0), 0)
        self.assertEqual(self.bench.process().made, 2**32 - 2)
        self.assertEqual(self.bench.call(Number.EVENTFD2, 0, 0), -Errno.ENFILE)

    def test_a_channel_goes_with_both_sides(self) -> None:
        reading, writing = self.bench.pipe()
        self.bench.call(Number.CLOSE, writing)
        self.assertEqual(len(self.bench.machine.channels), 1)
        self.bench.call(Number.CLOSE, reading)
        self.assertEqual(len(self.bench.machine.channels), 0)
