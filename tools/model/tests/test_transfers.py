"""The rows of `read` and `write` (docs/CALLS.md, "Reading and writing")."""

from ..numbers import Errno, Number
from ..objects import NONBLOCK
from .bench import DATA, LOCKED, NOWHERE, SECOND, BenchCase, Came

CREAT, APPEND, READ_WRITE = 0x40, 0x400, 2
END_OF_FILES = 2**31 - 1
ALL_ONES = b"\xff" * 8
PIPE_SIGNAL = 1 << 12


def eight(value: int) -> bytes:
    """Eight bytes, the lowest first."""
    return value.to_bytes(8, "little")


class Consoles(BenchCase):
    """The console, buffers and access modes."""

    def test_console(self) -> None:
        self.assertEqual(self.bench.write(1, b"hello"), 5)
        self.assertEqual((self.bench.machine.console, self.bench.read(0, 9)), (b"hello", b""))

    def test_buffers(self) -> None:
        calls = [(Number.READ, LOCKED), (Number.READ, NOWHERE), (Number.WRITE, NOWHERE)]
        for number, place in calls:
            self.assertEqual(self.bench.call(number, 300, place, 1), -Errno.EFAULT)
            self.assertEqual(self.bench.call(number, 300, place, 0), -Errno.EBADF)
        self.assertEqual(self.bench.call(Number.READ, 0, DATA, 8192 + 4097), -Errno.EFAULT)

    def test_access_modes(self) -> None:
        reading, writing = self.bench.pipe()
        self.bench.open(b"a", CREAT)
        self.bench.open(b"a", 1)
        self.assertEqual([self.bench.write(fd, b"x") for fd in (reading, 5)], [-Errno.EBADF] * 2)
        self.assertEqual([self.bench.read(fd, 1) for fd in (writing, 6)], [-Errno.EBADF] * 2)
        self.assertEqual(self.bench.call(Number.READ, writing, DATA, 0), -Errno.EBADF)


class Files(BenchCase):
    """Files."""

    def setUp(self) -> None:
        super().setUp()
        self.fd = self.bench.open(b"a", CREAT | READ_WRITE)

    def content(self) -> bytes:
        return bytes(self.bench.machine.files[1].data)

    def test_offsets(self) -> None:
        self.assertEqual([self.bench.write(self.fd, text) for text in (b"abc", b"", b"def")], [3, 0, 3])
        self.assertEqual(self.bench.read(self.fd, 2), b"")
        self.bench.call(Number.LSEEK, self.fd, 1, 0)
        self.assertEqual([self.bench.read(self.fd, 2), self.bench.read(self.fd, 9)], [b"bc", b"def"])
        self.bench.call(Number.LSEEK, self.fd, 4, 0)
        self.bench.write(self.fd, b"XYZ")
        self.assertEqual(self.content(), b"abcdXYZ")

    def test_gap(self) -> None:
        self.bench.call(Number.LSEEK, self.fd, 4, 0)
        self.assertEqual(self.bench.read(self.fd, 9), b"")
        self.assertEqual((self.bench.write(self.fd, b""), self.content()), (0, b""))
        self.bench.write(self.fd, b"x")
        self.assertEqual(self.content(), b"\0\0\0\0x")

    def test_append(self) -> None:
        self.bench.write(self.fd, b"abc")
        self.bench.open(b"a", READ_WRITE | APPEND)
        self.bench.call(Number.LSEEK, self.fd + 1, 9, 0)
        self.bench.write(self.fd + 1, b"d")
        self.assertEqual((self.content(), self.bench.object(self.fd + 1).offset), (b"abcd", 4))

    def test_two_descriptors_share_an_offset(self) -> None:
        copy = self.bench.call(Number.DUP, self.fd)
        self.bench.write(self.fd, b"ab")
        self.bench.write(copy, b"c")
        self.assertEqual(self.content(), b"abc")

    def test_limits(self) -> None:
        self.bench.call(Number.LSEEK, self.fd, END_OF_FILES - 1, 0)
        self.assertEqual(self.bench.write(self.fd, b"xy"), -Errno.EFBIG)
        self.assertEqual(self.bench.write(self.fd, b"x"), -Errno.ENOSPC)
        self.assertEqual(self.bench.write(self.fd, b""), 0)
        self.bench.call(Number.LSEEK, self.fd, 67_108_864, 0)
        self.assertEqual(self.bench.write(self.fd, b"x"), -Errno.ENOSPC)
        self.assertEqual((self.content(), self.bench.object(self.fd).offset), (b"", 67_108_864))


class Channels(BenchCase):
    """Pipes and pairs of streams."""

    def test_bytes_arrive(self) -> None:
        reading, writing = self.bench.pipe()
        self.assertIs(self.bench.read(reading, 4), Came.WAITS)
        self.assertEqual((self.bench.read(reading, 0), self.bench.write(writing, b"abc")), (b"", 3))
        self.assertIs(self.bench.read(reading, 4), Came.WAITS)
        records = self.bench.arrive()
        self.assertEqual([(one.a, one.b, one.x, one.n) for one in records], [(40000, 1, 0, 3)])
        self.bench.write(writing, b"d")
        self.assertEqual([self.bench.read(reading, 2), self.bench.read(reading, 9)], [b"ab", b"c"])
        self.assertIs(self.bench.read(reading, 9), Came.WAITS)

    def test_nonblocking(self) -> None:
        reading, writing = self.bench.pipe(NONBLOCK)
        self.assertEqual(self.bench.read(reading, 1), -Errno.EAGAIN)
        self.bench.channel(writing).directions[0].data += bytes(65536)
        self.assertEqual(self.bench.write(writing, b"x"), -Errno.EAGAIN)
        self.bench.call(Number.FCNTL, writing, 4, 0)
        self.assertIs(self.bench.write(writing, b"x"), Came.WAITS)

    def test_room(self) -> None:
        _, writing = self.bench.pipe()
        self.bench.channel(writing).directions[0].data += bytes(65533)
        self.assertEqual([self.bench.write(writing, text) for text in (b"abcd", b"e", b"")], [3, Came.WAITS, 0])

    def test_end_of_a_direction(self) -> None:
        reading, writing = self.bench.pipe()
        self.bench.write(writing, b"abc")
        self.bench.call(Number.CLOSE, writing)
        self.assertIs(self.bench.read(reading, 4), Came.WAITS)
        self.bench.arrive()
        self.assertEqual([self.bench.read(reading, 4), self.bench.read(reading, 4)], [b"abc", b""])

    def test_nobody_reads(self) -> None:
        reading, writing = self.bench.pipe()
        self.bench.write(writing, b"abc")
        self.bench.call(Number.CLOSE, reading)
        self.assertEqual(self.bench.channel(writing).directions[0].data, b"")
        self.assertEqual((self.bench.write(writing, b""), self.bench.thread().pending), (0, 0))
        self.assertEqual((self.bench.write(writing, b"x"), self.bench.thread().pending), (-Errno.EPIPE, PIPE_SIGNAL))
        self.assertEqual(self.bench.process().pending, 0)

    def test_pairs_go_both_ways(self) -> None:
        first, second = self.bench.pair()
        self.bench.write(first, b"there")
        self.bench.write(second, b"back")
        self.bench.arrive()
        self.assertEqual([self.bench.read(second, 9), self.bench.read(first, 9)], [b"there", b"back"])

    def test_half_closed(self) -> None:
        first, second = self.bench.pair()
        self.bench.call(Number.SHUTDOWN, first, 1)
        self.assertEqual([self.bench.write(first, b"x"), self.bench.read(second, 1)], [-Errno.EPIPE, b""])
        self.bench.write(second, b"y")
        self.bench.arrive()
        self.assertEqual(self.bench.read(first, 1), b"y")
        self.bench.call(Number.SHUTDOWN, first, 0)
        self.assertEqual([self.bench.read(first, 1), self.bench.write(second, b"x")], [b"", -Errno.EPIPE])


class Sockets(BenchCase):
    """Sockets and listeners that have no peer."""

    def test_unconnected(self) -> None:
        fds = [self.bench.call(Number.SOCKET, 2, 1, 0), self.bench.listener(80)]
        for fd in fds:
            self.bench.thread().pending = 0
            self.assertEqual([self.bench.read(fd, 0), self.bench.read(fd, 9)], [-Errno.ENOTCONN] * 2)
            self.assertEqual(self.bench.write(fd, b""), -Errno.EPIPE)
            self.assertEqual(self.bench.thread().pending, PIPE_SIGNAL)


class Datagrams(BenchCase):
    """Ends of datagram pairs."""

    def setUp(self) -> None:
        super().setUp()
        self.first, self.second = self.bench.pair(2)

    def test_messages(self) -> None:
        self.assertIs(self.bench.read(self.second, 1), Came.WAITS)
        for text in (b"long", b"", b"cut", b"gone", b"last"):
            self.assertEqual(self.bench.write(self.first, text), len(text))
        found = [self.bench.read(self.second, count) for count in (9, 9, 1, 0, 4)]
        self.assertEqual(found, [b"long", b"", b"c", b"", b"last"])
        self.assertIs(self.bench.read(self.second, 0), Came.WAITS)
        self.assertIs(self.bench.read(self.first, 1), Came.WAITS)

    def test_other_end_closed(self) -> None:
        self.bench.write(self.first, b"kept")
        self.bench.write(self.second, b"lost")
        self.bench.call(Number.CLOSE, self.first)
        self.assertEqual([self.bench.read(self.second, 9) for _ in range(2)], [b"kept", b""])
        self.assertEqual(self.bench.write(self.second, b"x"), -Errno.ECONNREFUSED)
        self.assertEqual(self.bench.thread().pending, 0)

    def test_nonblocking(self) -> None:
        self.bench.call(Number.FCNTL, self.second, 4, NONBLOCK)
        self.assertEqual(self.bench.read(self.second, 1), -Errno.EAGAIN)
        self.bench.object(self.first).messages.extend([b"x"] * 63)
        self.assertEqual([self.bench.write(self.second, b"x") for _ in range(2)], [1, -Errno.EAGAIN])


class Counters(BenchCase):
    """Counters."""

    def test_counter(self) -> None:
        fd = self.bench.call(Number.EVENTFD2, 0xFFFFFFFF, 0)
        self.assertEqual([self.bench.read(fd, 7), self.bench.read(fd, 9)], [-Errno.EINVAL, eight(0xFFFFFFFF)])
        self.assertEqual([self.bench.read(fd, 7), self.bench.read(fd, 8)], [-Errno.EINVAL, Came.WAITS])
        self.assertEqual([self.bench.write(fd, eight(5) + b"rest"), self.bench.write(fd, eight(6))], [8, 8])
        self.assertEqual(self.bench.read(fd, 8), eight(11))

    def test_greatest_value(self) -> None:
        fd = self.bench.call(Number.EVENTFD2, 1, 0)
        self.assertEqual([self.bench.write(fd, ALL_ONES), self.bench.write(fd, bytes(7))], [-Errno.EINVAL] * 2)
        self.assertIs(self.bench.write(fd, eight(2**64 - 2)), Came.WAITS)
        self.assertEqual(self.bench.write(fd, eight(2**64 - 3)), 8)
        self.assertEqual([self.bench.write(fd, eight(0)), self.bench.write(fd, eight(1))], [8, Came.WAITS])
        self.bench.call(Number.FCNTL, fd, 4, NONBLOCK)
        self.assertEqual(self.bench.write(fd, eight(1)), -Errno.EAGAIN)
        self.assertEqual([self.bench.read(fd, 8), self.bench.read(fd, 8)], [eight(2**64 - 2), -Errno.EAGAIN])


class Elsewhere(BenchCase):
    """A child shares its parent's descriptions."""

    def test_child_reads(self) -> None:
        reading, writing = self.bench.pipe()
        child = self.bench.fork()
        self.assertEqual(child, SECOND)
        self.bench.write(writing, b"x", by=child)
        self.bench.arrive()
        self.assertEqual(self.bench.read(reading, 1), b"x")
        self.bench.call(Number.CLOSE, writing)
        self.assertIs(self.bench.read(reading, 1), Came.WAITS)
        self.bench.call(Number.EXIT, 0, by=child)
        self.assertEqual(self.bench.read(reading, 1), b"")
