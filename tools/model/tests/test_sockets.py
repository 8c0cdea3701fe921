"""The rows of internet sockets (docs/CALLS.md, "Internet sockets")."""

from ..calls import KERNEL_ROWS
from ..numbers import Command, Errno, Number
from ..objects import NONBLOCK, READ_AND_WRITE, Address, ChannelEnd, ChannelName, Description, Listener, Socket
from .bench import DATA, FIRST, NOWHERE, SECOND, TEXT, Bench, BenchCase, Came
from .orders import (
    CONNECTED,
    CONSOLE,
    COUNTER,
    DATAGRAM,
    FILE,
    LISTENER,
    READING,
    SOCKET,
    STREAM,
    WRITING,
    everything,
)

CLOEXEC = 0x80000
AUTOMATIC = 32_768


def put_address(bench: Bench, host: tuple[int, ...], port: int, by: int = FIRST) -> None:
    """Writes an address at TEXT, with bytes behind the host at which nobody looks."""
    bench.put(bytes([2, 0, port >> 8, port & 255, *host, *range(8)]), TEXT, by)


class Kinds(BenchCase):
    """What each call says of each kind of object."""

    def test_no_sockets(self) -> None:
        bench = everything()
        for number in range(Number.BIND, Number.SHUTDOWN + 1):
            if number in KERNEL_ROWS:
                found = [bench.call(number, fd, DATA, DATA + 64) for fd in (CONSOLE, READING, WRITING, COUNTER, FILE)]
                wrong = Errno.EFAULT if number in (Number.BIND, Number.CONNECT) else Errno.ENOTSOCK
                self.assertEqual(found, [-wrong] * 5, number)
        for number in (Number.BIND, Number.CONNECT):
            self.assertEqual(bench.call(number, READING, DATA, 0), -Errno.ENOTSOCK)

    def test_each_kind(self) -> None:
        kinds = [DATAGRAM, STREAM, SOCKET, LISTENER, CONNECTED]
        expected = {
            Number.LISTEN: [-Errno.EOPNOTSUPP, -Errno.EINVAL, 0, -Errno.EINVAL, -Errno.EINVAL],
            Number.ACCEPT: [-Errno.EINVAL, -Errno.EINVAL, -Errno.EINVAL, Came.WAITS, -Errno.EINVAL],
            Number.SETSOCKOPT: [0] * 5,
            Number.SHUTDOWN: [-Errno.EOPNOTSUPP, 0, -Errno.ENOTCONN, -Errno.ENOTCONN, 0],
            Number.BIND: [-Errno.EINVAL, -Errno.EINVAL, 0, -Errno.EINVAL, -Errno.EINVAL],
            Number.CONNECT: [-Errno.EOPNOTSUPP, -Errno.EISCONN, 0, -Errno.EISCONN, -Errno.EISCONN],
        }
        for number, answers in expected.items():
            bench = everything()
            put_address(bench, (127, 0, 0, 1), 80 if number is Number.CONNECT else 81)
            has_address = number in (Number.BIND, Number.CONNECT)
            more = [TEXT, 16] if has_address else [0, 0]
            self.assertEqual([bench.call(number, fd, *more) for fd in kinds], answers, number)


class Connections(BenchCase):
    """Bound sockets, listeners, connections and their addresses."""

    hosts = (0, 3)

    def socket(self, by: int = FIRST) -> int:
        return self.bench.call(Number.SOCKET, 2, 1, 0, by=by)

    def name(self, number: Number, fd: int, by: int = FIRST) -> bytes:
        """An address, as it is written where there is room for 16 bytes."""
        self.bench.put((16).to_bytes(4, "little"), DATA + 64, by)
        self.assertEqual(self.bench.call(number, fd, DATA, DATA + 64, by=by), 0)
        return self.bench.get(self.bench.words(1, DATA + 64, by)[0], DATA, by)

    def test_socket(self) -> None:
        fd = self.bench.call(Number.SOCKET, 2, 1 | NONBLOCK | CLOEXEC, 6, by=SECOND)
        made = self.bench.described(fd, SECOND)
        self.assertEqual(made, Description(READ_AND_WRITE | NONBLOCK, 0, Socket(3)))
        self.assertEqual(self.bench.process(SECOND).descriptors[fd].close_on_exec, 1)
        for kind in (0, 2, 17, 1 | 0x400):
            self.assertEqual(self.bench.call(Number.SOCKET, 2, kind, 0), -Errno.EINVAL)
        self.assertEqual(self.bench.call(Number.SOCKET, 2, 1, 17), -Errno.EINVAL)

    def test_bind(self) -> None:
        asked = [((0, 0, 0, 0), 80), ((127, 0, 0, 1), 81), ((10, 0, 0, 4), 0), ((10, 0, 0, 4), 0)]
        ports = []
        for host, port in asked:
            put_address(self.bench, host, port, by=SECOND)
            fd = self.socket(SECOND)
            self.assertEqual(self.bench.call(Number.BIND, fd, TEXT, 17, by=SECOND), 0)
            ports.append(self.bench.object(fd, SECOND))
        self.assertEqual(ports, [Socket(3, port) for port in (80, 81, AUTOMATIC, AUTOMATIC + 1)])
        self.assertEqual(self.bench.address_call(Number.BIND, self.socket(), 0, 80), 0)

    def test_listen(self) -> None:
        fds = [self.socket() for _ in range(4)]
        self.assertEqual([self.bench.call(Number.LISTEN, fd, n) for fd, n in zip(fds, (0, 5, 129, -1))], [0] * 4)
        found = [self.bench.object(fd) for fd in fds]
        backlogs = [1, 5, 128, 128]
        self.assertEqual(found, [Listener(Address(0, AUTOMATIC + n), backlogs[n]) for n in range(4)])

    def test_connect_and_accept(self) -> None:
        server = self.bench.listener(90, 2, by=SECOND)
        first, second = self.bench.connected(3, 90), self.bench.connected(3, 90)
        self.assertEqual(self.bench.process().descriptors[first].name.num, 1)
        self.assertEqual(self.bench.object(first), ChannelEnd(ChannelName(FIRST, 2), 0))
        self.bench.write(first, b"early")
        self.bench.arrive()
        accepted = [self.bench.call(Number.ACCEPT, server, 0, NOWHERE, by=SECOND) for _ in range(2)]
        self.assertEqual(accepted, [4, 5])
        self.assertEqual(self.bench.read(4, 9, by=SECOND), b"early")
        self.bench.write(5, b"back", by=SECOND)
        self.bench.arrive()
        self.assertEqual(self.bench.read(second, 9), b"back")
        self.assertIs(self.bench.call(Number.ACCEPT, server, 0, by=SECOND), Came.WAITS)
        self.assertEqual(self.bench.described(4, SECOND).flags, READ_AND_WRITE)
        self.assertEqual(self.bench.call(Number.FCNTL, 4, Command.GETFD, by=SECOND), 0)

    def test_backlog(self) -> None:
        self.bench.listener(90, 1)
        self.bench.connected(0, 90)
        waiting = self.socket()
        self.assertIs(self.bench.address_call(Number.CONNECT, waiting, 0, 90), Came.WAITS)
        self.assertEqual(self.bench.object(waiting), Socket(0))
        self.bench.call(Number.FCNTL, waiting, 4, NONBLOCK)
        self.assertEqual(self.bench.address_call(Number.CONNECT, waiting, 0, 90), -Errno.EAGAIN)
        self.bench.call(Number.ACCEPT, 3, 0)
        self.assertEqual(self.bench.address_call(Number.CONNECT, waiting, 0, 90), 0)
        self.bench.call(Number.FCNTL, 3, 4, NONBLOCK)
        self.assertGreater(self.bench.call(Number.ACCEPT, 3, 0), 0)
        self.assertEqual(self.bench.call(Number.ACCEPT, 3, 0), -Errno.EAGAIN)

    def test_hosts(self) -> None:
        self.bench.listener(90, 9, by=SECOND)
        found = []
        for host in ((0, 0, 0, 0), (127, 0, 0, 1), (10, 0, 0, 1), (10, 0, 0, 0), (10, 0, 0, 17), (9, 0, 0, 4)):
            put_address(self.bench, host, 90)
            found.append(self.bench.call(Number.CONNECT, self.socket(), TEXT, 16))
        self.assertEqual(found, [-Errno.ECONNREFUSED] * 6)
        for host in ((0, 0, 0, 0), (127, 0, 0, 1), (10, 0, 0, 4)):
            put_address(self.bench, host, 90, by=SECOND)
            self.assertEqual(self.bench.call(Number.CONNECT, self.socket(SECOND), TEXT, 16, by=SECOND), 0)

    def test_last_host(self) -> None:
        bench = Bench((0, 15))
        bench.listener(90, by=SECOND)
        self.assertEqual(bench.object(bench.connected(15, 90)), ChannelEnd(ChannelName(FIRST, 2), 0))
        self.assertEqual(bench.broken_rules, [])

    def test_names(self) -> None:
        server = self.bench.listener(90, by=SECOND)
        fd = self.socket()
        self.assertEqual(self.name(Number.GETSOCKNAME, fd), bytes([2, *bytes(15)]))
        self.bench.address_call(Number.CONNECT, fd, 3, 90)
        self.bench.call(Number.ACCEPT, server, 0, by=SECOND)
        there, own = bytes([2, 0, 0, 90, 10, 0, 0, 4]) + bytes(8), bytes([2, 0, 128, 0, 10, 0, 0, 1]) + bytes(8)
        self.assertEqual([self.name(Number.GETSOCKNAME, fd), self.name(Number.GETPEERNAME, fd)], [own, there])
        calls = (Number.GETSOCKNAME, Number.GETPEERNAME)
        self.assertEqual([self.name(number, 4, SECOND) for number in calls], [there, own])
        self.assertEqual(self.name(Number.GETSOCKNAME, server, SECOND), there)
        self.bench.call(Number.CLOSE, 4, by=SECOND)
        self.assertEqual(self.name(Number.GETPEERNAME, fd), there)

    def test_names_of_pairs(self) -> None:
        for kind in (1, 2):
            first, second = self.bench.pair(kind)
            self.bench.call(Number.CLOSE, second)
            found = [self.name(number, first) for number in (Number.GETSOCKNAME, Number.GETPEERNAME)]
            self.assertEqual(found, [bytes([1, 0])] * 2)

    def test_room_for_a_name(self) -> None:
        fd = self.bench.listener(80)
        self.bench.put(b"\xff" * 8, DATA)
        self.bench.put((3).to_bytes(4, "little"), DATA + 64)
        self.assertEqual(self.bench.call(Number.GETSOCKNAME, fd, DATA, DATA + 64), 0)
        self.assertEqual((self.bench.get(5, DATA), self.bench.words(1, DATA + 64)), (b"\2\0\0\xff\xff", [16]))
        self.bench.put((0).to_bytes(4, "little"), DATA + 64)
        self.assertEqual(self.bench.call(Number.GETSOCKNAME, fd, 0, DATA + 64), 0)
        self.bench.put((0).to_bytes(4, "little"), DATA)
        self.assertEqual(self.bench.call(Number.GETSOCKNAME, fd, DATA + 4, DATA), 0)

    def test_accept_tells_the_peer(self) -> None:
        server = self.bench.listener(90, by=SECOND)
        self.bench.connected(3, 90)
        self.bench.put((8).to_bytes(4, "little"), DATA + 64, SECOND)
        self.assertEqual(self.bench.call(Number.ACCEPT, server, DATA, DATA + 64, by=SECOND), 4)
        found = (self.bench.get(9, DATA, SECOND), self.bench.words(1, DATA + 64, SECOND))
        self.assertEqual(found, (bytes([2, 0, 128, 0, 10, 0, 0, 1, 0]), [16]))

    def test_ports_are_used_as_long_as_a_channel_is_there(self) -> None:
        server = self.bench.listener(90, by=SECOND)
        fd = self.bench.connected(3, 90)
        self.bench.call(Number.ACCEPT, server, 0, by=SECOND)
        self.bench.call(Number.CLOSE, server, by=SECOND)
        again = self.socket(SECOND)
        self.assertEqual(self.bench.address_call(Number.BIND, again, 3, 90, SECOND), -Errno.EADDRINUSE)
        self.assertEqual(self.bench.address_call(Number.BIND, self.socket(), 0, AUTOMATIC), -Errno.EADDRINUSE)
        self.bench.call(Number.CLOSE, 4, by=SECOND)
        self.assertEqual(self.bench.address_call(Number.BIND, again, 3, 90, SECOND), -Errno.EADDRINUSE)
        self.bench.call(Number.CLOSE, fd)
        self.assertEqual(self.bench.address_call(Number.BIND, again, 3, 90, SECOND), 0)

    def test_a_listener_closes(self) -> None:
        server = self.bench.listener(90, 2, by=SECOND)
        first, second = self.bench.connected(3, 90), self.bench.connected(3, 90)
        self.bench.write(first, b"lost")
        self.bench.call(Number.CLOSE, second)
        self.bench.call(Number.CLOSE, server, by=SECOND)
        self.assertEqual(list(self.bench.machine.channels), [ChannelName(FIRST, 2)])
        self.assertEqual([self.bench.read(first, 9), self.bench.write(first, b"x")], [b"", -Errno.EPIPE])

    def test_a_connection_closes_before_it_is_accepted(self) -> None:
        server = self.bench.listener(90, by=SECOND)
        fd = self.bench.connected(3, 90)
        self.bench.write(fd, b"left")
        self.bench.call(Number.CLOSE, fd)
        self.bench.arrive()
        self.assertEqual(self.bench.call(Number.ACCEPT, server, 0, by=SECOND), 4)
        self.assertEqual([self.bench.read(4, 9, SECOND), self.bench.read(4, 9, SECOND)], [b"left", b""])

    def test_shutdown(self) -> None:
        first, second = self.bench.pair()
        self.bench.write(first, b"gone")
        self.assertEqual(self.bench.call(Number.SHUTDOWN, second, 2), 0)
        self.bench.arrive()
        found = [self.bench.read(first, 9), self.bench.write(first, b"x"), self.bench.read(second, 9)]
        self.assertEqual((found, self.bench.write(second, b"x")), ([b"", -Errno.EPIPE, b""], -Errno.EPIPE))
        self.assertEqual(self.bench.call(Number.SHUTDOWN, second, 2), 0)
