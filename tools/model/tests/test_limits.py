"""Calls at each limit, on states that are made by hand; the states there are valid too (docs/CALLS.md, docs/MACHINE.md,
"Limits")."""

from ..closing import end_process
from ..numbers import Errno, Number
from ..objects import (
    Channel,
    ChannelEnd,
    ChannelKind,
    ChannelName,
    Description,
    DescriptionName,
    File,
    Listener,
    OpenFile,
    Socket,
)
from ..state import Descriptor
from ..validity import broken
from .bench import DATA, HERE, TEXT, BenchCase, Came
from .orders import ON_ALL_PORTS

CREAT, TRUNC, READ_WRITE = 0x40, 0x200, 2
PROCESSES, CHANNELS, FILES, ALL_BYTES = 128, 256, 1024, 67_108_864
LAST_FILE = 2**32 - 2
PIPES_OF_ONE = 126
"""Pipes for which a process has descriptors beside its console."""


class Limits(BenchCase):
    """What is still possible, and what is not any more."""

    def give_pipes(self, pid: int, count: int) -> None:
        """A process has so many further pipes, without a call for each."""
        process = self.bench.process(pid)
        for _ in range(count):
            channel, process.made = process.made, process.made + 3
            name = ChannelName(pid, channel)
            self.bench.machine.channels[name] = Channel(ChannelKind.PIPE)
            for side in (0, 1):
                end = DescriptionName(pid, channel + 1 + side)
                self.bench.machine.descriptions[end] = Description(1 - side, object=ChannelEnd(name, side))
                process.descriptors[len(process.descriptors)] = Descriptor(end)

    def give_files(self, count: int) -> None:
        """So many files without a description."""
        machine = self.bench.machine
        first, machine.next_file = machine.next_file, machine.next_file + count
        machine.files |= {number: File(b"%d" % number) for number in range(first, first + count)}

    def test_processes(self) -> None:
        self.bench.is_spoiled = True  # the states between are not looked at
        children = [self.bench.fork() for _ in range(PROCESSES - 1)]
        self.bench.is_spoiled = False
        self.assertEqual(self.bench.fork(), -Errno.EAGAIN)
        end_process(self.bench.machine, self.bench.process(children[5]), 0)
        self.assertEqual(self.bench.fork(), -Errno.EAGAIN)
        self.assertEqual(self.bench.call(Number.WAIT4, -1, 0, 0), children[5])
        self.assertEqual(self.bench.fork(), children[-1] + 1)

    def test_descriptors(self) -> None:
        found = [self.bench.call(Number.DUP, 0) for _ in range(254)]
        self.assertEqual(found, [*range(3, 256), -Errno.EMFILE])
        self.bench.call(Number.CLOSE, 255)
        self.assertEqual(self.bench.call(Number.PIPE2, DATA, 0), -Errno.EMFILE)
        self.bench.call(Number.CLOSE, 7)
        self.assertEqual(self.bench.pipe(), (7, 255))

    def test_last_channel(self) -> None:
        children = [self.bench.fork() for _ in range(3)]
        for pid in children[:2]:
            self.give_pipes(pid, PIPES_OF_ONE)
        self.give_pipes(children[2], CHANNELS - 2 * PIPES_OF_ONE - 1)
        server = self.bench.listener(80)
        self.assertEqual(self.bench.call(Number.SOCKETPAIR, 1, 1, 0, DATA), 0)
        self.assertEqual(len(self.bench.machine.channels), CHANNELS)
        self.assertEqual(self.bench.call(Number.PIPE2, DATA, 0), -Errno.ENFILE)
        self.assertEqual(self.bench.call(Number.SOCKETPAIR, 1, 1, 0, DATA), -Errno.ENFILE)
        self.assertEqual(self.bench.call(Number.SOCKETPAIR, 1, 2, 0, DATA), 0)
        fd = self.bench.call(Number.SOCKET, 2, 1, 0)
        self.assertEqual(self.bench.address_call(Number.CONNECT, fd, 0, 80), -Errno.ENFILE)
        self.bench.call(Number.CLOSE, 4)
        self.bench.call(Number.CLOSE, 5)
        self.assertEqual(self.bench.address_call(Number.CONNECT, fd, 0, 80), 0)
        self.assertEqual(self.bench.call(Number.ACCEPT, server, 0), 4)

    def test_files(self) -> None:
        self.give_files(FILES - 1)
        self.assertEqual([self.bench.open(b"new", CREAT), self.bench.open(b"one more", CREAT)], [3, -Errno.ENOSPC])
        self.assertEqual(self.bench.open(b"1", CREAT), 4)
        self.assertEqual(self.bench.call(Number.UNLINKAT, HERE, self.bench.put(b"1\0"), 0), 0)
        self.assertEqual(self.bench.open(b"one more", CREAT), -Errno.ENOSPC)
        self.bench.call(Number.CLOSE, 4)
        self.assertEqual(self.bench.open(b"one more", CREAT), 4)

    def test_file_numbers(self) -> None:
        self.bench.machine.next_file = LAST_FILE
        self.assertEqual([self.bench.open(b"last", CREAT), self.bench.open(b"none", CREAT)], [3, -Errno.ENOSPC])
        self.assertEqual((self.bench.object(3), self.bench.open(b"last", CREAT)), (OpenFile(LAST_FILE), 4))

    def test_bytes_of_all_files(self) -> None:
        self.give_files(1)
        self.bench.machine.files[1].data = bytearray(ALL_BYTES - 3)
        fd = self.bench.open(b"a", CREAT | READ_WRITE)
        self.assertEqual([self.bench.write(fd, b"four"), self.bench.write(fd, b"two")], [-Errno.ENOSPC, 3])
        self.bench.call(Number.LSEEK, fd, 0, 0)
        self.assertEqual([self.bench.write(fd, b"four"), self.bench.write(fd, b"ten")], [-Errno.ENOSPC, 3])
        self.bench.open(b"1", TRUNC)
        self.assertEqual(self.bench.write(fd, b"four"), 4)

    def test_a_direction(self) -> None:
        reading, writing = self.bench.pipe()
        self.bench.channel(writing).directions[0].data += bytes(65_535)
        self.assertEqual([self.bench.write(writing, b"xy"), self.bench.write(writing, b"y")], [1, Came.WAITS])
        self.bench.arrive()
        self.assertEqual([self.bench.read(reading, 1), self.bench.write(writing, b"y")], [b"\0", 1])

    def test_messages(self) -> None:
        first, second = self.bench.pair(2)
        found = [self.bench.write(first, bytes(4096)) for _ in range(65)]
        self.assertEqual(found, [*[4096] * 64, Came.WAITS])
        self.assertEqual(len(self.bench.read(second, 5000)), 4096)
        self.assertEqual(self.bench.write(first, b""), 0)

    def test_backlog(self) -> None:
        self.bench.is_spoiled = True  # the states between are not looked at
        server = self.bench.listener(65_535, 128)
        fds = [self.bench.connected(0, 65_535) for _ in range(100)]
        listener: Listener = self.bench.object(server)
        child = self.bench.fork()
        fds += [self.bench.connected(0, 65_535, by=child) for _ in range(29)]
        self.assertEqual((len(listener.waiting), self.bench.object(fds[-1], child)), (128, Socket(0)))
        self.assertEqual(broken(self.bench.machine), [])
        self.assertIs(self.bench.address_call(Number.CONNECT, fds[-1], 0, 65_535, child), Came.WAITS)

    def test_automatic_ports(self) -> None:
        self.bench.is_spoiled = True  # nobody holds the sockets that have the ports
        self.bench.machine.descriptions |= ON_ALL_PORTS
        self.bench.machine.descriptions.popitem()
        fd, other = (self.bench.call(Number.SOCKET, 2, 1, 0) for _ in range(2))
        self.assertEqual(self.bench.address_call(Number.BIND, fd, 0, 0), 0)
        self.assertEqual(self.bench.object(fd), Socket(0, 60_999))
        self.assertEqual(self.bench.call(Number.LISTEN, other, 1), -Errno.EADDRINUSE)

    def test_places_at_the_end_of_memory(self) -> None:
        self.assertEqual(self.bench.call(Number.READ, 0, 0xFFFFFFFF, 2), -Errno.EFAULT)
        self.assertEqual(self.bench.call(Number.OPENAT, HERE, 0xFFFFFFFF, 0), -Errno.EFAULT)
        self.bench.put(b"\0", TEXT + 4095)
        self.assertEqual(self.bench.call(Number.OPENAT, HERE, TEXT + 4095, 0), -Errno.ENOENT)
