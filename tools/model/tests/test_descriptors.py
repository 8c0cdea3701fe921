"""The rows of descriptors and of files, and closing (docs/CALLS.md, "Descriptors", "Closing", "Files")."""

from ..numbers import Command, Errno, Number
from ..objects import APPEND, NONBLOCK, Console, OpenFile
from .bench import DATA, FIRST, HERE, SECOND, TEXT, Bench, BenchCase

CREAT, EXCL, TRUNC, CLOEXEC = 0x40, 0x80, 0x200, 0x80000
READ_WRITE = 2
LAST = 255


class Descriptors(BenchCase):
    """`dup`, `dup3`, `fcntl` and `close`."""

    hosts = (0, 0, 3)

    def test_dup(self) -> None:
        self.bench.call(Number.CLOSE, 1)
        self.assertEqual([self.bench.call(Number.DUP, 2), self.bench.call(Number.DUP, 2)], [1, 3])
        self.assertIs(self.bench.described(3), self.bench.described(0))
        self.bench.call(Number.FCNTL, 3, Command.SETFD, 1)
        self.assertEqual(self.bench.call(Number.DUP, 3), 4)
        self.assertEqual(self.bench.process().descriptors[4].close_on_exec, 0)

    def test_dup3(self) -> None:
        reading, _ = self.bench.pipe()
        channel = self.bench.channel(reading)
        self.assertEqual(self.bench.call(Number.DUP3, 0, reading, CLOEXEC), reading)
        self.assertEqual((channel.open_sides, self.bench.object(reading)), ({0}, Console()))
        self.assertEqual(self.bench.call(Number.FCNTL, reading, Command.GETFD), 1)
        self.assertEqual(self.bench.call(Number.DUP3, 0, LAST), LAST)
        self.assertEqual(self.bench.call(Number.DUP3, 0, 0), -Errno.EINVAL)
        self.assertEqual(self.bench.call(Number.DUP3, 0, 5, CLOEXEC | NONBLOCK), -Errno.EINVAL)

    def test_dup3_onto_the_same_description(self) -> None:
        self.assertEqual(self.bench.call(Number.DUP3, 0, 1), 1)
        self.assertIs(self.bench.described(1), self.bench.described(0))

    def test_fcntl_copies(self) -> None:
        found = [self.bench.call(Number.FCNTL, 0, command, 9) for command in (0, 1030)]
        self.assertEqual(found, [9, 10])
        self.assertEqual([self.bench.call(Number.FCNTL, fd, Command.GETFD) for fd in (9, 10)], [0, 1])
        self.assertEqual(self.bench.call(Number.FCNTL, 0, 0, LAST), LAST)
        self.assertEqual(self.bench.call(Number.FCNTL, 0, 0, LAST), -Errno.EMFILE)
        self.assertEqual(self.bench.call(Number.FCNTL, 0, 1030, 256), -Errno.EINVAL)

    def test_fcntl_flags(self) -> None:
        self.assertEqual(self.bench.call(Number.FCNTL, 0, Command.SETFD, 0xFFFFFFFE), 0)
        self.assertEqual(self.bench.call(Number.FCNTL, 0, Command.GETFD), 0)
        self.assertEqual(self.bench.call(Number.FCNTL, 0, Command.SETFL, 0xFFFFFFFF), 0)
        self.assertEqual(self.bench.call(Number.FCNTL, 1, Command.GETFL), 2 | APPEND | NONBLOCK)
        self.assertEqual(self.bench.call(Number.FCNTL, 0, Command.SETFL, APPEND), 0)
        self.assertEqual(self.bench.call(Number.FCNTL, 1, Command.GETFL), 2 | APPEND)
        for command in (5, 6, 7, 10, 1029, 1031, -1):
            self.assertEqual(self.bench.call(Number.FCNTL, 0, command, 0), -Errno.EINVAL)

    def test_owners(self) -> None:
        answers = [self.bench.call(Number.FCNTL, 0, Command.SETOWN, owner) for owner in (SECOND, SECOND + 1, 1, -1)]
        self.assertEqual(answers, [0, -Errno.ESRCH, -Errno.ESRCH, -Errno.ESRCH])
        self.assertEqual(self.bench.call(Number.FCNTL, 0, Command.GETOWN), SECOND)
        self.bench.call(Number.EXIT, 0, by=SECOND)
        self.assertEqual(self.bench.call(Number.FCNTL, 0, Command.GETOWN), 0)
        self.assertEqual(self.bench.call(Number.FCNTL, 0, Command.SETOWN, FIRST), 0)
        self.assertEqual(self.bench.call(Number.FCNTL, 0, Command.SETOWN, 0), 0)
        self.assertEqual(self.bench.call(Number.FCNTL, 0, Command.GETOWN), 0)

    def test_close(self) -> None:
        for fd in (0, 1, 2):
            self.assertEqual(self.bench.call(Number.CLOSE, fd), 0)
        self.assertEqual(len(self.bench.machine.descriptions), 2)
        self.assertEqual(self.bench.write(1, b"x"), -Errno.EBADF)


class Files(BenchCase):
    """`unlinkat`, `openat` and `lseek`."""

    def test_no_file_has_an_empty_name(self) -> None:
        self.assertEqual(self.bench.call(Number.UNLINKAT, HERE, self.bench.put(b"\0"), 0), -Errno.ENOENT)

    def test_openat(self) -> None:
        self.assertEqual(self.bench.open(b"a", CREAT | EXCL | 1 | APPEND | CLOEXEC | 0x10000000), 3)
        self.assertEqual(self.bench.described(3).flags, 1 | APPEND)
        self.assertEqual(self.bench.process().descriptors[3].close_on_exec, 1)
        self.assertEqual(self.bench.machine.next_file, 2)
        self.assertEqual((self.bench.process().made, self.bench.object(3)), (2, OpenFile(1, 0)))
        self.bench.write(3, b"text")
        self.assertEqual(self.bench.open(b"a", EXCL), 4)
        self.assertEqual(self.bench.read(4, 9), b"text")
        self.assertEqual(self.bench.open(b"a", CREAT | TRUNC), 5)
        self.assertEqual(self.bench.machine.files[1].data, b"")
        self.assertEqual(self.bench.open(b"A", 0), -Errno.ENOENT)

    def test_longest_name(self) -> None:
        self.assertEqual(self.bench.open(b"n" * 255, CREAT), 3)
        self.assertEqual(self.bench.open(b"n" * 255, CREAT | EXCL), -Errno.EEXIST)

    def test_names_and_descriptions(self) -> None:
        self.bench.open(b"a", CREAT | READ_WRITE)
        self.bench.write(3, b"kept")
        self.assertEqual(self.bench.call(Number.UNLINKAT, HERE, self.bench.put(b"a\0"), 0), 0)
        self.assertEqual(self.bench.open(b"a", 0), -Errno.ENOENT)
        self.bench.call(Number.LSEEK, 3, 0, 0)
        self.assertEqual(self.bench.read(3, 9), b"kept")
        self.assertEqual(self.bench.open(b"a", CREAT), 4)
        self.bench.call(Number.CLOSE, 3)
        self.assertEqual(set(self.bench.machine.files), {2})
        self.bench.call(Number.CLOSE, 4)
        self.assertEqual(self.bench.call(Number.UNLINKAT, HERE, TEXT, 0), 0)
        self.assertEqual(self.bench.machine.files, {})

    def test_lseek(self) -> None:
        self.bench.open(b"a", CREAT | READ_WRITE)
        self.bench.write(3, b"123456")
        seek = [self.bench.call(Number.LSEEK, 3, *asked) for asked in ((2, 0), (3, 1), (-1, 2), (1, 2), (-8, 1))]
        self.assertEqual(seek, [2, 5, 5, 7, -Errno.EINVAL])
        self.assertEqual(self.bench.object(3), OpenFile(1, 7))
        far = [self.bench.call(Number.LSEEK, 3, *asked) for asked in ((0x7FFFFFFF, 0), (1, 1), (0x80000000, 0), (0, 3))]
        self.assertEqual(far, [0x7FFFFFFF, -Errno.EINVAL, -Errno.EINVAL, -Errno.EINVAL])

    def test_a_file_is_of_all_hosts(self) -> None:
        bench = Bench((0, 9))
        bench.open(b"a", CREAT | READ_WRITE)
        bench.write(3, b"x")
        self.assertEqual(bench.open(b"a", 0, by=SECOND), 3)
        self.assertEqual(bench.read(3, 5, by=SECOND), b"x")
        self.assertEqual(bench.get(1, DATA, SECOND), b"x")
