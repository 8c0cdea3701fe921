"""Random programs of calls on several processes: every state is valid, and each row's answers are reached."""

import unittest
from collections import Counter
from random import Random

from ..closing import close_descriptor
from ..images import images
from ..numbers import Number
from ..objects import Counter as EventCounter
from ..objects import DatagramEnd
from ..store import Store
from .bench import Bench
from .walk import Walk

SEEDS, STEPS = (0, 6, 9, 11, 19, 23, 25), 300
"""Seeds with which all of the answers below are reached."""
SEEDS_OF_SETS = range(100, 112)
NO_IMAGE = (DatagramEnd, EventCounter)
REACHED: dict[Number, str] = {
    Number.EVENTFD2: "answered EINVAL",
    Number.DUP: "answered EBADF",
    Number.DUP3: "answered EBADF EINVAL",
    Number.FCNTL: "answered EBADF EINVAL ESRCH",
    Number.CLOSE: "answered EBADF",
    Number.UNLINKAT: "answered EFAULT EBADF EINVAL ENAMETOOLONG ENOENT",
    Number.OPENAT: "answered EFAULT EBADF ENAMETOOLONG ENOENT EINVAL EEXIST",
    Number.LSEEK: "answered EBADF ESPIPE EINVAL",
    Number.PIPE2: "answered EFAULT EINVAL",
    Number.READ: "answered waits EFAULT EBADF ENOTCONN EINVAL EAGAIN",
    Number.WRITE: "answered waits EFAULT EBADF EPIPE EMSGSIZE ECONNREFUSED EINVAL",
    Number.SOCKETPAIR: "answered EFAULT EOPNOTSUPP EAFNOSUPPORT EINVAL",
    Number.SOCKET: "answered EAFNOSUPPORT EINVAL",
    Number.BIND: "answered EFAULT EBADF ENOTSOCK EINVAL EAFNOSUPPORT EADDRNOTAVAIL EADDRINUSE",
    Number.LISTEN: "answered EBADF ENOTSOCK EOPNOTSUPP EINVAL",
    Number.ACCEPT: "answered waits EFAULT EBADF ENOTSOCK EINVAL EAGAIN",
    Number.CONNECT: "answered waits EFAULT EBADF ENOTSOCK EOPNOTSUPP EISCONN EINVAL EAFNOSUPPORT ECONNREFUSED",
    Number.GETSOCKNAME: "answered EFAULT EBADF ENOTSOCK",
    Number.GETPEERNAME: "answered EFAULT EBADF ENOTSOCK ENOTCONN",
    Number.SETSOCKOPT: "answered EBADF ENOTSOCK",
    Number.SHUTDOWN: "answered EBADF ENOTSOCK EOPNOTSUPP EINVAL ENOTCONN",
    Number.EXIT: "ended",
    Number.EXIT_GROUP: "ended",
    Number.KILL: "answered EINVAL ESRCH",
    Number.TGKILL: "answered EINVAL ESRCH",
    Number.GETPID: "answered",
    Number.GETPPID: "answered",
    Number.CLONE: "answered EINVAL",
    Number.WAIT4: "answered waits EFAULT EINVAL ECHILD",
}
"""What calls come to that need no limit to be reached."""


class Walks(unittest.TestCase):
    """Rows of random records."""

    def test_walks(self) -> None:
        reached: Counter[tuple[Number, str]] = Counter()
        for seed in SEEDS:
            walk = Walk(Random(seed))
            for _ in range(STEPS):
                walk.step()
                self.assertEqual(walk.wrong, [], seed)
            reached += walk.reached
        wanted = {(number, came) for number, text in REACHED.items() for came in text.split()}
        self.assertEqual(wanted - set(reached), set())


class Sets(unittest.TestCase):
    """What a set of a random state spells is that state."""

    def close_what_no_image_holds(self, bench: Bench) -> None:
        """No datagram end and no counter is open any more."""
        for process in bench.machine.processes.values():
            for fd in [fd for fd in process.descriptors if isinstance(bench.object(fd, process.number), NO_IMAGE)]:
                close_descriptor(bench.machine, process, fd)

    def test_written_and_read(self) -> None:
        for seed in SEEDS_OF_SETS:
            walk = Walk(Random(seed))
            for _ in range(STEPS):
                walk.step()
            self.close_what_no_image_holds(walk.bench)
            walk.bench.arrive()
            machine, store = walk.bench.machine, Store({})
            if not machine.processes:
                continue
            store.put_set(images(machine))
            found = store.get_machine(0)
            machine.console.clear()
            self.assertEqual(found, machine, seed)
            self.assertEqual(images(found), images(machine))
