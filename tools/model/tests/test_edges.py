"""Each number that a condition bounds, at its bounds and past them."""

import unittest
from collections.abc import Callable

from ..memory import READ, blank_page
from ..objects import Address, DescriptionName, Listener, OpenFile, Socket
from ..state import Context, Thread, Waiter
from ..validity import CONDITIONS, broken
from .bench import FIRST, SECOND, Bench
from .sample import BOUND, CHILD, COUNTER, DATAGRAM, ELSEWHERE, ENDED, FILE, LISTENER, STREAM, something_of_each

Change = Callable[[Bench, int], object]
OF_MEMORY = "a process has at most 2,048 pages, and its break is from the break's start to 0x40000000"
COUNTED = "names of descriptions and channels were counted by their makers"
OF_NAMES = "a name is one file's, with 1 to 255 bytes and no zero"
OF_DIRECTIONS = "a direction has at most 65,536 bytes, of which no more have arrived"
OF_BACKLOGS = "a backlog is 1 to 128, and no more connections wait"


def give(part: Callable[[Bench], object], name: str) -> Change:
    """Another value of a part of a state."""
    return lambda bench, value: setattr(part(bench), name, value)


def rename(bench: Bench, name: DescriptionName) -> None:
    """Another name for the counter's description."""
    descriptor = bench.process().descriptors[COUNTER]
    bench.machine.descriptions[name] = bench.machine.descriptions.pop(descriptor.name)
    descriptor.name = name


def host_of_another(bench: Bench, host: int) -> None:
    """A host for the process of another host."""
    bench.process(ELSEWHERE).host = host


def give_pages(bench: Bench, count: int) -> None:
    """A process has so many pages."""
    memory = bench.process().memory
    memory.pages |= {number: blank_page(READ) for number in range(0x40000, 0x40000 + count - len(memory.pages))}


def sent(bench: Bench, count: int) -> None:
    """So many bytes of a direction are not read."""
    bench.channel(STREAM).directions[0].data[:] = bytes(count)


def arrived(bench: Bench, count: int) -> None:
    """Of two bytes so many have arrived."""
    direction = bench.channel(STREAM).directions[0]
    direction.data[:], direction.arrived = b"xy", count


def backlog(bench: Bench, size: int) -> None:
    """A listener at which nobody waits has a backlog."""
    bench.described(BOUND).object = Listener(Address(0, 90), size)


def bound(bench: Bench, port: int) -> None:
    """A socket is bound to a port."""
    bench.described(BOUND).object = Socket(0, port)


def named(bench: Bench, length: int) -> None:
    """A file has a name of so many bytes."""
    bench.machine.files[1].name = b"n" * length


def with_byte(bench: Bench, code: int) -> None:
    """A file has a name with a byte in its middle."""
    bench.machine.files[1].name = bytes([65, code, 66])


def threads(bench: Bench, count: int) -> None:
    """A process has so many threads."""
    bench.machine.next_id += count
    numbers = range(bench.machine.next_id - count, bench.machine.next_id)
    bench.process().threads = {number: Thread(number) for number in numbers}


def waiting(bench: Bench, count: int) -> None:
    """A thread waits on a word so many times."""
    bench.process(CHILD).waiters.extend([Waiter(CHILD, 0)] * count)


def saved(bench: Bench, count: int) -> None:
    """A thread has so many saved contexts."""
    bench.thread().contexts.extend([Context([0] * 31, 0, 0)] * count)


def held_at(bench: Bench, fd: int) -> None:
    """A descriptor refers to the console."""
    descriptors = bench.process().descriptors
    descriptors[fd] = descriptors[0]


def at_offset(bench: Bench, offset: int) -> None:
    """A file's offset."""
    bench.described(FILE).object = OpenFile(1, offset)


def know(bench: Bench, num: int) -> None:
    """A datagram end knows a description of its maker."""
    bench.object(DATAGRAM).other = DescriptionName(FIRST, num)


def messages(bench: Bench, count: int) -> None:
    """So many messages wait at a datagram end."""
    bench.object(DATAGRAM).messages.extend([bytes(4096)] * count)


def child_of(bench: Bench, parent: int) -> None:
    """The child has a parent."""
    bench.process(CHILD).parent = parent


Edge = tuple[str, Change, list[int], list[int]]
"""A condition, what is changed to a number, the numbers with which it holds, and those with which it does not."""
OF_PROCESSES: list[Edge] = [
    ("numbers of processes and threads are below the next one", give(lambda bench: bench.machine, "next_id"),
     [FIRST + 6, 2**31 - 1], [FIRST + 5, 2**31]),
    ("a live process has 1 to 64 threads", threads, [1, 64], [0, 65]),
    ("hosts are 0 to 15", host_of_another, [0, 15], [-1, 16]),
    ("a parent is nobody, or lives on the child's host with a lower number", child_of,
     [1, FIRST, SECOND], [0, ELSEWHERE, CHILD, ENDED]),
    ("a status is that of an exit or of a signal", give(lambda bench: bench.machine.zombies[ENDED], "status"),
     [0, 1, 31, 256, 0xFF00], [-1, 32, 257, 1 << 16]),
    ("a process's next description or channel has a number from 1 to 2^32 - 2",
     give(lambda bench: bench.process(ELSEWHERE), "made"), [1, 2**32 - 2], [0, 2**32 - 1]),
    ("what is pending are signals that can be sent", give(Bench.thread, "pending"),
     [0, 1 << 16, 1 << 22, 1 << 30], [1 << 17, 1 << 21, 1 << 31]),
    ("masks have neither 9 nor 19, and nothing above 31", give(Bench.thread, "mask"),
     [1 << 30, 0x7FFBFEFF], [1 << 8, 1 << 18, 1 << 31]),
    ("who waits on a word is a thread of the process, once", waiting, [0, 1], [2]),
    ("a thread has at most 64 saved contexts", saved, [0, 64], [65]),
    (OF_MEMORY, give_pages, [2048], [2049]),
    (OF_MEMORY, give(lambda bench: bench.process().memory, "break_now"),
     [0x30000, 0x40000000], [0x2FFFF, 0x40000001]),
]
OF_DESCRIPTIONS: list[Edge] = [
    ("a descriptor has a number below 256 and refers to a description", held_at, [255], [-1, 256]),
    (COUNTED, lambda bench, num: rename(bench, DescriptionName(FIRST, num)), [2, 13], [0, 15]),
    (COUNTED, lambda bench, pid: rename(bench, DescriptionName(pid, 7)), [FIRST, FIRST + 5], [FIRST - 1, FIRST + 6]),
    ("numbers of files are below the next one", give(lambda bench: bench.machine, "next_file"),
     [2, 2**32 - 1], [0, 1, 2**32]),
    (OF_NAMES, named, [1, 255], [0, 256]),
    (OF_NAMES, with_byte, [1, 255], [0]),
    ("an offset is to 2^31 - 1, in a file that is there", at_offset, [0, 2**31 - 1], [-1, 2**31]),
    ("the ends of a datagram pair know each other", know, [9], [8, 10, 7]),
    ("at most 64 messages of at most 4,096 bytes wait at a datagram end", messages, [0, 64], [65]),
    ("a counter is at most 2^64 - 2", give(lambda bench: bench.object(COUNTER), "value"),
     [0, 2**64 - 2], [-1, 2**64 - 1]),
]
OF_CHANNELS: list[Edge] = [
    (OF_DIRECTIONS, sent, [0, 65_536], [65_537]),
    (OF_DIRECTIONS, arrived, [0, 2], [-1, 3]),
    ("sides of internet channels, and they alone, have addresses; ports are 1 to 65,535", bound,
     [1, 65_535], [0, 65_536]),
    (OF_BACKLOGS, backlog, [1, 128], [0, 129]),
    (OF_BACKLOGS, give(lambda bench: bench.object(LISTENER), "backlog"), [1, 128], [0, 129]),
]


class Edges(unittest.TestCase):
    """Bounds of conditions."""

    def test_bounds(self) -> None:
        for name, change, held, failed in OF_PROCESSES + OF_DESCRIPTIONS + OF_CHANNELS:
            self.assertIn(name, CONDITIONS)
            for value in [*held, *failed]:
                bench = something_of_each(is_spoiled=True)
                change(bench, value)
                self.assertEqual(name in broken(bench.machine), value in failed, (name, value))
