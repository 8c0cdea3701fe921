"""Shared images with all that the layout has, also what no state has today: files, channels with bytes that wait,
descriptions of each kind and zombies are read all the same; and the same things of a state, in the same words."""

import unittest
from collections import deque

from model.bits import words_bytes
from model.images import SHARED_MAGIC
from model.memory import Memory
from model.objects import (
    Address,
    Channel,
    ChannelEnd,
    ChannelKind,
    ChannelName,
    Console,
    Counter,
    DatagramEnd,
    Description,
    DescriptionName,
    Direction,
    File,
    Listener,
    OpenFile,
    Socket,
)
from model.state import Machine, Process, Thread, Zombie
from showing.listed import read_listed
from showing.objects import description_line
from showing.state import state_lines

NOBODY_HAS = words_bytes([0xFFFFFFFF, 0])
NOTES = words_bytes([1]) + b"\5\0notes" + words_bytes([3]) + b"a\nc"
NAMELESS = words_bytes([2]) + b"\0\0" + words_bytes([0])
PIPE = words_bytes([40000, 3]) + b"\2" + b"\0" + words_bytes([2]) + b"hi" + NOBODY_HAS + b"\1" + words_bytes([0]) + NOBODY_HAS
CLIENT = b"\1" + words_bytes([0, 0, 32768])
SERVER = b"\2" + words_bytes([0, 0, 80])
CONNECTION = words_bytes([40000, 4]) + b"\1" + CLIENT + SERVER


def described(num: int, kind: int, *more: int, flags: int = 2, owner: int = 0) -> bytes:
    """A description of process 40000 whose object has these words."""
    return words_bytes([40000, num]) + bytes([kind]) + words_bytes([flags, owner, *more])


CONSOLE = described(0, 0)
DESCRIPTIONS = [
    CONSOLE,
    described(1, 1, 1, 7, flags=0x401, owner=40000),
    described(2, 2, 40000, 3, flags=0x801) + b"\0",
    described(5, 3, 0, 0),
    described(6, 3, 0, 8080),
    described(7, 4, 0, 80, 5, 1, 40000, 4),
    described(8, 4, 0, 81, 1, 0),
]
LIVING = words_bytes([40000, 1, 0, 9]) + b"\0" + words_bytes([0, 0, 1, 40000, 0, 1, 5, 40000, 0]) + b"\1"
ZOMBIES = [
    words_bytes([40001, 40000, 0, 1]) + b"\1" + words_bytes([7 * 256, 0, 0, 0]),
    words_bytes([40002, 40000, 0, 1]) + b"\1" + words_bytes([11, 0, 0, 0]),
]


def listed(*items: bytes) -> bytes:
    return words_bytes([len(items)]) + b"".join(items)


IMAGE = (
    SHARED_MAGIC + words_bytes([40003, 3])
    + listed(NOTES, NAMELESS) + listed(PIPE, CONNECTION) + listed(*DESCRIPTIONS) + listed(LIVING, *ZOMBIES)
)
FILES = [
    "next number 40003, next file 3",
    "file 1 'notes': 3 bytes, \"a\\nc\"",
    "file 2 without a name: 0 bytes",
]
CHANNELS = [
    "channel (40000, 3), pipe",
    '  sent by side 0: 2 bytes, "hi", wait to be read',
    "  sent by side 1: nothing waits to be read; sends no more",
    "channel (40000, 4), internet",
    "  sent by side 0 at host 0 port 32768: nothing waits to be read; sends no more",
    "  sent by side 1 at host 0 port 80: nothing waits to be read; is read no more",
]
DESCRIBED = [
    "description (40000, 0): console, read and write",
    "description (40000, 1): file 1 at offset 7, write, append, owner 40000",
    "description (40000, 2): side 0 of channel (40000, 3), write, does not block",
    "description (40000, 5): socket of host 0, not bound, read and write",
    "description (40000, 6): socket of host 0, bound to port 8080, read and write",
    "description (40000, 7): listener at host 0 port 80, backlog 5, waiting to be accepted: (40000, 4), read and write",
    "description (40000, 8): listener at host 0 port 81, backlog 1, nobody waits to be accepted, read and write",
]
ENDED = [
    "process 40001 of host 0, parent 40000: zombie with status 1792, exited with 7",
    "process 40002 of host 0, parent 40000: zombie with status 11, ended by signal 11",
]
LINES = [*FILES, *CHANNELS, *DESCRIBED, "process 40000 of host 0, parent 1: 1 thread", *ENDED]


class Lists(unittest.TestCase):
    """What the four lists of an image hold."""

    def test_all_that_the_layout_has(self) -> None:
        found = read_listed(IMAGE)
        self.assertEqual((found.lines, found.stopped), (LINES, ""))
        self.assertEqual([process.number for process in found.processes], [40000])
        self.assertEqual(list(found.processes[0].descriptors), [5])

    def test_fields_lie_one_behind_the_other(self) -> None:
        fields = read_listed(IMAGE).fields
        ends = [one.at + one.size for one in fields]
        self.assertEqual([one.at for one in fields], [0, *ends[:-1]])
        self.assertEqual(ends[-1], len(IMAGE))

    def test_an_image_that_ends_early(self) -> None:
        end = IMAGE.index(CONSOLE) + 10
        found = read_listed(IMAGE[:end])
        self.assertEqual(found.lines, FILES + CHANNELS)
        self.assertEqual(found.stopped, f"no more can be read from {end} on")
        self.assertEqual(found.fields[-1].name, "description.flags")

    def test_a_description_of_no_kind(self) -> None:
        place = IMAGE.index(CONSOLE) + 8
        found = read_listed(IMAGE[:place] + b"\5" + IMAGE[place + 1 :])
        self.assertEqual(found.lines, FILES + CHANNELS)
        self.assertEqual(found.stopped, f"no more can be read from {place} on")

    def test_a_channel_of_no_kind(self) -> None:
        place = IMAGE.index(PIPE) + 8
        found = read_listed(IMAGE[:place] + b"\3" + IMAGE[place + 1 :])
        self.assertEqual(found.lines, FILES)
        self.assertEqual(found.stopped, f"no more can be read from {place} on")


def name(num: int) -> DescriptionName:
    return DescriptionName(40000, num)


PIPE_NAME, CONNECTION_NAME = ChannelName(40000, 3), ChannelName(40000, 4)
OBJECTS = {
    name(0): Description(2),
    name(1): Description(0x401, 40000, OpenFile(1, 7)),
    name(2): Description(0x801, 0, ChannelEnd(PIPE_NAME, 0)),
    name(5): Description(2, 0, Socket(0)),
    name(6): Description(2, 0, Socket(0, 8080)),
    name(7): Description(2, 0, Listener(Address(0, 80), 5, deque([CONNECTION_NAME]))),
    name(8): Description(2, 0, Listener(Address(0, 81), 1)),
}


def machine() -> Machine:
    """A state that holds the same."""
    sent, back = Direction(bytearray(b"hi"), 2), Direction(ended=True)
    pipe = Channel(ChannelKind.PIPE, None, (sent, back))
    sides = (Address(0, 32768), Address(0, 80))
    connection = Channel(ChannelKind.INTERNET, sides, (Direction(ended=True), Direction(unread=True)))
    process = Process(40000, Memory(0, 0), threads={40000: Thread(40000)})
    child = Process(40003, Memory(0, 0), parent=40000, threads={40003: Thread(40003)})
    return Machine(
        40004, 3, {40000: process, 40003: child}, OBJECTS,
        files={1: File(b"notes", bytearray(b"a\nc")), 2: File(None)},
        channels={PIPE_NAME: pipe, CONNECTION_NAME: connection},
        zombies={40001: Zombie(40001, 40000, 0, 1, 7 * 256), 40002: Zombie(40002, 40000, 0, 1, 11)},
    )


class States(unittest.TestCase):
    """What a state holds, in the words in which an image is told."""

    def test_all_kinds(self) -> None:
        lines = state_lines(machine(), registers=False)
        shared = ["next number 40004, next file 3", *FILES[1:], *CHANNELS, *DESCRIBED, *ENDED]
        self.assertEqual(lines[: len(shared)], shared)
        heads = [line for line in lines[len(shared) :] if line.startswith("process")]
        self.assertEqual(heads, [
            "process 40000 of host 0: 1 thread", "process 40003 of host 0, parent 40000: 1 thread",
        ])

    def test_kinds_that_have_no_image(self) -> None:
        pair = Description(2, 0, DatagramEnd(name(3), deque([b"one", b"two"])))
        self.assertEqual(
            description_line(name(2), pair),
            "description (40000, 2): end of a datagram pair with (40000, 3), 2 messages, read and write",
        )
        counter = Description(2, 0, Counter(9))
        self.assertEqual(
            description_line(name(4), counter), "description (40000, 4): event counter at 9, read and write"
        )

    def test_the_console(self) -> None:
        self.assertEqual(Description(2).object, Console())


if __name__ == "__main__":
    unittest.main()
