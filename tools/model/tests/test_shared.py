"""Shared images of many: what one spells, that it is written again, and each damage at its place (docs/FORMATS.md)."""

import unittest

from ..images import shared_image
from ..objects import ChannelEnd, ChannelKind, ChannelName, DescriptionName, Listener, OpenFile, Socket
from ..read_shared import read_shared
from ..reader import Damage
from ..state import Descriptor
from .shared_bytes import NET, PIPE, QUEUED, STREAM, laid_out

END = "end"
BIG = 0xFFFFFFFF
FIRST, FILE, SECOND = "description 40000", "description 40000 9", "description 40003"

# A field, a number that it may not have, and where the damage is: in the field where nothing else is said.
HEAD: list[tuple[str, int] | tuple[str, int, str]] = [
    ("magic", 0), ("next id", 39999), ("next id", 1 << 31), ("next id", 40006, "process 40006"), ("next file", 0),
    ("next file", 4, "file 4"), ("next file", BIG, ""), ("next id", (1 << 31) - 1, ""),
]
FILES = [
    ("files", 1025), ("file 1", 0), ("file 2", 1), ("file 4", 2), ("file 4", 5), ("file 1 length", 256),
    ("file 1 name", 0), ("file 1 size", 67_108_865), ("file 4 size", 67_108_862), ("file 4 size", 67_108_861, END),
    ("file 4 name", 0x0061), ("file 1", 3, "file 2"),
]
CHANNELS = [
    ("channels", 257), ("channel 4 pid", 39999), ("channel 1 pid", 40007), ("channel 4 num", 1), ("channel 4 num", 0),
    ("channel 4 kind", 3), ("channel 1 flags 0", 4), ("channel 4 flags 0", 2, "channel 4 length 0"),
    ("channel 4 length 0", 65_537), ("channel 1 length 0", 1), ("channel 1 length 1", 1), ("channel 4 host 0", 0),
    ("channel 4 port 0", 1), ("channel 7 host 0", 16), ("channel 7 host 1", BIG), ("channel 7 port 0", 65_536),
    ("channel 7 port 0", 65_535, ""), ("channel 4 kind", 2, "channel 4 length 1"),
    ("channel 4 kind", 1, "channel 4 host 0"), ("channel 1 kind", 0, ""), ("channel 7 kind", 0, "channel 7 host 0"),
    ("channel 1 flags 0", 0, END), ("channel 1 flags 1", 0, END), ("channel 1 flags 1", 3, ""),
    ("channel 7 host 0", 1, END), ("channel 7 host 1", 4, END), ("channel 8 host 1", 0, END),
    ("channel 8 host 0", 3, END), ("channel 4 flags 0", 1, ""),
]
DESCRIPTIONS = [
    ("description 40000 0 pid", 40007), ("description 40000 3 pid", 39999), ("description 40000 3 num", 0),
    ("description 40000 3 kind", 5), (f"{FIRST} 0 flags", 3), (f"{FIRST} 0 flags", 4), (f"{FIRST} 0 flags", 0xC01, ""),
    (f"{FIRST} 0 owner", 40002, END), (f"{FIRST} 0 owner", 40003, END), (f"{FIRST} 0 owner", 40005, END),
    (f"{FIRST} 0 owner", 1, END), (f"{FILE} file", 3), (f"{FILE} file", 1, END), (f"{FILE} offset", 0, ""),
    (f"{FIRST} 3 of num", 2), (f"{FIRST} 3 of pid", 40001, f"{FIRST} 3 of num"), (f"{FIRST} 3 side", 1),
    (f"{FIRST} 3 side", 2), (f"{FIRST} 3 flags", 2, f"{FIRST} 3 side"), (f"{FIRST} 3 flags", 0, f"{FIRST} 3 side"),
    (f"{FIRST} 6 side", 0), (f"{FIRST} 6 side", 2), (f"{FIRST} 5 flags", 1, ""), (f"{FIRST} 10 host", 16),
    (f"{FIRST} 10 port", 65_536), (f"{FIRST} 11 port", 65_535, ""), (f"{FIRST} 10 port", 80, f"{FIRST} 11 port"),
    (f"{FIRST} 10 host", 3, END), (f"{FIRST} 11 host", 3, f"{SECOND} 1 port"), (f"{SECOND} 1 host", 16),
    (f"{SECOND} 1 port", 0), (f"{SECOND} 1 port", 65_536), (f"{SECOND} 1 host", 0, f"{SECOND} 1 port"),
    (f"{SECOND} 1 host", 4, END), (f"{SECOND} 1 backlog", 0, f"{SECOND} 1 waiting"), (f"{SECOND} 1 backlog", BIG, ""),
    (f"{SECOND} 1 waiting", 2), (f"{SECOND} 1 waits num", 4), (f"{SECOND} 1 waits num", 9),
    (f"{SECOND} 1 waits pid", 40001, f"{SECOND} 1 waits num"), (f"{SECOND} 1 waits num", 7, f"{SECOND} 2 side"),
    (f"{SECOND} 2 side", 0), (f"{SECOND} 2 of num", 8, f"{SECOND} 2 side"),
    ("description 40005 0 pid", 40006, "process 40003 fd 9 num"),
]
PROCESSES = [
    ("processes", 129), ("process 40000", 39999), ("process 40001", 40000), ("process 40001", 40004),
    ("process 40001", 40002, END), ("process 40000 parent", 40000),
    ("process 40001 parent", 0), ("process 40001 parent", 40003), ("process 40006 parent", 40005),
    ("process 40001 parent", 1, ""), ("process 40001 host", 16), ("process 40001 host", 3, END),
    ("process 40000 made", 13, "process 40000 state"), ("process 40000 made", BIG, ""), ("process 40005 made", 9, ""),
    ("process 40003 made", 2, "process 40003 state"), ("process 40000 state", 1),
    ("process 40005 parent", 1, "process 40005 state"),
    ("process 40001 state", 2), ("process 40001 state", 1, "process 40001 threads"),
    ("process 40005 state", 0), ("process 40000 status", 1), ("process 40005 status", BIG, ""),
    ("process 40000 pending", 1 << 31), ("process 40005 pending", 1), ("process 40000 threads", 0),
    ("process 40000 threads", 65), ("process 40005 threads", 1), ("process 40000 thread 40000", 39999),
    ("process 40000 thread 40004", 40000), ("process 40000 thread 40004", 40007),
    ("process 40001 thread 40002", 40004), ("process 40001 thread 40002", 40000),
    ("process 40001 thread 40002", 40001, ""), ("process 40001 thread 40002", 40003, "process 40003"),
    ("process 40000 pending of 40004", 1 << 31), ("process 40000 descriptors", 257),
    ("process 40005 descriptors", 1), ("process 40000 fd 1", 0), ("process 40001 fd 255", 256),
    ("process 40000 fd 1 num", 1), ("process 40000 fd 1 pid", 40001, "process 40000 fd 1 num"),
    ("process 40000 fd 1 closes", 2), ("process 40000 fd 1 num", 5, END), ("process 40003 fd 9 pid", 40000, END),
    ("process 40005 host", 0, END), ("process 40005 parent", 40000, END), ("process 40006 host", 16),
    ("process 40003 host", 0, END), ("processes", 4, "process 40006"),
]


class Spelled(unittest.TestCase):
    """What the bytes stand for."""

    def setUp(self) -> None:
        self.laid = laid_out()
        self.machine = read_shared(bytes(self.laid.content))

    def test_files(self) -> None:
        files = {number: (file.name, bytes(file.data)) for number, file in self.machine.files.items()}
        self.assertEqual(files, {1: (b"a", b"xyz"), 2: (None, b""), 4: (b"bc", b"")})
        self.assertEqual((self.machine.next_id, self.machine.next_file), (40007, 5))

    def test_channels(self) -> None:
        kinds = {(name.pid, name.num): (one.kind, one.open_sides) for name, one in self.machine.channels.items()}
        pair, internet, pipe = ChannelKind.PAIR, ChannelKind.INTERNET, ChannelKind.PIPE
        both = {0, 1}
        expected = {PIPE: (pipe, {0}), STREAM: (pair, both), NET: (internet, both), QUEUED: (internet, both)}
        self.assertEqual(kinds, expected)
        stream, closed = self.machine.channels[ChannelName(*STREAM)], self.machine.channels[ChannelName(*PIPE)]
        self.assertEqual([(bytes(one.data), one.arrived) for one in stream.directions], [(b"there", 5), (b"back", 4)])
        self.assertEqual([(one.ended, one.unread) for one in closed.directions], [(False, True), (True, False)])
        net = self.machine.channels[ChannelName(*NET)]
        self.assertEqual([(one.host, one.port) for one in net.addresses], [(0, 32768), (3, 80)])

    def test_descriptions(self) -> None:
        found = {(name.pid, name.num): one for name, one in self.machine.descriptions.items()}
        self.assertEqual((found[40000, 0].owner, found[40000, 6].flags), (40001, 0x802))
        self.assertEqual(found[40000, 9].object, OpenFile(2, BIG))
        self.assertEqual([found[40000, num].object for num in (10, 11)], [Socket(0), Socket(0, 80)])
        self.assertEqual(found[40000, 6].object, ChannelEnd(ChannelName(*STREAM), 1))
        listener = found[40003, 1].object
        assert isinstance(listener, Listener)
        self.assertEqual((listener.backlog, list(listener.waiting)), (1, [ChannelName(*QUEUED)]))

    def test_processes(self) -> None:
        self.assertEqual(sorted(self.machine.processes), [40000, 40001, 40003, 40006])
        zombie, first = self.machine.zombies[40005], self.machine.processes[40000]
        self.assertEqual((zombie.parent, zombie.host, zombie.made, zombie.status), (40003, 3, 0, 9))
        self.assertEqual((first.pending, first.threads[40004].pending, first.made), (1 << 30, 512, 14))
        self.assertEqual(first.descriptors[3], Descriptor(DescriptionName(40000, 6), 1))

    def test_written_again(self) -> None:
        self.assertEqual(shared_image(self.machine), bytes(self.laid.content))


class Damaged(unittest.TestCase):
    """Where the first damage is."""

    def setUp(self) -> None:
        self.laid = laid_out()

    def damage(self, data: bytes) -> int | None:
        """The first place that spells nothing."""
        try:
            read_shared(data)
        except Damage as damage:
            return damage.offset
        return None

    def test_fields(self) -> None:
        for name, value, *where in [*HEAD, *FILES, *CHANNELS, *DESCRIPTIONS, *PROCESSES]:
            data = self.laid.with_field(name, value)
            place = where[0] if where else name
            wanted = {END: len(data), "": None}.get(place, self.laid.places.get(place, (0, 0))[0])
            with self.subTest(field=name, value=value):
                self.assertEqual(self.damage(data), wanted)

    def test_cut_short_and_longer(self) -> None:
        whole = bytes(self.laid.content)
        for length in range(len(whole)):
            self.assertEqual(self.damage(whole[:length]), length)
        self.assertEqual(self.damage(whole + b"\0"), len(whole))


if __name__ == "__main__":
    unittest.main()
