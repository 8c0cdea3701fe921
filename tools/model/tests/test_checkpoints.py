"""Checkpoints of many: what arrives, marks and their room, the log, and restarts (docs/FORMATS.md, "Where the marks
stand", "The log"; docs/MACHINE.md, "Rounds")."""

import unittest

from ..bits import words_bytes
from ..numbers import Number
from ..session import Outcome, run
from ..store import Store
from ..trace import RECORD_BYTES, Kind, Record, call, mark, moved, read_record, user
from ..objects import ChannelName, DirectionName
from ..validity import broken
from .bench import FIRST, SECOND, THIRD
from .guests import A0, DATA, branch, elf
from .guests import call as asked
from .test_rounds import FORK, PIPE, READING, WRITING, ended, forked, write_at

PAIR = asked(Number.SOCKETPAIR, 1, 1, 0, DATA)
CREAT, READ_WRITE = 0x40, 2
TEXT = DATA + 64


def launched(guest: list[int], words: str, data: bytes = b"", sets: dict[str, bytes] | None = None) -> Outcome:
    """A launch of one guest, with options."""
    return run(["launch", *words.split(), "0:g"], {"g": elf(guest, data)}, sets or {})


def records(outcome: Outcome) -> list[Record]:
    """The trace."""
    data = outcome.trace or b""
    return [read_record(data, place) for place in range(0, len(data), RECORD_BYTES)]


def lines(outcome: Outcome) -> list[str]:
    """The log."""
    return outcome.log.decode().splitlines()


def all_of(kind: Kind, number: int, side: int, count: int) -> Record:
    """So many bytes of a direction of a channel of the first process."""
    return moved(kind, DirectionName(ChannelName(FIRST, number), side), count)


class Marks(unittest.TestCase):
    """A pipe with five bytes, and a request behind the fourth record of work."""

    guest = [*PIPE, *asked(Number.WRITE, WRITING, TEXT, 5), *asked(Number.READ, READING, DATA + 32, 9)]
    guest += [*write_at(DATA + 32, 5), *ended()]
    data = bytes(64) + b"12345"

    def test_marks(self) -> None:
        found = launched(self.guest, "--every 4", self.data)
        self.assertEqual(records(found)[4:9], [
            all_of(Kind.ARRIVE, 1, 0, 5), mark(Kind.CUT, 1), all_of(Kind.DRAINED, 1, 0, 5),
            all_of(Kind.REFILLED, 1, 0, 5), mark(Kind.COMPLETE, 1)])
        self.assertEqual(lines(found)[0], "checkpoint 1 complete: generation 1, drained 5")
        self.assertEqual(lines(found)[1], "checkpoint 2 complete: generation 2, drained 0")
        self.assertEqual((found.status, found.console), (0, b"12345"))

    def test_as_far_as_there_is_room(self) -> None:
        whole = launched(self.guest, "--every 4", self.data)
        complete = launched(self.guest, "--every 4 --records 9", self.data)
        self.assertEqual(len(complete.sets), 3)
        self.assertEqual(lines(complete), [lines(whole)[0], "budget spent: 9 records"])
        for room in range(4, 9):
            found = launched(self.guest, f"--every 4 --records {room}", self.data)
            self.assertEqual(found.trace, whole.trace[: 16 * room], room)
            self.assertEqual(lines(found), [f"budget spent: {room} records"])
            # The eighth record is the mark of what is refilled, before which the set is written.
            self.assertEqual(found.sets, complete.sets if room == 8 else {}, room)

    def test_a_restart_reads_what_waited(self) -> None:
        left = launched(self.guest, "--every 4 --records 9", self.data).sets
        self.assertEqual(broken(Store(left).get_machine(0)), [])
        found = run(["restart"], {}, left)
        self.assertEqual((found.status, found.console, lines(found)), (0, b"12345", ["done"]))
        self.assertEqual([one.kind for one in records(found)], [Kind.USER, Kind.CALL] * 3)

    def test_both_directions(self) -> None:
        """All directions are drained, in rising order, and then filled again."""
        guest = [*PAIR, *asked(Number.WRITE, 4, DATA, 3), *asked(Number.WRITE, 3, DATA, 2), *PIPE]
        guest += [*asked(Number.WRITE, 6, DATA, 1), *ended()]
        found = launched(guest, "--every 10 --records 19")
        sent = [(1, 0, 2), (1, 1, 3), (4, 0, 1)]
        shut = [mark(Kind.CUT, 1), *(all_of(Kind.DRAINED, *one) for one in sent)]
        self.assertEqual(records(found)[13:], [*shut, *(all_of(Kind.REFILLED, *one) for one in sent[:2])])
        self.assertEqual(found.sets, launched(guest, "--every 10 --records 21").sets)
        self.assertEqual(launched(guest, "--every 10 --records 17").sets, {})
        self.assertIn("generation 1, drained 6", lines(launched(guest, "--every 10"))[0])


class Refusals(unittest.TestCase):
    """What no image holds, and nobody who lives."""

    def test_lowest_process_and_descriptor(self) -> None:
        guest = [*PIPE, *asked(Number.WRITE, WRITING, DATA, 5), *asked(Number.EVENTFD2, 0, 0)]
        guest += [*asked(Number.SOCKETPAIR, 1, 2, 0, DATA), *asked(Number.CLOSE, 5), *FORK]
        guest += [branch(1, A0, 0, 4 + 4 * len(ended())), *ended(), *asked(Number.SCHED_YIELD), *ended()]
        found = launched(guest, "--every 12")
        place = next(at for at, one in enumerate(records(found)) if one.kind is Kind.REFUSED)
        self.assertEqual(records(found)[place], Record(Kind.REFUSED, x=1, fd=6, a=FIRST, b=5))
        self.assertEqual(lines(found)[0], "checkpoint 1 refused: process 40000 descriptor 6 is a datagram pair")
        self.assertEqual((lines(found)[-1], found.sets), ("done", {}))

    def test_a_refusal_comes_at_once(self) -> None:
        """No byte arrives for it."""
        guest = [*PIPE, *asked(Number.EVENTFD2, 0, 0), *asked(Number.WRITE, WRITING, DATA, 5), *ended()]
        found = records(launched(guest, "--every 6"))
        self.assertEqual([one.kind for one in found[4:8]], [Kind.USER, Kind.CALL, Kind.REFUSED, Kind.ARRIVE])

    def test_without_room(self) -> None:
        found = launched([*asked(Number.EVENTFD2, 0, 0), *ended()], "--every 2 --records 2")
        self.assertEqual(lines(found), ["budget spent: 2 records"])

    def test_lapsed(self) -> None:
        found = launched(ended(), "--every 2")
        self.assertEqual((records(found)[-1], lines(found)), (mark(Kind.LAPSED), ["checkpoint 1 lapsed", "done"]))
        self.assertEqual(lines(launched(ended(), "--every 2 --records 2")), ["done"])


class Jobs(unittest.TestCase):
    """Launches of several programs."""

    def test_programs(self) -> None:
        """Each program is a process, in the order of the words."""
        found = run(["launch", "--records", "4", "2:g", "0:h,x"], {"g": elf(ended()), "h": elf(ended())}, {})
        self.assertEqual(records(found), [user(FIRST, FIRST, 4), call(FIRST, FIRST), user(SECOND, SECOND, 4),
                                          call(SECOND, SECOND)])
        self.assertEqual((found.status, found.log), (0, b"done\n"))

    def test_files(self) -> None:
        """A file of the words is read; the next one has the number behind the last; the one outside stays."""
        name, other = DATA + 64, DATA + 80
        guest = [*asked(Number.OPENAT, -100, name, READ_WRITE), *asked(Number.READ, 3, DATA, 9), *write_at(DATA, 5)]
        guest += [*asked(Number.WRITE, 3, DATA, 5), *asked(Number.OPENAT, -100, other, CREAT), *ended()]
        data = bytes(64) + b"one".ljust(16, b"\0") + b"new\0"
        files = {"g": elf(guest, data), "one": b"hello", "two": b""}
        words = ["launch", "--every", "10", "--records", "12", "--file", "two", "--file", "one", "0:g"]
        found = run(words, files, {})
        self.assertEqual((found.console, found.status), (b"hello", 18))
        machine = Store(found.sets).get_machine(0)
        held = {number: (file.name, bytes(file.data)) for number, file in machine.files.items()}
        self.assertEqual(held, {1: (b"two", b""), 2: (b"one", b"hellohello"), 3: (b"new", b"")})
        self.assertEqual((machine.next_file, files["one"]), (4, b"hello"))

    def test_a_set_of_many(self) -> None:
        """A parent and its child, which has ended, and a second program of another host."""
        first = [*forked(ended(3), asked(Number.SCHED_YIELD) * 9), *ended()]
        second = [*asked(Number.SCHED_YIELD) * 9, *ended()]
        words = ["launch", "--every", "10", "--records", "12", "0:g", "7:h"]
        found = run(words, {"g": elf(first), "h": elf(second)}, {})
        machine = Store(found.sets).get_machine(0)
        self.assertEqual((sorted(machine.processes), sorted(machine.zombies)), ([FIRST, SECOND], [THIRD]))
        self.assertEqual((machine.zombies[THIRD].status, machine.processes[SECOND].host), (3 * 256, 7))
        self.assertEqual((machine.processes[FIRST].pending, broken(machine)), (1 << 16, []))
        self.assertEqual(found.sets["s0_0.img"][16:20], words_bytes([3]))
        self.assertEqual(run(["restart"], {}, found.sets).log, b"done\n")

    def test_a_set_of_nobody(self) -> None:
        """A set whose shared image has no process: the run has come to its end before its first record."""
        shared = b"DMTSHR01" + words_bytes([FIRST, 1, 0, 0, 0, 0])
        manifest = b"\1DMTSET1" + bytes(8) + words_bytes([1, len(shared), 0])
        found = run(["restart", "--every", "1"], {}, {"s1_0.img": manifest, "s1_1.img": shared})
        self.assertEqual((found.status, found.log, found.trace), (0, b"done\n", None))

    def test_numbers_of_files(self) -> None:
        """A set whose manifest names a file more, or one less, than its shared image has processes."""
        found = run(["launch", "--every", "1", "--records", "3", "0:g", "1:g"], {"g": elf(ended())}, {})
        for images in ([1, 2], [1, 2, 3, 3], [1]):
            contents = [found.sets[f"s0_{image}.img"] for image in images]
            manifest = found.sets["s0_0.img"][:16] + words_bytes([len(contents)])
            manifest += b"".join(len(one).to_bytes(8, "little") for one in contents)
            sets = {"s0_0.img": manifest} | {f"s0_{at}.img": one for at, one in enumerate(contents, start=1)}
            line = f"damaged: slot 0 file 1 at {len(contents[0])}\n"
            self.assertEqual(run(["restart"], {}, sets).log.decode(), line)


if __name__ == "__main__":
    unittest.main()
