"""Runs of many processes: whose turn it is, what arrives, calls that wait (docs/MACHINE.md, "Rounds", "Signals")."""

import unittest
from collections.abc import Iterator
from itertools import islice

from ..addresses import address_bytes
from ..driver import Keeper, RunEnd, drive
from ..elf import read_elf
from ..numbers import Number
from ..objects import Address
from ..rounds import rounds
from ..start import Word, start_job
from ..state import Action, Machine
from ..store import Store
from ..trace import RECORD_BYTES, Kind, Record, Trace, call, delivery, read_record, user
from ..validity import broken
from .bench import CODE, FIRST, SECOND, THIRD, BenchCase
from .guests import A0, BASE, DATA, EBREAK, S0, T0, branch, elf, li, store_word, write_word
from .guests import call as asked

LOOP = (branch(0, 0, 0, 0)).to_bytes(4, "little") * 1024
QUANTUM = 4096
TRAP_SIGNAL, TRAP_BIT = 5, 1 << 4
NOT_EQUAL, LESS = 1, 4
FORK = asked(Number.CLONE, 17)
PIPE = asked(Number.PIPE2, DATA, 0)
READING, WRITING = 3, 4
CALL_AGAIN = 0x10000000
ROOM = 400


def forked(child: list[int], parent: list[int]) -> list[int]:
    """A child does the one, its parent the other."""
    return [*FORK, branch(NOT_EQUAL, A0, 0, 4 + 4 * len(child)), *child, *parent]


def write_at(place: int, count: int) -> list[int]:
    """Writes bytes of memory on the console."""
    return asked(Number.WRITE, 1, place, count)


def ended(code: int = 0) -> list[int]:
    """The process ends."""
    return asked(Number.EXIT_GROUP, code)


def started(*guests: tuple[list[int], int], data: bytes = b"") -> Machine:
    """The start of a job of guests, each on its host."""
    words = [Word(read_elf(elf(guest, data)), (b"g",), host) for guest, host in guests]
    return start_job(words)


def run(machine: Machine, room: int = ROOM, every: int | None = None) -> tuple[RunEnd, list[Record], list[str]]:
    """How a run ends, its records, and the lines of its checkpoints."""
    keeper = Keeper(every, 0, Store({}), Trace(room))
    end = drive(machine, keeper)
    data = bytes(keeper.trace.data)
    return end, [read_record(data, place) for place in range(0, len(data), RECORD_BYTES)], keeper.lines


def shape(records: list[Record]) -> Iterator[tuple[Kind, int, int]]:
    """Kind, process and thread of each record."""
    return ((record.kind, record.a, record.b) for record in records)


class Turns(BenchCase):
    """The order of turns."""

    hosts = (0, 1)

    def loop(self, *pids: int) -> None:
        """Lets processes turn on the spot."""
        for pid in pids:
            self.bench.process(pid).memory.poke(CODE, LOOP)
            for thread in self.bench.process(pid).threads.values():
                thread.pc = CODE

    def test_processes_and_then_threads(self) -> None:
        thread = self.bench.new_thread()
        child = self.bench.fork(SECOND)
        self.loop(FIRST, SECOND, child)
        expected = [user(pid, tid, QUANTUM) for pid, tid in ((FIRST, FIRST), (FIRST, thread), (SECOND, SECOND))]
        expected.append(user(child, child, QUANTUM))
        self.assertEqual(list(islice(rounds(self.bench.machine), 8)), expected * 2)

    def test_a_round_begins_with_what_is_on_its_way(self) -> None:
        channels = [self.bench.pipe(), self.bench.pair()]
        self.bench.write(channels[1][1], b"back")
        self.bench.write(channels[1][0], b"there")
        self.bench.write(channels[0][1], b"one")
        _, writing = self.bench.pipe(by=SECOND)
        self.bench.write(writing, b"x", by=SECOND)
        self.loop(FIRST, SECOND)
        found = list(islice(rounds(self.bench.machine), 7))
        arrived = [(FIRST, 1, 0, 3), (FIRST, 4, 0, 5), (FIRST, 4, 1, 4), (SECOND, 1, 0, 1)]
        self.assertEqual([(one.a, one.b, one.x, one.n) for one in found[:4]], arrived)
        self.assertEqual({one.kind for one in found[:4]}, {Kind.ARRIVE})
        self.assertEqual({one.kind for one in found[4:]}, {Kind.USER})

    def test_who_waits_is_passed_over(self) -> None:
        reading, writing = self.bench.pipe()
        self.bench.ready_at(Number.READ, (reading, DATA, 4))
        self.loop(SECOND)
        records = rounds(self.bench.machine)
        self.assertEqual(list(islice(records, 3)), [user(SECOND, SECOND, QUANTUM)] * 3)
        end = self.bench.object(writing)
        self.bench.machine.channels[end.channel].sent_by(end.side).data += b"late"
        self.assertEqual([next(records).kind for _ in range(2)], [Kind.ARRIVE, Kind.CALL])

    def test_the_signal_of_a_trap_that_is_pending_too_stays_pending(self) -> None:
        process, thread = self.bench.process(), self.bench.thread()
        process.memory.poke(CODE, EBREAK.to_bytes(4, "little"))
        process.memory.poke(CODE + 4, LOOP[:4])
        process.actions[TRAP_SIGNAL] = Action(CODE + 4)
        thread.pc, thread.pending = CODE, TRAP_BIT
        self.assertEqual(next(rounds(self.bench.machine)), delivery(FIRST, FIRST, TRAP_SIGNAL))
        self.assertEqual((thread.pending, thread.contexts[0].pc), (TRAP_BIT, CODE))

    def test_a_trap_that_is_masked_or_ignored_ends_the_process(self) -> None:
        for pid, handler, mask in ((FIRST, CODE, TRAP_BIT), (SECOND, 1, 0)):
            process, thread = self.bench.process(pid), self.bench.thread(pid)
            process.memory.poke(CODE, EBREAK.to_bytes(4, "little"))
            process.actions[TRAP_SIGNAL] = Action(handler)
            thread.pc, thread.mask = CODE, mask
        self.assertEqual(list(rounds(self.bench.machine)), [delivery(pid, pid, TRAP_SIGNAL) for pid in (FIRST, SECOND)])
        self.assertEqual(self.bench.machine.processes, {})

    def test_a_process_that_has_ended_has_no_turn(self) -> None:
        other = self.bench.new_thread()
        self.loop(FIRST, SECOND)
        self.bench.call(Number.KILL, FIRST, 9)
        self.bench.thread().pc = self.bench.thread(FIRST, other).pc = CODE
        found = list(islice(rounds(self.bench.machine), 3))
        self.assertEqual(found, [delivery(FIRST, FIRST, 9), *[user(SECOND, SECOND, QUANTUM)] * 2])

    def test_stuck(self) -> None:
        reading, _ = self.bench.pipe()
        self.bench.ready_at(Number.READ, (reading, DATA, 4))
        self.bench.ready_at(Number.FUTEX, (DATA, 0, 0), SECOND)
        self.assertEqual(list(rounds(self.bench.machine)), [call(SECOND, SECOND)])

    def test_bytes_arrive_before_a_run_is_stuck(self) -> None:
        reading, writing = self.bench.pipe()
        self.bench.write(writing, b"unread")
        other, _ = self.bench.pipe(by=SECOND)
        self.bench.call(Number.DUP3, 0, reading)
        self.bench.ready_at(Number.ACCEPT, (self.bench.listener(80), 0))
        self.bench.ready_at(Number.READ, (other, DATA, 1), SECOND)
        self.assertEqual(list(rounds(self.bench.machine)), [])
        self.bench.pair(by=SECOND)
        self.bench.write(6, b"kept", by=SECOND)
        self.bench.ready_at(Number.READ, (other, DATA, 1), SECOND)
        self.assertEqual([record.kind for record in rounds(self.bench.machine)], [Kind.ARRIVE])


class Runs(unittest.TestCase):
    """Whole runs of guests that fork, talk and wait."""

    def test_child_tells_its_parent(self) -> None:
        child = [*asked(Number.WRITE, WRITING, DATA + 16, 4), *asked(Number.EXIT, 7)]
        parent = [*asked(Number.READ, READING, DATA + 32, 9), *write_word(A0), *write_at(DATA + 32, 4)]
        parent += [*asked(Number.WAIT4, -1, DATA + 64, 0, 0), *write_word(A0), *write_at(DATA + 64, 4), *ended()]
        machine = started(([*PIPE, *forked(child, parent)], 0), data=bytes(16) + b"ping")
        end, records, _ = run(machine)
        number = (SECOND).to_bytes(4, "little")
        self.assertEqual(bytes(machine.console), b"\4\0\0\0ping" + number + b"\0\7\0\0")
        self.assertEqual((end, machine.zombies), (RunEnd.DONE, {}))
        made = [(Kind.USER, FIRST, FIRST), (Kind.CALL, FIRST, FIRST)] * 2
        third = [(Kind.USER, FIRST, FIRST), (Kind.USER, SECOND, SECOND), (Kind.CALL, SECOND, SECOND)]
        fourth = [(Kind.ARRIVE, FIRST, 1), (Kind.CALL, FIRST, FIRST), (Kind.USER, SECOND, SECOND)]
        self.assertEqual(list(shape(records))[:10], made + third + fourth)

    def test_signal_of_a_child_is_ignored_while_the_parent_waits(self) -> None:
        parent = [*asked(Number.READ, READING, DATA + 32, 9), *ended()]
        machine = started(([*PIPE, *forked(ended(), parent)], 0))
        end, records, _ = run(machine)
        self.assertEqual((end, records[-1]), (RunEnd.STUCK, delivery(FIRST, FIRST, 17)))
        self.assertEqual(machine.process.pending, 0)

    def test_hosts_talk(self) -> None:
        address = [DATA, 16]
        server = [*asked(Number.SOCKET, 2, 1, 0), *asked(Number.BIND, 3, *address), *asked(Number.LISTEN, 3, 1)]
        server += [*asked(Number.ACCEPT, 3, 0, 0), *asked(Number.READ, 4, DATA + 64, 4), *write_at(DATA + 64, 4)]
        again = asked(Number.CONNECT, 3, *address)
        client = [*asked(Number.SOCKET, 2, 1, 0), *again, branch(LESS, A0, 0, -4 * len(again))]
        client += [*asked(Number.WRITE, 3, DATA + 16, 4), *ended()]
        data = address_bytes(Address(5, 80)) + b"ping"
        machine = started((client, 2), ([*server, *ended()], 5), data=data)
        end, records, _ = run(machine)
        self.assertEqual((end, bytes(machine.console)), (RunEnd.DONE, b"ping"))
        self.assertEqual([record.n for record in records if record.kind is Kind.ARRIVE], [4])

    def test_consoles_are_their_own(self) -> None:
        machine = started((ended(), 0), (ended(), 3))
        self.assertEqual([(name.pid, name.num) for name in machine.descriptions], [(FIRST, 0), (SECOND, 0)])
        self.assertEqual((machine.next_id, machine.next_file, broken(machine)), (THIRD, 1, []))


class Interrupted(unittest.TestCase):
    """A handler interrupts a call that waits."""

    def interrupted(self, flags: int) -> Machine:
        """The child sends a signal to its parent, which reads."""
        child = [*asked(Number.KILL, FIRST, 10), *ended()]
        parent = [*asked(Number.READ, READING, DATA + 32, 4), *write_word(A0), *ended()]
        handle = [*li(T0, DATA), *li(S0, 0), store_word(S0, T0, 0), *li(S0, flags), store_word(S0, T0, 4)]
        act = asked(Number.RT_SIGACTION, 10, DATA, 0, 8)
        body = [*handle, *act, *PIPE, *forked(child, parent)]
        body[2:4] = li(S0, BASE + 4 * len(body))
        return started(([*body, *write_at(DATA + 64, 1), *asked(Number.RT_SIGRETURN)], 0), data=bytes(64) + b"h")

    def test_eintr(self) -> None:
        machine = self.interrupted(0)
        self.assertEqual(run(machine)[0], RunEnd.DONE)
        self.assertEqual(bytes(machine.console), b"h" + (2**32 - 4).to_bytes(4, "little"))

    def test_again(self) -> None:
        machine = self.interrupted(CALL_AGAIN)
        self.assertEqual(run(machine)[0], RunEnd.STUCK)
        self.assertEqual(bytes(machine.console), b"h")


class Checkpoints(unittest.TestCase):
    """What comes of a request."""

    def test_all_bytes_arrive_before_a_cut(self) -> None:
        words = [*PIPE, *asked(Number.WRITE, WRITING, DATA, 5), *ended()]
        records = run(started((words, 0)), room=6, every=4)[1]
        self.assertEqual([record.kind for record in records[4:]], [Kind.ARRIVE, Kind.CUT])

    def test_refused(self) -> None:
        words = [*asked(Number.EVENTFD2, 0, 0), *asked(Number.DUP3, 3, 9), *asked(Number.CLOSE, 3), *ended()]
        records, lines = run(started((words, 0)), every=4)[1:]
        self.assertEqual(records[4], Record(Kind.REFUSED, x=1, fd=3, a=FIRST, b=6))
        self.assertEqual(lines[0], "checkpoint 1 refused: process 40000 descriptor 3 is an event counter")
        pair = [*asked(Number.SOCKETPAIR, 1, 2, 0, DATA), *ended()]
        found = run(started((pair, 0)), every=2)[2]
        self.assertEqual(found[0], "checkpoint 1 refused: process 40000 descriptor 3 is a datagram pair")
