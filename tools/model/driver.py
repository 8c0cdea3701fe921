"""A run with its checkpoints (docs/ARCHITECTURE.md, "The way of a run" and "The way of a checkpoint"; docs/FORMATS.md,
"Where the marks stand")."""

from collections.abc import Iterator
from dataclasses import dataclass, field
from enum import Enum

from .images import images
from .objects import Counter, DatagramEnd, DirectionName
from .rounds import arrivals, rounds
from .state import Machine
from .store import Store
from .trace import DATAGRAM_PAIR, EVENT_COUNTER, UNSUPPORTED, WORK, Kind, Record, Trace, mark, moved

LAST_ASKED = 2**64 - 2
"""A request is made where the greatest generation so far is below this."""


class RunEnd(Enum):
    """How a run ends."""

    DONE = "no process lives"
    SPENT = "the trace is full"
    STUCK = "nobody can go on"


UNSUPPORTED_OBJECTS: dict[type, int] = {DatagramEnd: DATAGRAM_PAIR, Counter: EVENT_COUNTER}
NAMES_OF_UNSUPPORTED = {DATAGRAM_PAIR: "a datagram pair", EVENT_COUNTER: "an event counter"}


def _unsupported(machine: Machine) -> Record | None:
    """The refusal for the lowest process and descriptor that no image holds."""
    for pid in sorted(machine.processes):
        descriptors = machine.processes[pid].descriptors
        for fd in sorted(descriptors):
            kind = UNSUPPORTED_OBJECTS.get(type(machine.descriptions[descriptors[fd].name].object))
            if kind is not None:
                return Record(Kind.REFUSED, x=UNSUPPORTED, fd=fd, a=pid, b=kind)
    return None


def _unread(machine: Machine) -> list[tuple[DirectionName, int]]:
    """The directions with bytes left, in rising order, with their number."""
    named = [
        (DirectionName(name, side), len(direction.data))
        for name in sorted(machine.channels)
        for side, direction in enumerate(machine.channels[name].directions)
    ]
    return [(name, count) for name, count in named if count]


@dataclass
class Keeper:
    """What keeps a run's requests, its store and its lines on the log."""

    every: int | None
    generation: int
    store: Store
    trace: Trace
    work: int = 0
    requests: int = 0
    lines: list[str] = field(default_factory=list)

    def after_work(self, machine: Machine) -> None:
        """Counts a record of work, and makes the request that is due behind it."""
        self.work += 1
        if self.every is None or self.work % self.every or self.generation >= LAST_ASKED:
            return
        self.requests += 1
        unsupported = _unsupported(machine)
        if not machine.processes:
            self._lapse()
        elif unsupported is not None:
            self._refuse(unsupported)
        else:
            self._checkpoint(machine)

    def _lapse(self) -> None:
        if self.trace.append(mark(Kind.LAPSED)):
            self.lines.append(f"checkpoint {self.requests} lapsed")

    def _refuse(self, unsupported: Record) -> None:
        if self.trace.append(unsupported):
            what = NAMES_OF_UNSUPPORTED[unsupported.b]
            place = f"process {unsupported.a} descriptor {unsupported.fd}"
            self.lines.append(f"checkpoint {self.requests} refused: {place} is {what}")

    def _append_all(self, records: Iterator[Record]) -> bool:
        """Appends records, each made where there is room for it; false where the trace is full then."""
        while not self.trace.is_full():
            record = next(records, None)
            if record is None:
                return True
            self.trace.append(record)
        return False

    def _checkpoint(self, machine: Machine) -> None:
        """What is on its way arrives; a cut, what is drained, the set, what is refilled, and the mark and line of its
        end, as far as the trace has room."""
        if not self._append_all(arrivals(machine)):
            return
        self.trace.append(mark(Kind.CUT, self.generation + 1))
        self.generation += 1
        unread = _unread(machine)
        if not self._append_all(moved(Kind.DRAINED, *one) for one in unread):
            return
        self.store.put_set(images(machine))
        if not self._append_all(moved(Kind.REFILLED, *one) for one in unread):
            return
        self.trace.append(mark(Kind.COMPLETE, self.generation))
        drained = sum(count for _, count in unread)
        self.lines.append(f"checkpoint {self.requests} complete: generation {self.generation}, drained {drained}")


def drive(machine: Machine, keeper: Keeper) -> RunEnd:
    """Runs the threads in rounds until nobody lives, the trace is full, or nobody can go on."""
    records = rounds(machine)
    while machine.processes:
        if keeper.trace.is_full():
            return RunEnd.SPENT
        record = next(records, None)
        if record is None:
            return RunEnd.STUCK
        keeper.trace.append(record)
        if record.kind in WORK:
            keeper.after_work(machine)
    return RunEnd.DONE
