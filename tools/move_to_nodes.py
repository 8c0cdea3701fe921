#!/usr/bin/env python3
"""Restarts jobs on other nodes, with other numbers of processes and ports, and compares what comes of it.

    tools/move_to_nodes.py [DMTCP [JOB]]

DMTCP is a built program, else crates/dmtcp/out/dmtcp, which `cd crates/dmtcp && rt run -- --version` proves
and builds. With a JOB only those are tried whose name holds it.

Each job is launched, on as many nodes as its hosts need and on 16: both leave the same. From its set, cut
while the job is under way, it is restarted where the words say nothing of nodes, and on each of sixteen
choices of nodes: all leave the same. And it is brought to its end over a row of restarts, ten or more, each
from what the one before left and on other nodes than that: each leaves the same as a restart where the words
say nothing. Status, console, log, trace and each file of the folder of sets are compared byte for byte.

The jobs are those of the examples that have several processes or threads, and some that guests/everything.py
makes, whose sets hold something of each kind (comparing/kinds.py). It ends with status 1, and tells of the
first byte, where anything differs; and where a set lacks a kind that it is to hold, or a row has fewer
restarts. """

import random
import sys
from collections.abc import Iterator
from dataclasses import dataclass
from itertools import cycle

from built import built_program
from comparing.cases import Case, differences, run_program
from comparing.kinds import KINDS, kinds_in
from comparing.nodes import MOST_NODES, Nodes
from guests.everything import make_everything
from guests.jobs import Job
from jobs import BUFFER, BUSY_SERVER, EXAMPLES, PIPELINE, SHELL, THREADS, Wrong, check
from jobs import Job as Example
from model import Outcome
from model.store import Store
from resume_everywhere import DONE, SPENT

ROOM = 60
"""Records of a launch beside its work before the cut and half as many: arrivals and marks are records too."""
FEWEST_RESTARTS, MOST_RESTARTS = 10, 60
NAMES = ("usual", "moved")
CHOICES = (
    Nodes(1, 0, 1, 1024),
    Nodes(1, 15, 2000, 30000),
    Nodes(2, 0, 40000, 30000),
    Nodes(2, 1, 39999, 57344),
    Nodes(3, 0, 2000, 32768),
    Nodes(3, 2, 1000000000, 30000),
    Nodes(4, 3, 1000, 20000),
    Nodes(5, 7, 7, 50000),
    Nodes(7, 0, 65535, 1025),
    Nodes(8, 15, 40001, 40000),
    Nodes(11, 4, 123456789, 57343),
    Nodes(13, 12, 2, 2000),
    Nodes(15, 15, 999999999, 57344),
    Nodes(16, 0, 2000, 30000),
    Nodes(16, 1, 1, 57344),
    Nodes(16, 15, 1000000000, 1024),
)


@dataclass(frozen=True)
class Move:
    """A job by its name; after how many records of work it is cut before it is moved on each choice of nodes;
    after how many it has its checkpoints then, and after how many records it is cut off in a row of restarts;
    and the kinds of things that it has at the first cut."""

    name: str
    job: Job
    cut: int
    every: int
    length: int
    kinds: frozenset[str] = frozenset()


def of_examples(example: Example, cut: int, every: int, length: int) -> Move:
    """One of the examples, moved."""
    files = {name: (EXAMPLES / name).read_bytes() for name in example.files()}
    return Move(example.words, Job(files, example.words.split()), cut, every, length)


def with_everything(seed: int) -> Move:
    """A job that has something of each kind."""
    return Move(f"everything {seed}", make_everything(random.Random(seed)), 200, 30, 60, frozenset(KINDS))


def moves() -> Iterator[Move]:
    """All jobs that are tried."""
    yield from map(with_everything, (1, 2, 3))
    yield of_examples(PIPELINE, 1900, 400, 700)
    yield of_examples(SHELL, 130, 20, 40)
    yield of_examples(BUFFER, 4000, 1200, 1300)
    yield of_examples(THREADS, 60, 6, 9)
    yield of_examples(BUSY_SERVER, 300, 40, 100)


def lacking(move: Move, left: Outcome) -> list[str]:
    """The kinds that the set which counts is to hold and lacks."""
    store = Store(left.sets)
    counting = store.counting()
    check(counting, f"the launch makes no set: {left.log!r}")
    return sorted(move.kinds - kinds_in(store.get_machine(counting.slot)))


class Trial:
    """The program that is tried, and how often it differed."""

    def __init__(self, program: str) -> None:
        self.program = program
        self.failures = 0

    def launch(self, move: Move, *options: str) -> Outcome:
        return run_program(self.program, Case(["launch", *options, *move.job.words], move.job.files))

    def restart(self, sets: dict[str, bytes], *options: str) -> Outcome:
        return run_program(self.program, Case(["restart", *options], {}, sets))

    def compare(self, what: str, usual: Outcome, moved: Outcome) -> None:
        """Says where they differ."""
        found = differences(usual, moved, NAMES)
        if found:
            self.failures += 1
            print(f"FAILED: {what}", *found, sep="\n    ", file=sys.stderr, flush=True)

    def try_choices(self, move: Move) -> None:
        """Launches the job on few nodes and on all, and restarts its set on each choice of nodes."""
        options = ["--every", str(move.cut), "--records", str(move.cut * 3 // 2 + ROOM)]
        left = self.launch(move, *options)
        self.compare(f"{move.name} launched on {MOST_NODES} nodes", left,
                     self.launch(move, *options, "--nodes", str(MOST_NODES)))
        lacks = lacking(move, left)
        check(not lacks, f"the set lacks a {', a '.join(lacks)}")
        usual = self.restart(left.sets, "--every", str(move.every))
        for nodes in CHOICES:
            moved = self.restart(left.sets, "--every", str(move.every), *nodes.words())
            self.compare(f"{move.name}, {' '.join(nodes.words())}", usual, moved)

    def try_row(self, move: Move) -> int:
        """Brings the job to its end over restarts that move each time, and tells how many there were."""
        options = ["--every", str(move.every), "--records", str(move.length)]
        left, choices, restarts = self.launch(move, *options), cycle(CHOICES), 0
        while left.status == SPENT:
            check(restarts < MOST_RESTARTS, f"it is not at its end after {restarts} restarts")
            nodes, restarts = next(choices), restarts + 1
            usual = self.restart(left.sets, *options)
            left = self.restart(left.sets, *options, *nodes.words())
            self.compare(f"{move.name}, restart {restarts} of a row, {' '.join(nodes.words())}", usual, left)
        check(left.status == DONE, f"it ends with {left.status}")
        check(restarts >= FEWEST_RESTARTS, f"it takes {restarts} restarts")
        return restarts


def try_move(trial: Trial, move: Move) -> None:
    """Tries one job."""
    failures, restarts = trial.failures, 0
    try:
        trial.try_choices(move)
        restarts = trial.try_row(move)
    except Wrong as wrong:
        trial.failures += 1
        print(f"FAILED: {move.name}: {wrong}", file=sys.stderr, flush=True)
    print(f"{move.name}: {len(CHOICES)} choices of nodes, a row of {restarts} restarts, "
          f"{trial.failures - failures} failures", flush=True)


def main() -> int:
    """Tries all jobs."""
    trial = Trial(built_program(sys.argv, 1))
    wanted = sys.argv[2] if len(sys.argv) > 2 else ""
    for move in moves():
        if wanted in move.name:
            try_move(trial, move)
    return 1 if trial.failures else 0


if __name__ == "__main__":
    sys.exit(main())
