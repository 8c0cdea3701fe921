#!/usr/bin/env python3
"""Runs random jobs with checkpoints by two built programs, by the second one on random nodes: both must
leave the same.

    tools/compare_programs.py [--same-words] FIRST SECOND [SEEDS [FIRST_SEED]]

FIRST and SECOND are built programs. Both may be the same. The second one has to know the options of nodes
(docs/CLI.md), but with --same-words.

Each seed makes a random job, mostly of several processes. It is launched with checkpoints and cut off,
and gone on with by one to three restarts, each from what the call before left. Of one seed in eight
there are also restarts from sets of a job in which little is left of something that has a limit, of one in
sixteen restarts from a set that has something of each kind, with another number in one of its fields, and
of one in sixteen a ring.

The second program's words say in each call how many nodes there are, and of a restart on which of them
the hosts are and from what numbers on they give out processes and ports; now and then they leave some of
this out. With --same-words they are the first one's. Status, console, log, trace and each file of the folder
of sets are compared byte for byte. It ends with status 1, and keeps the files, where any two differ, or
where no set was made.
"""

import random
import shutil
import sys
import tempfile
from dataclasses import replace
from pathlib import Path

from built import built_program
from comparing.cases import Case, run_program
from comparing.nodes import on_nodes
from comparing.trial import Trial, crowds, first_launch, options, other_fields
from guests.everything import make_everything
from guests.jobs import Job, make_job
from guests.program import make_guest
from model import Outcome

SEEDS = 1000
REPORTED = 50  # seeds after which the counts so far are told
SAME_WORDS = "--same-words"


class Pair(Trial):
    """The runs so far by two programs."""

    names = ("first", "second")

    def __init__(self, first: str, second: str, folder: Path, moves: bool) -> None:
        super().__init__(first, folder)
        self.second, self.moves = second, moves

    def outcomes(self, case: Case) -> tuple[Case, Outcome, Outcome]:
        """Makes a call by both, by the second one on nodes, where it moves; gives it as that one had it."""
        moved = replace(case, words=on_nodes(self.nodes, case.words)) if self.moves else case
        return moved, run_program(self.program, case), run_program(self.second, moved)

    def one_seed(self, seed: int) -> None:
        rng = self.begin(seed)
        run_job(self, seed, rng)
        if rng.random() < 1 / 8:
            crowds(self, seed, rng)
        if rng.random() < 1 / 16:
            other_fields(self, seed, rng)
        if rng.random() < 1 / 16:
            ring(self, seed, rng)


def launch_of(rng: random.Random) -> Case:
    """A launch with checkpoints of a job that this source of numbers makes. One that has something of each
    kind is cut off about when it has all of it."""
    kind = rng.random()
    if kind < 0.75:
        return first_launch(make_job(rng), rng)
    if kind < 0.85:
        return first_launch(Job({"g.elf": make_guest(rng).file}, ["0:g.elf"]), rng)
    job, cut = make_everything(rng), rng.randint(40, 240)
    return Case(["launch", "--every", str(cut), "--records", str(cut + 60), *job.words], job.files)


def run_job(pair: Pair, seed: int, rng: random.Random) -> None:
    """A launch with checkpoints, and restarts from what each call left."""
    pair.counts.done["jobs"] += 1
    left = pair.compare(seed, launch_of(rng))
    for _ in range(rng.randint(1, 3)):
        pair.counts.done["restarts"] += 1
        words = ["restart", *options(rng, rng.random() < 0.7, rng.choice([40, 100, 200]))]
        left = pair.compare(seed, Case(words, {}, left.sets))


def ring(pair: Pair, seed: int, rng: random.Random) -> None:
    """A launch and a restart in one call."""
    pair.counts.done["rings"] += 1
    every = [] if rng.random() < 0.2 else ["--every", str(rng.choice([100, 137, 500, 1001]))]
    pair.compare(seed, Case(["ring", str(rng.randint(2, 16)), *every], {}))


def summary(pair: Pair, seeds: int) -> str:
    counts = pair.counts
    kinds = ("jobs", "restarts", "damaged sets", "rings")
    done = ", ".join(f"{counts.done[name]} {name}" for name in kinds)
    made = f"{counts.records:,} records, {counts.sets:,} sets"
    return f"{seeds} seeds: {done}, {made}, {counts.differ} differences"


def main() -> int:
    """Tries all seeds."""
    moves = SAME_WORDS not in sys.argv
    words = [word for word in sys.argv[1:] if word != SAME_WORDS]
    if len(words) < 2:
        sys.exit(__doc__)
    first, second = built_program(words, 0), built_program(words, 1)
    seeds = int(words[2]) if len(words) > 2 else SEEDS
    begin = int(words[3]) if len(words) > 3 else 1
    folder = Path(tempfile.mkdtemp())
    pair = Pair(first, second, folder, moves)
    for done in range(1, seeds + 1):
        pair.one_seed(begin + done - 1)
        if done % REPORTED == 0:
            print(summary(pair, done), file=sys.stderr, flush=True)
    print(summary(pair, seeds))
    if not pair.counts.differ:
        shutil.rmtree(folder)
    return 1 if pair.counts.differ or not pair.counts.sets else 0


if __name__ == "__main__":
    sys.exit(main())
