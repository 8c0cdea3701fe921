#!/usr/bin/env python3
"""Runs random guests by the built program and by the model of it that was written from the manual alone (model/): both
must leave the same.

Each seed makes one of these, of one guest or of a job of several: a run to its end; one that makes checkpoints, is cut
off, and goes on by restarts; restarts from a set that the model made; a launch beside sets that are there already;
restarts from damaged sets; program files with odd headers; odd words. Status, console, log, trace and each file of the
folder of sets are compared byte for byte. What a guest tells on its console of the answers of its calls, of its
handlers and of how it is to end is counted.

    tools/compare_with_model.py [SEEDS [DMTCP [FIRST_SEED]]]

DMTCP is a built program, else crates/dmtcp/out/dmtcp, which `cd crates/dmtcp && rt run -- --version` proves and builds.

It ends with status 1, and keeps the files, where any two differ, and where so many seeds as are meant to reach all that
comparing/tallies.py lists have not done so.
"""

import shutil
import sys
import tempfile
from pathlib import Path

from built import built_program
from comparing.trial import Trial

FULL_SIZE = 1000  # seeds that reach all that is to be reached
REPORTED = 50  # seeds after which the counts so far are told


def summary(trial: Trial, seeds: int) -> str:
    counts = trial.counts
    done = ", ".join(f"{counts.done[name]} {name}" for name in
                     ("guests", "jobs", "restarts", "damaged sets", "bad files", "command lines"))
    return f"{seeds} seeds: {done}, {counts.records:,} records, {counts.sets:,} sets, {counts.differ} differences"


def main() -> int:
    words = sys.argv[1:]
    seeds = int(words[0]) if words else FULL_SIZE
    program = built_program(words, 1)
    first = int(words[2]) if len(words) > 2 else 1
    folder = Path(tempfile.mkdtemp())
    trial = Trial(program, folder)
    for seed in range(first, first + seeds):
        trial.one_seed(seed)
        if (seed - first) % REPORTED == REPORTED - 1:
            print(summary(trial, seed - first + 1), file=sys.stderr, flush=True)
    for name, count in sorted(trial.tallies.counts.items()):
        print(f"{count:8} {name}")
    missing = trial.tallies.missing() if seeds >= FULL_SIZE else []
    if missing:
        print("never reached:", ", ".join(missing))
    print(summary(trial, seeds))
    if not trial.counts.differ:
        shutil.rmtree(folder)
    return 1 if missing or trial.counts.differ else 0


if __name__ == "__main__":
    sys.exit(main())
