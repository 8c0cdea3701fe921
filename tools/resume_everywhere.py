#!/usr/bin/env python3
"""Cuts jobs of several processes off at many places, goes on from their sets, and compares the consoles.

    tools/resume_everywhere.py [DMTCP]

DMTCP is a built program, else crates/dmtcp/out/dmtcp, which `cd crates/dmtcp && rt run -- --version` proves
and builds.

Each job of the examples that has several processes or threads is first run undisturbed. Then, for each of
many K and each of many M, it is launched with a checkpoint after every K records of work and cut off at its
Mth record, and gone on with from the last complete set, cut off again in the same way until it comes to its
end. What the consoles had up to the cuts of the sets that restarts begin with, and from the last restart
on, must be the console of the undisturbed run: as it is, or, of a job whose processes write in turns that a
checkpoint may shift, line by line in any order. It ends with status 1 where that is not so, where a call
ends with another status than it should, where a log is not what the trace tells, where another set counts
than the last one that was told complete or one that was cut after it, or where no restart was made. """

import sys
import tempfile
from dataclasses import dataclass
from pathlib import Path

from built import built_program
from jobs import BUFFER, BUSY_SERVER, PIPELINE, SHELL, THREADS, Folder, Job, Progress, Wrong, check, check_outcomes

DONE, SPENT = 0, 18


@dataclass(frozen=True)
class Cuts:
    """After how many records of work a job has its checkpoints, and after how many records it is cut off."""

    job: Job
    everies: tuple[int, ...]
    lengths: tuple[int, ...]


TRIALS = (
    Cuts(PIPELINE, (1, 7, 100, 1000), (2000, 3001)),
    Cuts(SHELL, (1, 2, 3, 5, 11), (60, 150, 333)),
    Cuts(BUFFER, (10, 999), (5000,)),
    Cuts(THREADS, (1, 3), (90,)),
    Cuts(BUSY_SERVER, (1, 2, 3, 5, 7, 50), (200, 331)),
)


def console_of(folder: Folder, job: Job) -> bytes:
    """What the job writes undisturbed."""
    folder.begin(job)
    told = folder.run(["launch", *job.words.split()])
    check(told.status == DONE, f"the undisturbed run ends with {told.status}")
    return told.console


def resume(folder: Folder, job: Job, whole: bytes, every: int, length: int) -> int:
    """Brings a job to its end that is cut off after every so many records, and tells how many restarts it
    took."""
    folder.begin(job)
    progress, restarts = Progress(folder, job, whole), 0
    options, words = ["--every", str(every), "--records", str(length)], job.words.split()
    told = folder.run(["launch", *options, *words])
    while True:
        records, begun = folder.records() or [], progress.complete
        check_outcomes(told, records, every)
        progress.note(told, records)
        if told.status == DONE:
            progress.check_end(told)
            return restarts
        check(told.status == SPENT, f"it ends with {told.status}")
        check(progress.can_restart() and progress.complete != begun, f"no set in {length} records")
        told, restarts = folder.run(["restart", *options]), restarts + 1


def try_job(folder: Folder, cuts: Cuts) -> tuple[int, int]:
    """Tells how many restarts the runs of a job took, and how many of these failed."""
    whole = console_of(folder, cuts.job)
    runs = restarts = failures = 0
    for every in cuts.everies:
        for length in cuts.lengths:
            runs += 1
            try:
                restarts += resume(folder, cuts.job, whole, every, length)
            except Wrong as wrong:
                failures += 1
                print(f"FAILED: {cuts.job.words}, every {every}, {length} records: {wrong}", file=sys.stderr)
    print(f"{cuts.job.words}: {runs} runs, {restarts} restarts, {failures} failures", flush=True)
    return restarts, failures


def main() -> int:
    """Tries all jobs."""
    program = built_program(sys.argv, 1)
    restarts = failures = 0
    with tempfile.TemporaryDirectory() as name:
        for cuts in TRIALS:
            made, failed = try_job(Folder(Path(name) / "here", program), cuts)
            restarts, failures = restarts + made, failures + failed
    return 1 if failures or not restarts else 0


if __name__ == "__main__":
    sys.exit(main())
