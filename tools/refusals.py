"""What the trials share that refuse the built program something: how it is run, what it does where nothing
is refused, and what a call and the restart after it must leave.

A library in C is loaded before the C library's (LD_PRELOAD). It has from the environment what to refuse,
and makes the file REFUSAL where it did. The program is run in a folder of its own, with no other variables.
"""

import os
import subprocess
import sys
import tempfile
from collections import Counter
from collections.abc import Callable, Iterable, Mapping
from dataclasses import dataclass, replace
from pathlib import Path

from built import HOME, built_program
from jobs import (
    BUFFER, BUSY_SERVER, COUNT, FILL, HANDLER, HELLO, PIPELINE, SERVER, SHELL, Folder, Job, Progress, Told, Wrong, check,
    check_outcomes,
)
from model.trace import Record

Given = Mapping[str, str]


@dataclass(frozen=True)
class Trial:
    """A call: these options with a job, or of a restart in a folder where a launch of the job with the
    options of `before` was made first. Of the pieces of memory that can be refused each `stride`-th is, of
    the calls to the disk each `disk_stride`-th, and where nothing is refused it ends with this status."""

    job: Job
    options: str = ""
    before: str | None = None
    stride: int = 1
    disk_stride: int = 1
    status: int = 0

    def words(self) -> list[str]:
        if self.before is not None:
            return ["restart", *self.options.split()]
        return ["launch", *self.options.split(), *self.job.words.split()]

    def title(self) -> str:
        return " ".join(self.words()) + (f" (of {self.job.words})" if self.before is not None else "")

    def every(self) -> int | None:
        words = self.options.split()
        return int(words[words.index("--every") + 1]) if "--every" in words else None


TRIALS = [
    Trial(HELLO),
    Trial(HELLO, "--every 2"),
    Trial(HELLO, "--every 1"),
    Trial(HELLO, "--every 1", before="--every 1 --records 3"),
    Trial(COUNT, "--every 4 --records 20", status=18),
    Trial(COUNT, "--every 300", before="--every 100 --records 400"),
    Trial(HANDLER, "--every 4", stride=7),  # its last set is shorter than one before
    Trial(FILL, "--every 100", stride=97, disk_stride=7),
    Trial(FILL, "--every 100", before="--every 50 --records 200", stride=97, disk_stride=7),
    Trial(PIPELINE, "--every 2000", stride=29),
    Trial(PIPELINE, "--every 1500", before="--every 1000 --records 3500", stride=29),
    Trial(SHELL, "--every 100", stride=11),
    Trial(SHELL, "--every 60", before="--every 50 --records 197", stride=11),
    Trial(SERVER, "--every 40", stride=11),
    Trial(SERVER, "--every 40", before="--every 40 --records 60", stride=11),
    Trial(BUSY_SERVER, "--every 400", stride=11, disk_stride=3),
    Trial(BUFFER, "--every 5000", stride=3),
    Trial(BUFFER, "--every 2000", before="--every 5000 --records 12000", stride=3),
]


@dataclass
class Ran:
    """What a call told, its trace where it wrote one, and the file REFUSAL where the library made it."""

    told: Told
    records: list[Record] | None
    refusal: str | None

    def refused(self) -> list[str]:
        """The lines of checkpoints that were refused."""
        return [line for line in self.told.log if " refused: " in line]


@dataclass
class Usual:
    """What is to come where nothing is refused: of the trial's words, and on the console of the whole job."""

    ran: Ran
    whole: bytes


@dataclass
class Bench:
    """A folder in which the program is run, and the library that refuses, with the file that it makes."""

    folder: Folder
    library: Path
    refusal: Path

    def aside(self) -> "Bench":
        """The same in another folder."""
        return replace(self, folder=replace(self.folder, path=self.folder.path.with_name("aside")))

    def prepare(self, trial: Trial, whole: bytes) -> Progress:
        """Makes the folder in which the trial's call is made, and says how far its job has come there."""
        self.folder.begin(trial.job)
        progress = Progress(self.folder, trial.job, whole)
        if trial.before is not None:
            ran = self.run(["launch", *trial.before.split(), *trial.job.words.split()])
            progress.note(ran.told, ran.records)
            check(progress.can_restart(), "the call before the restart makes no set")
        return progress

    def run(self, words: list[str], given: Given | None = None) -> Ran:
        """Makes a call, with these variables for the library or without it."""
        self.refusal.unlink(missing_ok=True)
        env = {"LD_PRELOAD": str(self.library), "REFUSAL": str(self.refusal), **given} if given else {}
        told = self.folder.run(words, env)
        refusal = self.refusal.read_text(encoding="utf-8") if self.refusal.exists() else None
        return Ran(told, self.folder.records(), refusal)


def make_library(source: str, library: Path) -> None:
    compiler = [os.environ.get("CC", "cc"), "-O1", "-fno-builtin", "-shared", "-fPIC"]
    subprocess.run([*compiler, "-o", library, HOME / "tools" / source], check=True)


def check_usual(ran: Ran, trial: Trial) -> None:
    """A call to which nothing was refused ends as it is to."""
    told, every = ran.told, trial.every()
    check(told.status == trial.status, f"it answers {told.status}, and not {trial.status}: {told.log}")
    check(ran.records is not None and not ran.refused(), f"it writes no trace, or has a checkpoint refused: {told.log}")
    check_outcomes(told, ran.records or [], every)
    made_sets = any(" complete: " in line for line in told.log)
    check(made_sets == bool(every), f"it makes no set, or one that was not asked for: {told.log}")


def run_usual(bench: Bench, trial: Trial) -> Usual:
    """Makes the whole job, and the trial with nothing refused."""
    whole = Trial(trial.job)
    bench.prepare(whole, b"")
    job = bench.run(whole.words())
    check_usual(job, whole)
    check(job.told.console, "the job writes nothing")
    progress = bench.prepare(trial, job.told.console)
    ran = bench.run(trial.words())
    check_usual(ran, trial)
    progress.note(ran.told, ran.records)
    check_end(bench, progress)
    return Usual(ran, job.told.console)


def fits_usual(line: str, usual: str, reason: str) -> bool:
    """Whether a line of a log is the usual one, but that a checkpoint may be refused for this reason, and
    that others then have other generations and other bytes in their channels."""
    if " complete: " not in usual:
        return line == usual
    begin = usual.partition(" complete: ")[0]
    return line == f"{begin} refused: {reason}" or line.startswith(f"{begin} complete: ")


def check_whole(ran: Ran, usual: Usual, trial: Trial, reason: str) -> bool:
    """The call came to its usual end, with its usual console and log but for checkpoints refused for this
    reason. Returns whether there are any."""
    told, wanted, job = ran.told, usual.ran.told, trial.job
    check(told.status == wanted.status, f"status {told.status}, and usually {wanted.status}")
    check(job.is_whole(told.console, wanted.console), "the console has other bytes")
    check(told.log[-1:] == wanted.log[-1:], f"the log is {told.log}, and usually {wanted.log}")
    if ran.records is None:
        check(told.log == wanted.log, f"without a trace the log is {told.log}, and usually {wanted.log}")
    else:
        check_outcomes(told, ran.records, trial.every())
    if job.is_ordered:
        fits = map(fits_usual, told.log, wanted.log, [reason] * len(wanted.log))
        check(len(told.log) == len(wanted.log) and all(fits), f"the log is {told.log}, and usually {wanted.log}")
    check(all(line.endswith(f" refused: {reason}") for line in ran.refused()), f"the log is {told.log}")
    return bool(ran.refused())


def check_end(bench: Bench, progress: Progress) -> bool:
    """A restart goes on from the set that counts, and nothing is lost. Returns whether there was one."""
    had_set = progress.can_restart()
    after = bench.run(["restart"]).told
    if had_set:
        progress.check_end(after)
    else:
        check((after.status, after.log) == (16, ["no set"]), f"without a set a restart answers {after.status}: {after.log}")
    return had_set


def sweep(
    bench: Bench, trial: Trial, usual: Usual, refusals: Iterable[tuple[str, Given]],
    judge: Callable[[Ran, Progress], str],
) -> Counter[str]:
    """Makes the trial once for each of the refusals, which are words that tell of one and variables for the
    library, or until a call asks for fewer. `judge` is called with what the call left, and how far the job
    had come before it. Returns how often it answered what."""
    came: Counter[str] = Counter()
    for tried, given in refusals:
        try:
            progress = bench.prepare(trial, usual.whole)
            ran = bench.run(trial.words(), given)
            if ran.refusal is None:
                check(came, "it was not asked for, or the library did not load")
                check_usual(ran, trial)
                return came
            came[judge(ran, progress)] += 1
        except Wrong as wrong:
            raise Wrong(f"{tried}: {wrong}") from wrong
    return came


def tell(trial: Trial, each: str, came: Counter[str]) -> None:
    counts = ", ".join(f"{count} times {what}" for what, count in sorted(came.items()))
    print(f"{trial.title()}, {each}: {sum(came.values())} runs: {counts}", flush=True)


def try_out(source: str, run_trial: Callable[[Bench, Trial], None], trials: Iterable[Trial]) -> int:
    """Makes the trials by the program that the first argument names, or those of the jobs whose words hold
    the third one, with the library of this source. Returns the script's status."""
    program, failures = built_program(sys.argv, 1), 0
    wanted = sys.argv[3] if len(sys.argv) > 3 else ""
    with tempfile.TemporaryDirectory() as name:
        place = Path(name)
        bench = Bench(Folder(place / "here", program), place / "refuse.so", place / "refusal")
        make_library(source, bench.library)
        for trial in trials:
            if wanted not in trial.job.words:
                continue
            try:
                run_trial(bench, trial)
            except Wrong as wrong:
                failures += 1
                print(f"FAILED: {trial.title()}, {wrong}", flush=True)
    return 1 if failures else 0
