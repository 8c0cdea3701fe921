#!/usr/bin/env python3
"""Builds stock software for the machine, checkpoints it in the middle, and goes on on other nodes.

    tools/software/try_software.py [--small] [DMTCP] [NAME..]

DMTCP is a built program, else crates/dmtcp/out/dmtcp, which `cd crates/dmtcp && rt run -- --version` proves
and builds. A NAME is one of lua, bzip2, sqlite and dash, and all are tried without one. Their sources are
Debian's, fetched by apt-get and built by Debian's compiler for RISC-V with picolibc into a folder of the
user's cache (`recipes.py`). It wants Debian's packages

    gcc-riscv64-unknown-elf picolibc-riscv64-unknown-elf dpkg-dev gcc make tcl lua5.4 bzip2 sqlite3 dash

the last four for the host's own programs. Each job is run undisturbed. Then it is launched with checkpoints
and cut off by --records, and goes on from its last set, cut off in the same way, until it comes to its end:
each restart is on other nodes, with other numbers of processes and ports, than the one before. At last it is
begun anew, killed a few times while it runs, and brought to its end. It ends with status 1 where the host's
own program writes other bytes than the undisturbed run, where a byte of the console is missing, comes twice
or is another one in what the calls wrote up to the cuts, or where, in the last set on other nodes, the file
of bzip2 is not what the host's own program makes, or the host's own sqlite3 finds other answers in the
database of sqlite. --small gives each of them little to do, for a slow build. """

import argparse
import itertools
import shutil
import sys
import tempfile
import time
from dataclasses import dataclass, field
from pathlib import Path

sys.path.insert(0, str(Path(__file__).resolve().parent.parent))

import jobs  # noqa: E402
from built import NO_PROGRAM, built_program  # noqa: E402
from jobs import SETS, Folder, Job, Progress, Told, Wrong, check, check_outcomes  # noqa: E402
from model.read_shared import read_shared  # noqa: E402
from model.store import SHARED  # noqa: E402
from model.trace import WORK, Kind  # noqa: E402
from move_to_nodes import CHOICES  # noqa: E402
from resume_everywhere import DONE, SPENT  # noqa: E402
from showing.sets import read_folder  # noqa: E402

from recipes import Program, built  # noqa: E402
from works import WORKS, Files, Work, host_console  # noqa: E402

TOOLS = ("apt-get", "dpkg-source", "riscv64-unknown-elf-gcc", "cc", "make", "tclsh", "lua5.4", "bzip2",
         "sqlite3", "dash")
SETS_OF_A_RUN = 30  # about so many checkpoints from its begin to its end
SETS_OF_A_CALL = 4
MARKS = 20  # records besides those of work that a checkpoint may take
KILLS = 3
jobs.LONGEST_RUN = 7200  # seconds without a byte of the console or the log


@dataclass
class Place(Folder):
    """A current folder with a program that was built and the files of its job."""

    guest: Path
    files: Files

    def begin(self, job: Job) -> None:
        shutil.rmtree(self.path, ignore_errors=True)
        for name, content in self.files.items():
            (self.path / name).parent.mkdir(parents=True, exist_ok=True)
            (self.path / name).write_bytes(content)
        shutil.copy(self.guest, self.path / job.words.split(":")[1].split(",")[0])

    def left(self) -> Files:
        """The files that the last set holds."""
        store = read_folder(self.path / SETS)
        counting = store.counting()
        check(counting, "there is no set")
        machine = read_shared(store.content(counting.slot, SHARED))
        return {file.name.decode(): bytes(file.data) for file in machine.files.values() if file.name}

    def size_of_set(self) -> int:
        """The bytes of the files of the set that counts."""
        slot = read_folder(self.path / SETS).counting().slot
        return sum(file.stat().st_size for file in (self.path / SETS).glob(f"s{slot}_*"))


@dataclass
class Seen:
    """What came of a job: of its undisturbed run the seconds, the records of work and the instructions, and
    of the others what was counted."""

    seconds: float
    work: int
    instructions: int
    restarts: int = 0
    kills: int = 0
    complete: int = 0
    drained: int = 0
    largest: int = 0


@dataclass
class Trial:
    """A job in a folder, what it writes undisturbed, and what was seen."""

    place: Place
    job: Job
    whole: bytes = b""
    seen: Seen = field(default_factory=lambda: Seen(0, 0, 0))

    def launch(self, *options: str) -> list[str]:
        return ["launch", *options, *self.job.words.split()]

    def run_undisturbed(self) -> None:
        self.place.begin(self.job)
        begun = time.monotonic()
        told = self.place.run(self.launch())
        check(told.status == DONE, f"undisturbed it ends with {told.status}: {told.log}")
        seconds, records = time.monotonic() - begun, self.place.records() or []
        self.whole = told.console
        self.seen = Seen(seconds, sum(record.kind in WORK for record in records),
                         sum(record.n for record in records if record.kind == Kind.USER))

    def every(self) -> int:
        return max(1, self.seen.work // SETS_OF_A_RUN)

    def begin(self) -> Progress:
        self.place.begin(self.job)
        return Progress(self.place, self.job, self.whole)

    def count(self, told: Told) -> None:
        """Counts the checkpoints of a call."""
        lines = [line for line in told.log if " complete: " in line]
        self.seen.complete += len(lines)
        self.seen.drained = max(self.seen.drained, *(int(line.split()[-1]) for line in lines), 0)
        self.seen.largest = max(self.seen.largest, self.place.size_of_set() if lines else 0)

    def move(self) -> None:
        """Brings the job to its end over restarts, each on other nodes than the one before."""
        progress, choices = self.begin(), itertools.cycle(CHOICES)
        every, length = self.every(), SETS_OF_A_CALL * (self.every() + MARKS)
        options = ["--every", str(every), "--records", str(length)]
        told = self.place.run(self.launch(*options))
        while told.status != DONE:
            records = self.place.records() or []
            check_outcomes(told, records, every)
            check(not any(" refused: " in line for line in told.log), f"a checkpoint is refused: {told.log}")
            self.count(told)
            progress.note(told, records)
            check(told.status == SPENT and progress.can_restart(), f"it ends with {told.status}: {told.log}")
            told = self.place.run(["restart", *options, *next(choices).words()])
            self.seen.restarts += 1
        self.count(told)
        progress.note(told, self.place.records())
        progress.check_end(told)
        check(self.seen.restarts > 1, "it came to its end before it was moved")

    def kill(self) -> None:
        """Brings the job to its end over restarts after kills."""
        progress, choices = self.begin(), itertools.cycle(reversed(CHOICES))
        options = ["--every", str(self.every())]
        words = self.launch(*options)
        for _ in range(KILLS):
            told = self.place.run_and_kill(words, self.seen.seconds / KILLS)
            self.seen.kills += told.status < 0
            progress.note(told, self.place.records())
            if told.status == DONE:
                break
            if progress.can_restart():
                words = ["restart", *options, *next(choices).words()]
        else:
            told = self.place.run(words)
            progress.note(told, self.place.records())
        progress.check_end(told)


def try_work(program: Program, work: Work, dmtcp: str, folder: Path) -> Seen:
    """Makes all calls of a job; raises what is wrong."""
    (folder / "host").mkdir()
    trial = Trial(Place(folder / "here", dmtcp, program.file, work.files), work.job)
    trial.run_undisturbed()
    check(trial.whole == host_console(work, folder / "host"), "the host's own program writes other bytes")
    trial.move()
    work.check_files(trial.place.left(), folder / "host")
    trial.kill()
    return trial.seen


def try_name(name: str, is_small: bool, dmtcp: str) -> bool:
    """Whether a piece of software does as it is to do; tells what was seen."""
    program = built(name)
    work = WORKS[name](program, is_small)
    with tempfile.TemporaryDirectory() as folder:
        try:
            seen = try_work(program, work, dmtcp, Path(folder))
        except Wrong as wrong:
            print(f"FAILED: {name}: {wrong}", file=sys.stderr, flush=True)
            return False
    print(f"{name} {program.version}, {program.file.stat().st_size:,} bytes: "
          f"{seen.instructions:,} instructions in {seen.work:,} records; "
          f"{seen.restarts} restarts on other nodes, {seen.complete} sets of at most {seen.largest:,} bytes, "
          f"{seen.drained:,} bytes drained at most; {seen.kills} kills; nothing differs", flush=True)
    return True


def main() -> int:
    """Tries all that the words name."""
    parser = argparse.ArgumentParser(usage="try_software.py [--small] [DMTCP] [NAME..]")
    parser.add_argument("--small", action="store_true")
    parser.add_argument("words", nargs="*")
    given = parser.parse_args()
    missing = [tool for tool in TOOLS if not shutil.which(tool)]
    if missing:
        print(f"not there: {' '.join(missing)}", file=sys.stderr)
        return NO_PROGRAM
    names = [word for word in given.words if word in WORKS]
    dmtcp = built_program([word for word in given.words if word not in WORKS], 0)
    results = [try_name(name, given.small, dmtcp) for name in names or WORKS]
    return 0 if all(results) else 1


if __name__ == "__main__":
    sys.exit(main())
