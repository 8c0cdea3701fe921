#!/usr/bin/env python3
"""Tries the built program where a folder, a stream or the kernel does what it seldom does, a trial for
each, by one program and by jobs of several:

- a name in the folder of sets that is no text, which the program passes over;
- the calls of fsync that a set takes: one for each file that was written since the last sync, and the gate
  once more;
- a second run in a folder that a run has taken, which ends with `disk fault`, and one after a kill, which
  does not;
- a standard output and a standard error that aren't ready, which are waited for;
- a current folder that can't be listed, which is no reason to fail;
- a manifest of 100 GB, of which no more is read than the longest has;
- an image of 1 GB, of which nearly all is a hole: it is read whole, and damaged where a right one ends; and
  where there isn't so much memory the run ends with `memory`;
- a limit of the size of files: the run is ended by a signal, or, where the caller ignores that, has its
  checkpoints refused;
- a trace with no room for a checkpoint's outcome, of which then neither the log nor the trace tells: a
  restart goes on from its set where the marks of what was drained left room for a record, else from the set
  before;
- what is made in the folder is its owner's alone, and links there are not followed.

Usage: tools/at_the_edge.py [DMTCP [TRIAL..]]

DMTCP is a built program, else crates/dmtcp/out/dmtcp, which `cd crates/dmtcp && rt run -- --version` proves
and builds. With a TRIAL, the name of a function below without its `try_`, only these are made. It wants a
Linux, and `strace`.
"""
import contextlib
import fcntl
import os
import re
import resource
import signal
import stat
import subprocess
import sys
import tempfile
import time
from collections.abc import Callable, Sequence
from dataclasses import dataclass
from pathlib import Path
from typing import Any

from built import built_program
from jobs import (
    COUNT, HELLO, LONGEST_RUN, PIPELINE, SERVER, SETS, SHELL, Folder, Job, Progress, Wrong, check,
    generation_of, outcomes_in,
)
from model.trace import Kind, Record

Ran = subprocess.CompletedProcess[str]

NOBODY = 65534
FIRST_LENGTH, LENGTH_BYTES = 20, 8  # where a manifest has the length of the first file, and its bytes
DONE, SPENT, DISK_FAULT, NO_SET, DAMAGED, MEMORY = 0, 18, 15, 16, 17, 20


@dataclass(frozen=True)
class Case:
    """A job with a checkpoint after every so many records of work, and after how many records it is cut
    off, where that is asked for."""

    job: Job
    every: int
    records: int = 0

    def launch(self, records: int = 0) -> list[str]:
        options = ["--every", str(self.every), *(["--records", str(records)] if records else [])]
        return ["launch", *options, *self.job.words.split()]


CASES = (Case(HELLO, 1), Case(PIPELINE, 1500), Case(SHELL, 60), Case(SERVER, 40))
LONG_CASES = (Case(COUNT, 1, 40), Case(PIPELINE, 100, 2000))  # with many sets, each of as many files


@dataclass
class Edge(Folder):
    """A current folder with what a job's words name, and what the job writes."""

    case: Case
    console: bytes = b""

    def prepare(self) -> None:
        """Makes it."""
        self.begin(self.case.job)
        told = self.run(["launch", *self.case.job.words.split()])
        check(told.status == DONE, f"undisturbed the job ends with {told.status}")
        self.console = told.console

    def at(self, name: str) -> Path:
        return self.path / name

    def call(self, words: Sequence[str], before: Sequence[str] = (), **options: Any) -> Ran:
        """Makes a call, with other words before the program's name and other options than `run`."""
        return subprocess.run(
            [*before, self.program, *words], cwd=self.path, stdin=subprocess.DEVNULL, capture_output=True, text=True,
            check=False, timeout=LONGEST_RUN, **options,
        )

    def launch(self, before: Sequence[str] = (), **options: Any) -> Ran:
        return self.call(self.case.launch(), before, **options)

    def check_launched(self, ran: Ran) -> list[str]:
        """The job came to its end; gives the log."""
        log = check_ran(ran, DONE, "done")
        check(self.case.job.is_whole(ran.stdout.encode(), self.console), f"the console is {ran.stdout}")
        return log

    def check_whole(self, ran: Ran) -> None:
        """The job came to its end, and each of its checkpoints is complete or came too late."""
        log = self.check_launched(ran)
        check(any(" complete: " in line for line in log), f"no checkpoint is complete: {log}")
        check(not any("refused" in line for line in log), f"a checkpoint is refused: {log}")

    def last_set(self) -> tuple[int, bytes]:
        """The slot of the set that counts, where both slots have one, and its manifest."""
        manifests = [self.at(f"{SETS}/s{slot}_0.img").read_bytes() for slot in (0, 1)]
        slot = max((0, 1), key=lambda slot: int.from_bytes(manifests[slot][8:16], "little"))
        return slot, manifests[slot]


def check_ran(ran: Ran, status: int, last: str, console: str | None = None) -> list[str]:
    log = ran.stderr.splitlines()
    check(ran.returncode == status, f"status {ran.returncode} in place of {status}: {log}")
    check(log[-1:] == [last], f"the log is {log}")
    check(console is None or ran.stdout == console, f"the console is {ran.stdout}")
    return log


def of_long_cases(trial: Callable[[Edge], None]) -> Callable[[Edge], None]:
    """A trial that is made of the jobs with many sets."""
    trial.__dict__["cases"] = LONG_CASES
    return trial


def try_names_that_are_no_text(edge: Edge) -> None:
    edge.at(SETS).mkdir()
    with open(os.fsencode(edge.at(SETS)) + b"/\xff", "wb"):
        pass
    edge.check_whole(edge.launch())
    check_ran(edge.call(["restart"]), DONE, "done")


def fsyncs_of_sets(told: str) -> list[int]:
    """How many calls of fsync were made for each set, from what strace tells."""
    sets, calls = [], 0
    for line in told.splitlines():
        if re.search(r" f(data)?sync\(", line):
            calls += 1
        if re.search(r' write\(2.*"checkpoint \d+ complete', line):
            sets.append(calls)
            calls = 0
    return sets


@of_long_cases
def try_fsyncs_of_a_set(edge: Edge) -> None:
    calls, records = edge.at("calls"), edge.case.records
    tracer = ["strace", "-f", "-e", "trace=fsync,fdatasync,write", "-o", str(calls)]
    ran = edge.call(edge.case.launch(records), tracer)
    check_ran(ran, SPENT, f"budget spent: {records} records")
    sets = fsyncs_of_sets(calls.read_text(encoding="utf-8"))
    files = len(list(edge.at(SETS).glob("s0_*")))
    wanted = 1 + files + 1
    check(len(sets) > 5, f"only {len(sets)} sets")
    later = sets[2:]
    check(set(later) == {wanted}, f"calls of fsync for each set of {files} files: {later}, and not {wanted}")


@of_long_cases
def try_a_second_run(edge: Edge) -> None:
    streams = {"stdout": subprocess.DEVNULL, "stderr": subprocess.PIPE}
    first = edge.start(["launch", "--every", "1", *edge.case.job.words.split()], **streams)
    try:
        check(first.stderr and b"complete" in first.stderr.readline(), "the first run makes no set")
        for words in (edge.case.launch(), ["restart", "--every", "1"]):
            check_ran(edge.call(words), DISK_FAULT, "disk fault", "")
        check(first.poll() is None, "the first run is over")
    finally:
        first.kill()
        log = first.communicate()[1]
    check(b"refused" not in log, "the first run has a checkpoint refused")
    check_ran(edge.call(["restart"]), DONE, "done")


def nonblocking_pipe(room: int) -> tuple[int, int]:
    """A pipe whose writing end answers at once, full, and of so many bytes."""
    reader, writer = os.pipe()
    fcntl.fcntl(writer, fcntl.F_SETPIPE_SZ, room)
    os.set_blocking(writer, False)
    check(os.write(writer, b"#" * room) == room, "the pipe has more room")
    return reader, writer


def run_into_full_pipe(edge: Edge, stream: str, seconds: float) -> tuple[int, bytes, bytes]:
    """The status of a run one stream of which isn't ready for so long, and what it writes there and on the
    other one."""
    reader, writer = nonblocking_pipe(4096)
    streams = {"stdout": subprocess.PIPE, "stderr": subprocess.PIPE, stream: writer}
    ran = edge.start(["launch", *edge.case.job.words.split()], **streams)
    os.close(writer)
    with contextlib.suppress(subprocess.TimeoutExpired):
        ran.wait(seconds)
    with os.fdopen(reader, "rb") as pipe:
        late = pipe.read()[4096:]
    out, err = ran.communicate(timeout=LONGEST_RUN)
    return ran.returncode, late, err if stream == "stdout" else out


def try_a_stream_that_is_not_ready(edge: Edge) -> None:
    begun = time.monotonic()
    edge.check_launched(edge.call(["launch", *edge.case.job.words.split()]))
    seconds = 3 * (time.monotonic() - begun) + 1
    for stream, wanted in {"stdout": (edge.console, b"done\n"), "stderr": (b"done\n", edge.console)}.items():
        came = run_into_full_pipe(edge, stream, seconds)
        check(came == (DONE, *wanted), f"{stream} is not ready: {came} in place of {wanted}")


def try_a_folder_that_cannot_be_listed(edge: Edge) -> None:
    # Root may list any folder, so that it takes the place of nobody.
    is_root = os.geteuid() == 0
    edge.path.parent.chmod(0o755)
    edge.trace_file().unlink()
    edge.path.chmod(0o333)
    options: dict[str, Any] = {"user": NOBODY, "group": NOBODY, "extra_groups": []} if is_root else {}
    try:
        edge.check_whole(edge.launch(**options))
        edge.check_whole(edge.launch(**options))
    finally:
        edge.path.chmod(0o700)


def try_a_manifest_of_100_gb(edge: Edge) -> None:
    edge.check_whole(edge.launch())
    slot, manifest = edge.last_set()
    os.truncate(edge.at(f"{SETS}/s{slot}_0.img"), 100 << 30)
    check_ran(edge.call(["restart"]), DAMAGED, f"damaged: slot {slot} file 0 at {len(manifest)}", "")


def limited(kind: int, limit: int) -> Callable[[], None]:
    """What has a run begin with a limit of the kernel."""
    return lambda: resource.setrlimit(kind, (limit, limit))


def try_an_image_of_1_gb(edge: Edge) -> None:
    edge.check_whole(edge.launch())
    (slot, manifest), length = edge.last_set(), 1 << 30
    last = int.from_bytes(manifest[FIRST_LENGTH - 4 : FIRST_LENGTH], "little")
    image = edge.at(f"{SETS}/s{slot}_{last}.img")
    end = image.stat().st_size
    os.truncate(image, length)
    with edge.at(f"{SETS}/s{slot}_0.img").open("r+b") as file:
        file.seek(FIRST_LENGTH + LENGTH_BYTES * (last - 1))
        file.write(length.to_bytes(LENGTH_BYTES, "little"))
    check_ran(edge.call(["restart"]), DAMAGED, f"damaged: slot {slot} file {last} at {end}", "")
    few = limited(resource.RLIMIT_AS, length // 2)
    check_ran(edge.call(["restart"], preexec_fn=few), MEMORY, "memory", "")


def try_a_limit_of_the_size_of_files(edge: Edge) -> None:
    few = limited(resource.RLIMIT_FSIZE, 100 << 10)
    ran = edge.launch(preexec_fn=few)
    check(ran.returncode == -signal.SIGXFSZ, f"status {ran.returncode} in place of the signal's")

    def ignored() -> None:
        signal.signal(signal.SIGXFSZ, signal.SIG_IGN)
        few()

    log = edge.check_launched(edge.launch(preexec_fn=ignored, restore_signals=False))
    check(log[0] == "checkpoint 1 refused: disk fault", f"the log is {log}")
    check_ran(edge.call(["restart"]), NO_SET, "no set", "")


def longest_outcome(records: Sequence[Record]) -> tuple[int, int]:
    """Where a trace has the cut of a complete set with the most marks between, and where it has that
    outcome."""
    kinds = [record.kind for record in records]
    pairs = [(at, at + kinds[at:].index(Kind.COMPLETE)) for at, kind in enumerate(kinds) if kind is Kind.CUT]
    return max(pairs, key=lambda pair: pair[1] - pair[0])


def try_no_room_for_an_outcome(edge: Edge) -> None:
    usual, case = edge.run(edge.case.launch()), edge.case
    records = edge.records() or []
    cut, outcome = longest_outcome(records)
    lines = [found.line for found in outcomes_in(records[:cut])]
    all_drained = (cut + 1 + outcome) // 2  # the room that the last `Drained` fills, or the cut where there is none
    for room in sorted({cut + 1, all_drained, outcome}):
        edge.begin(case.job)
        progress, told = Progress(edge, case.job, edge.console), edge.run(case.launch(room))
        wanted = [*lines, f"budget spent: {room} records"]
        check((told.status, told.log) == (SPENT, wanted), f"with {room} records status {told.status}: {told.log}")
        check(edge.records() == records[:room], f"with {room} records the trace is another")
        check(usual.console.startswith(told.console), f"with {room} records the console is another")
        progress.note(told, records[:room])
        is_written = room > all_drained
        had_set, after = progress.can_restart(), edge.run(["restart"])
        check((had_set, progress.complete == generation_of(records[cut])) == (bool(lines) or is_written, is_written),
              f"with {room} records generation {progress.complete} counts")
        if had_set:
            progress.check_end(after)
        check(had_set or (after.status, after.log) == (NO_SET, ["no set"]), f"a restart's log is {after.log}")


def mode_of(path: Path) -> int:
    return stat.S_IMODE(path.lstat().st_mode)


def try_what_is_made_is_its_owners(edge: Edge) -> None:
    edge.check_whole(edge.launch(umask=0))
    check(mode_of(edge.at(SETS)) == 0o700, f"the folder of sets has mode {mode_of(edge.at(SETS)):o}")
    for file in edge.at(SETS).iterdir():
        check(mode_of(file) == 0o600, f"{file.name} has mode {mode_of(file):o}")


def try_links_are_not_followed(edge: Edge) -> None:
    edge.at(SETS).mkdir()
    another = edge.at("another")
    another.write_bytes(b"another's file")
    edge.at(f"{SETS}/s0_1.img").symlink_to("../another")
    check_ran(edge.launch(), DISK_FAULT, "disk fault", "")
    edge.at(f"{SETS}/s0_1.img").unlink()
    edge.at(f"{SETS}/s0_0.img").symlink_to("../missing")
    check_ran(edge.launch(), DISK_FAULT, "disk fault", "")
    check(not edge.at("missing").exists(), "a file was made through a link")
    check(another.read_bytes() == b"another's file", "another's file is overwritten")


def trials_named(names: Sequence[str]) -> dict[str, Callable[[Edge], None]]:
    here = globals()
    trials = {name.removeprefix("try_"): here[name] for name in here if name.startswith("try_")}
    return {name: trials[name] for name in names or trials}


def main() -> int:
    program = built_program(sys.argv, 1)
    signal.signal(signal.SIGPIPE, signal.SIG_DFL)
    failures = 0
    with tempfile.TemporaryDirectory() as place:
        for name, trial in trials_named(sys.argv[2:]).items():
            for number, case in enumerate(trial.__dict__.get("cases", CASES)):
                title = f"{name.replace('_', ' ')}, {case.job.words}"
                try:
                    edge = Edge(Path(place) / f"{name}{number}", program, case)
                    edge.prepare()
                    trial(edge)
                    print(f"{title}: as it is to be", flush=True)
                except (Wrong, subprocess.TimeoutExpired) as wrong:
                    failures += 1
                    print(f"FAILED: {title}: {wrong}", flush=True)
    return 1 if failures else 0


if __name__ == "__main__":
    sys.exit(main())
