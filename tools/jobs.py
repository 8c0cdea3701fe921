"""The jobs of examples/ that the trials run, and what a call of the program tells: its console and its log,
and how much of the console had come before each line of the log, so that it is known where the console
stood at a checkpoint's cut.

Standard output and standard error of a call are two sockets that lead to one, which keeps what is written
in its order and tells by which of the two it came. Few pieces wait there, so a call that is to be killed at
any moment writes both into one file, which is never waited for, and in which lines of a log are told by
their words. """

import contextlib
import os
import re
import select
import shutil
import socket
import subprocess
from collections import Counter
from collections.abc import Mapping, Sequence
from dataclasses import dataclass, field
from pathlib import Path
from typing import Any

from built import HOME
from model.trace import DISK_FAULT, RECORD_BYTES, WANT_OF_MEMORY, WORK, Kind, Record, read_record

EXAMPLES = HOME / "examples"
SETS, TRACE = "dmtcp_set", "dmtcp.trace"
LONGEST_RUN = 300  # seconds
LONGEST_PIECE = 1 << 20  # bytes, more than a call writes at once
MANIFEST_START = 16  # bytes: the gate, the magic and the generation
CHECKPOINT_LINE = rb"checkpoint \d+ (?:complete: generation \d+, drained \d+|refused: [^\n]+|lapsed)\n"
LOG_LINE = re.compile(rb"(" + CHECKPOINT_LINE + rb"|(?:done|budget spent: \d+ records)\n\Z)")
REASONS = {DISK_FAULT: "disk fault", WANT_OF_MEMORY: "memory"}


@dataclass(frozen=True)
class Job:
    """What stands behind a launch's options, and whether its processes write their lines in an order that
    no checkpoint shifts."""

    words: str
    is_ordered: bool = True

    def files(self) -> set[str]:
        """The files that the words name."""
        return {word.partition(":")[2].partition(",")[0] or word for word in self.words.split()} - {"--file"}

    def is_whole(self, console: bytes, wanted: bytes) -> bool:
        """Whether a console is as it should be."""
        if self.is_ordered:
            return console == wanted
        return Counter(console.splitlines(keepends=True)) == Counter(wanted.splitlines(keepends=True))

    def is_part(self, console: bytes, wanted: bytes) -> bool:
        """Whether a console is as it should be, as far as it goes."""
        if self.is_ordered:
            return wanted.startswith(console)
        return Counter(console.splitlines(keepends=True)) <= Counter(wanted.splitlines(keepends=True))


HELLO = Job("0:hello.elf")
COUNT = Job("0:count.elf")
FILL = Job("0:fill.elf")
HANDLER = Job("0:handler.elf")
THREADS = Job("0:threads.elf")
BUFFER = Job("0:buffer.elf")
PIPELINE = Job("0:pipeline.elf")
SHELL = Job("--file script 0:shell.elf")
SERVER = Job("0:server.elf,2 1:client.elf,1,3 2:client.elf,7,9", is_ordered=False)
BUSY_SERVER = Job(
    "0:server.elf,4 1:client.elf,1,10 1:client.elf,5,30 2:client.elf,7,9 0:client.elf,100,120", is_ordered=False
)


class Wrong(Exception):
    """Something is not as it is to be."""


def check(holds: object, why: str) -> None:
    """Goes on where it holds."""
    if not holds:
        raise Wrong(why)


@dataclass
class Told:
    """What came of a call: its status (of one that a signal ended, less than 0), its console, its log, and
    how many bytes of the console were there before each line of the log."""

    status: int
    console: bytes = b""
    log: list[str] = field(default_factory=list)
    places: list[int] = field(default_factory=list)

    def take_console(self, piece: bytes) -> None:
        self.console += piece

    def take_log(self, lines: Sequence[bytes]) -> None:
        self.log += [line.decode() for line in lines]
        self.places += [len(self.console)] * len(lines)


class Streams:
    """The standard output and the standard error of a call, which lead to one place."""

    def __init__(self) -> None:
        self.into, self.out, self.err = (socket.socket(socket.AF_UNIX, socket.SOCK_DGRAM) for _ in range(3))
        self.into.bind("")
        for end in (self.out, self.err):
            end.bind("")
            end.connect(self.into.getsockname())
        self.line = b""

    def take(self, told: Told) -> None:
        """Takes the piece that has waited longest."""
        piece, sender = self.into.recvfrom(LONGEST_PIECE)
        if sender == self.out.getsockname():
            told.take_console(piece)
            return
        *lines, self.line = (self.line + piece).split(b"\n")
        told.take_log(lines)

    def take_all(self, process: subprocess.Popen[bytes], told: Told) -> None:
        """Takes what a process writes until its end."""
        end, poll = os.pidfd_open(process.pid), select.poll()
        poll.register(self.into, select.POLLIN)
        poll.register(end, select.POLLIN)
        try:
            while ready := {file for file, _ in poll.poll(1000 * LONGEST_RUN)}:
                if self.into.fileno() not in ready:
                    return
                self.take(told)
            raise Wrong(f"it does not end, nor write, in {LONGEST_RUN} seconds")
        finally:
            os.close(end)

    def close(self) -> None:
        for end in (self.into, self.out, self.err):
            end.close()


@dataclass
class Folder:
    """A current folder of the program."""

    path: Path
    program: str

    def begin(self, job: Job) -> None:
        """Makes it anew, with what the job's words name."""
        shutil.rmtree(self.path, ignore_errors=True)
        self.path.mkdir()
        for name in job.files():
            shutil.copy(EXAMPLES / name, self.path)

    def start(self, words: Sequence[str], **options: Any) -> subprocess.Popen[bytes]:
        """Begins a call."""
        self.trace_file().unlink(missing_ok=True)
        return subprocess.Popen([self.program, *words], cwd=self.path, stdin=subprocess.DEVNULL, **options)

    def run(self, words: Sequence[str], env: Mapping[str, str] | None = None) -> Told:
        """Makes a call."""
        streams, told = Streams(), Told(0)
        process = self.start(words, env=env, stdout=streams.out, stderr=streams.err)
        try:
            streams.take_all(process, told)
            told.status = process.wait()
        finally:
            process.kill()
            streams.close()
        check(told.status >= 0, f"{' '.join(words)} was ended by signal {-told.status}")
        return told

    def run_and_kill(self, words: Sequence[str], seconds: float) -> Told:
        """Makes a call, and kills it after so many seconds, where it has not ended before."""
        both = self.path / "told"
        with both.open("wb") as file:
            process = self.start(words, stdout=file, stderr=file)
            with contextlib.suppress(subprocess.TimeoutExpired):
                process.wait(seconds)
            process.kill()
            told = Told(process.wait())
        for piece in LOG_LINE.split(both.read_bytes()):
            if LOG_LINE.fullmatch(piece):
                told.take_log([piece.removesuffix(b"\n")])
            else:
                told.take_console(piece)
        return told

    def trace_file(self) -> Path:
        return self.path / TRACE

    def records(self) -> list[Record] | None:
        """The trace of the last call, where it left one."""
        if not self.trace_file().exists():
            return None
        data = self.trace_file().read_bytes()
        return [read_record(data, place) for place in range(0, len(data), RECORD_BYTES)]

    def has_sets(self) -> bool:
        return (self.path / SETS).exists()

    def counting(self) -> int | None:
        """The generation of the set that counts."""
        starts = [file.read_bytes()[:MANIFEST_START] for file in (self.path / SETS).glob("s[01]_0.img")]
        return max((int.from_bytes(start[8:], "little") for start in starts
                    if len(start) == MANIFEST_START and start[0] == 1), default=None)


def generation_of(record: Record) -> int:
    """That of a mark."""
    return record.b + (record.n << 32)


@dataclass(frozen=True)
class Outcome:
    """What came of a request: its line on the log, and the generation of its cut, where there was one."""

    line: str
    generation: int | None


def outcomes_in(records: Sequence[Record]) -> list[Outcome]:
    """The outcomes of a trace's requests in their order; the last one may have none."""
    found: list[Outcome] = []
    generation, drained = None, 0
    for record in records:
        begin = f"checkpoint {len(found) + 1}"
        if record.kind in WORK:
            generation, drained = None, 0
        elif record.kind is Kind.CUT:
            generation = generation_of(record)
        elif record.kind is Kind.DRAINED:
            drained += record.n
        elif record.kind is Kind.COMPLETE:
            found.append(Outcome(f"{begin} complete: generation {generation_of(record)}, drained {drained}", generation))
        elif record.kind is Kind.REFUSED:
            found.append(Outcome(f"{begin} refused: {REASONS[record.x]}", generation))
        elif record.kind is Kind.LAPSED:
            found.append(Outcome(f"{begin} lapsed", None))
    return found


def open_cut(records: Sequence[Record]) -> int | None:
    """The generation of a trace's last cut, where nothing came of that."""
    marks = [record for record in records if record.kind in (Kind.CUT, Kind.COMPLETE, Kind.REFUSED)]
    return generation_of(marks[-1]) if marks and marks[-1].kind is Kind.CUT else None


def check_outcomes(told: Told, records: Sequence[Record], every: int | None) -> None:
    """A call's log has the lines of its trace's outcomes and one more, and each request has its outcome,
    but that a call whose trace is full, or that had no memory, may lack the last one; the latter's log may
    also end earlier."""
    is_cut_off = told.status in (18, 20)
    lines = [outcome.line for outcome in outcomes_in(records)]
    ours = told.log[:-1]
    check(ours == lines[: len(ours)] if told.status == 20 else ours == lines, f"log {ours}, trace {lines}")
    asked = sum(record.kind in WORK for record in records) // every if every else 0
    check(asked - is_cut_off <= len(lines) <= asked, f"{asked} requests, {len(lines)} outcomes")


@dataclass
class Progress:
    """How far a job has come by a row of calls in one folder: what it has written before the last call
    began, what before the cut of each generation that may count, and the last generation that the log told
    complete."""

    folder: Folder
    job: Job
    whole: bytes
    begun: bytes = b""
    cuts: dict[int, bytes] = field(default_factory=dict)
    complete: int | None = None

    def written(self, told: Told) -> bytes:
        return self.begun + told.console

    def note(self, told: Told, records: Sequence[Record] | None) -> None:
        """Notes what a call has come to. Its trace, where there is one, tells of the cuts whose set was not
        told complete; without it that of the last one may count, and was made where the console ends."""
        check(self.job.is_part(self.written(told), self.whole), "the console has other bytes")
        self.note_told(told)
        if records is None:
            self.note_cut((self.complete or 0) + 1, told.console)
            return
        for outcome, place in zip(outcomes_in(records), told.places + [len(told.console)]):
            self.note_cut(outcome.generation, told.console[:place])
        self.note_cut(open_cut(records), told.console)

    def note_told(self, told: Told) -> None:
        for line, place in zip(told.log, told.places):
            words = line.split()
            if words[2:4] == ["complete:", "generation"]:
                generation = int(words[4].rstrip(","))
                check(self.complete is None or generation > self.complete, "generations do not rise")
                self.complete = generation
                self.note_cut(generation, told.console[:place])

    def note_cut(self, generation: int | None, console: bytes) -> None:
        if generation is not None:
            self.cuts[generation] = self.begun + console

    def can_restart(self) -> bool:
        """Whether there is a set, from which the next call goes on. None is lost that was told complete."""
        found = self.folder.counting()
        check(found is not None or self.complete is None, f"generation {self.complete} is lost, and there is no set")
        if found is None:
            return False
        check(found in self.cuts and found >= (self.complete or 0),
              f"generation {found} counts; {self.complete} was complete, and there were cuts of {sorted(self.cuts)}")
        self.begun, self.complete = self.cuts[found], found
        self.cuts = {found: self.begun}
        return True

    def check_end(self, told: Told) -> None:
        """A call has brought the job to its end, and nothing is missing."""
        check(told.status == 0 and told.log[-1:] == ["done"], f"status {told.status}: {told.log}")
        check(self.job.is_whole(self.written(told), self.whole), "the console is not the usual one")
