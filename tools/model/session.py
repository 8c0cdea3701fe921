"""One call of the program: words, start, run, status and last line (docs/CLI.md)."""

from collections.abc import Callable
from dataclasses import dataclass
from enum import IntEnum
from pathlib import Path

from .driver import Keeper, RunEnd, drive
from .elf import BadProgram, read_elf
from .objects import File
from .start import Word, start_job
from .state import Machine
from .store import SetDamaged, Store
from .trace import Trace
from .words import DEFAULT_RECORDS, Command, Program, Usage, Verb, read_words

FILE_LIMIT = 67_108_864
"""The bytes that a file may have, and so many may those that the words name have together."""
FORMS = """\
dmtcp launch [options] host:name[,argument]...
dmtcp restart [options]
dmtcp ring N [options]
dmtcp help
"""
VERSION = "dmtcp 0.1.0\n"
GREETINGS = {"--help": FORMS, "--version": VERSION}
RING = "ring"
"""The name of the ring's program."""
RING_FILE = Path(__file__).parents[2] / "examples" / "ring.elf"
VALUE = b"value"
"""The file in which a ring leaves the value of its counter."""
Read = Callable[[str], bytes | None]
"""Gives the bytes of a file of the current folder, None where there is none."""


class Status(IntEnum):
    """The statuses that a call has where nothing outside fails."""

    DONE = 0
    USAGE = 10
    INPUT_FAULT = 11
    MISSING = 12
    BAD_PROGRAM = 13
    NO_SET = 16
    DAMAGED = 17
    SPENT = 18
    STUCK = 19
    FILES_TOO_LARGE = 21


@dataclass
class Outcome:
    """What a call leaves: `trace` is None where no file dmtcp.trace is written."""

    status: int
    console: bytes
    log: bytes
    trace: bytes | None
    sets: dict[str, bytes]


class Ended(Exception):
    """A call that ends before its run."""

    def __init__(self, status: Status, line: str) -> None:
        super().__init__(status, line)
        self.status = status
        self.line = line


def _content(name: str, read: Read) -> bytes:
    """The bytes of a file that the words name."""
    data = read(name)
    if data is None:
        raise Ended(Status.MISSING, f"missing: {name}")
    if len(data) > FILE_LIMIT:
        raise Ended(Status.INPUT_FAULT, f"input fault: {name}")
    return data


def _loaded(program: Program, read: Read) -> Word:
    """A program that the words name, with its strings."""
    data = _content(program.name, read)
    try:
        loaded = read_elf(data)
    except BadProgram as bad:
        raise Ended(Status.BAD_PROGRAM, f"bad program: {program.name}: {bad.reason} at {bad.place}") from bad
    return Word(loaded, tuple(one.encode() for one in (program.name, *program.arguments)), program.host)


def launched(command: Command, read: Read) -> Machine:
    """The start of the files and programs that the words name."""
    named = tuple(File(name.encode(), bytearray(_content(name, read))) for name in command.files)
    programs = [_loaded(program, read) for program in command.programs]
    if sum(len(file.data) for file in named) > FILE_LIMIT:
        raise Ended(Status.FILES_TOO_LARGE, "files too large")
    return start_job(programs, named)


def _restarted(store: Store) -> Machine:
    """The state that the set which counts spells."""
    counting = store.counting()
    if counting is None:
        raise Ended(Status.NO_SET, "no set")
    try:
        return store.get_machine(counting.slot)
    except SetDamaged as bad:
        raise Ended(Status.DAMAGED, f"damaged: slot {bad.slot} file {bad.file} at {bad.offset}") from bad


def _last_line(end: RunEnd, records: int) -> Ended:
    """The status of a run, with its line."""
    if end is RunEnd.SPENT:
        return Ended(Status.SPENT, f"budget spent: {records} records")
    return Ended(Status.STUCK, "stuck") if end is RunEnd.STUCK else Ended(Status.DONE, "done")


def _run(command: Command, machine: Machine, store: Store) -> Outcome:
    """A run from its start to its last line."""
    counting = store.counting()
    opening = counting.generation if counting else 0
    keeper = Keeper(command.every, opening, store, Trace(command.records))
    last = _last_line(drive(machine, keeper), command.records)
    log = "".join(line + "\n" for line in [*keeper.lines, last.line])
    trace = bytes(keeper.trace.data) or None
    return Outcome(last.status, bytes(machine.console), log.encode(), trace, store.files)


def _file_of(machine: Machine, name: bytes) -> bytes:
    """The bytes of the file of this name, none where there is no such file."""
    return next((bytes(file.data) for file in machine.files.values() if file.name == name), b"")


def _ring_programs(processes: int) -> tuple[Program, ...]:
    """Process i on host i, with the arguments `ring`, i and how many there are."""
    return tuple(Program(host, RING, (str(host), str(processes))) for host in range(processes))


def _half(command: Command, store: Store) -> tuple[Outcome, bytes]:
    """The launch or the restart of a ring: what it leaves, and what is in the file of the value then."""
    try:
        machine = _begun(command, {RING: RING_FILE.read_bytes()}.get, store)
    except Ended as ended:
        return Outcome(ended.status, b"", ended.line.encode() + b"\n", None, store.files), b""
    outcome = _run(command, machine, store)
    return outcome, _file_of(machine, VALUE)


def _ring(ring: Command, store: Store) -> Outcome:
    """A launch of the ring's programs and, where nobody lives at its end, a restart from the last set."""
    launch = Command(Verb.LAUNCH, ring.every, DEFAULT_RECORDS, programs=_ring_programs(ring.processes))
    first, value = _half(launch, store)
    if first.status:
        return Outcome(first.status, b"", first.log, first.trace, store.files)
    second, again = _half(Command(Verb.RESTART, None, DEFAULT_RECORDS), store)
    lines = b"".join(first.log.splitlines(keepends=True)[:-1])
    told = b"ring %d: value %s, restart value %s\n" % (ring.processes, value, again)
    return Outcome(second.status, b"" if second.status else told, lines + second.log, second.trace, store.files)


def _begun(command: Command, read: Read, store: Store) -> Machine:
    """The state with which the run of a launch or a restart begins."""
    # A name that is a path is looked up as that of a file of the current folder: there are no other folders here.
    return launched(command, read) if command.verb is Verb.LAUNCH else _restarted(store)


def run(words: list[str], files: dict[str, bytes], sets: dict[str, bytes]) -> Outcome:
    """What the program does with these words, in a folder with these files and these sets."""
    if len(words) == 1 and words[0] in GREETINGS:
        return Outcome(Status.DONE, GREETINGS[words[0]].encode(), b"", None, dict(sets))
    store = Store(dict(sets))
    try:
        command = read_words(words)
        if command.verb is Verb.HELP:
            return Outcome(Status.DONE, FORMS.encode(), b"done\n", None, store.files)
        if command.verb is Verb.RING:
            return _ring(command, store)
        machine = _begun(command, files.get, store)
    except Usage:
        return Outcome(Status.USAGE, b"", b"usage\n", None, store.files)
    except Ended as ended:
        return Outcome(ended.status, b"", ended.line.encode() + b"\n", None, store.files)
    return _run(command, machine, store)
