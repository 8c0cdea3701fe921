"""A call of the program, what it leaves, and where two that were to leave the same differ."""

import os
import resource
import shutil
import subprocess
import tempfile
from dataclasses import dataclass, field
from pathlib import Path

from comparing.traces import first_difference
from model import Outcome

SET_FOLDER, TRACE_FILE = "dmtcp_set", "dmtcp.trace"
LONGEST_RUN = 30
"""Seconds of the processor, after which a call is ended by a signal, so that its status differs."""
LONGEST_WAIT = 7200  # seconds of the clock
Names = tuple[str, str]
"""What the two are called whose outcomes are compared."""
PROGRAM_AND_MODEL: Names = ("program", "model")


@dataclass
class Case:
    """The words of a call, the files of the folder in which it is made, and those of its folder of sets."""

    words: list[str]
    files: dict[str, bytes]
    sets: dict[str, bytes] = field(default_factory=dict)


def read_all(folder: Path) -> dict[str, bytes]:
    if not folder.is_dir():
        return {}
    return {file.name: file.read_bytes() for file in folder.iterdir()}


def lay_out(case: Case, folder: Path) -> None:
    """Makes the folder in which the call is made."""
    for name, content in case.files.items():
        (folder / name).write_bytes(content)
    if case.sets:
        (folder / SET_FOLDER).mkdir()
    for name, content in case.sets.items():
        (folder / SET_FOLDER / name).write_bytes(content)


def new_trace(case: Case, folder: Path) -> bytes | None:
    """The trace, unless what stands there is a file of before the call."""
    file = folder / TRACE_FILE
    found = file.read_bytes() if file.exists() else None
    return None if found == case.files.get(TRACE_FILE) else found


def _limit_processor() -> None:
    """Has the system end the process that is begun after so many seconds of the processor."""
    resource.setrlimit(resource.RLIMIT_CPU, (LONGEST_RUN, LONGEST_RUN + 1))


def run_program(program: str, case: Case) -> Outcome:
    """Makes the call by the built program, in a folder of its own."""
    folder = Path(tempfile.mkdtemp())
    try:
        lay_out(case, folder)
        words = [program, *map(os.fsencode, case.words)]
        done = subprocess.run(words, cwd=folder, capture_output=True, timeout=LONGEST_WAIT,
                              preexec_fn=_limit_processor)
        sets = read_all(folder / SET_FOLDER)
        return Outcome(done.returncode, done.stdout, done.stderr, new_trace(case, folder), sets)
    finally:
        shutil.rmtree(folder)


def first_other_byte(ours: bytes, theirs: bytes) -> int:
    """The place of the first byte in which they differ, or at which one of them ends."""
    for at, (a, b) in enumerate(zip(ours, theirs)):
        if a != b:
            return at
    return min(len(ours), len(theirs))


def compare_bytes(what: str, ours: bytes, theirs: bytes, names: Names = PROGRAM_AND_MODEL) -> list[str]:
    """Says where they differ. The bytes of the first one come first."""
    if ours == theirs:
        return []
    at = first_other_byte(ours, theirs)
    near = slice(max(0, at - 8), at + 24)
    lengths = f"{len(ours)} and {len(theirs)}"
    return [f"{what}: byte {at} of {lengths}: {names[0]} {ours[near]!r}, {names[1]} {theirs[near]!r}"]


def compare_traces(ours: bytes | None, theirs: bytes | None, names: Names) -> list[str]:
    if ours == theirs:
        return []
    if ours is None or theirs is None:
        return [f"trace: the {names[ours is not None]} writes none"]
    return [f"trace: {first_difference(ours, theirs, names)}"]


def compare_sets(ours: dict[str, bytes], theirs: dict[str, bytes], names: Names) -> list[str]:
    found: list[str] = []
    for name in sorted(ours.keys() | theirs.keys()):
        if name not in ours or name not in theirs:
            found.append(f"set file {name}: not there for the {names[name in ours]}")
        else:
            found += compare_bytes(f"set file {name}", ours[name], theirs[name], names)
    return found


def differences(ours: Outcome, theirs: Outcome, names: Names = PROGRAM_AND_MODEL) -> list[str]:
    """Where two outcomes of these names differ."""
    is_same = ours.status == theirs.status
    found = [] if is_same else [f"status: {names[0]} {ours.status}, {names[1]} {theirs.status}"]
    found += compare_bytes("console", ours.console, theirs.console, names)
    found += compare_bytes("log", ours.log, theirs.log, names)
    found += compare_traces(ours.trace, theirs.trace, names)
    return found + compare_sets(ours.sets, theirs.sets, names)


def keep(case: Case, outcomes: dict[str, Outcome], folder: Path) -> None:
    """Puts the case and its outcomes into a folder."""
    before = folder / "before"
    before.mkdir(parents=True)
    lay_out(case, before)
    (folder / "words").write_text(repr(case.words) + "\n")
    for name, outcome in outcomes.items():
        after = folder / name
        after.mkdir()
        for file, content in (("console", outcome.console), ("log", outcome.log), (TRACE_FILE, outcome.trace)):
            if content is not None:
                (after / file).write_bytes(content)
        (after / "status").write_text(f"{outcome.status}\n")
        lay_out(Case([], {}, outcome.sets), after)
