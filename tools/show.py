#!/usr/bin/env python3
"""Shows what a folder of sets or a trace holds.

    tools/show.py FOLDER [--registers]
    tools/show.py TRACE [--svg FILE] [--program [HOST:]FILE[,ARGUMENT]..].. [--file FILE]..
    tools/show.py TRACE [--svg FILE] --set FOLDER
    tools/show.py TRACE [--svg FILE] --launch WORD..

Of a folder of sets (`dmtcp_set`): each slot's files, generation and standing, and the state that its set spells,
or the first damage in it. `--registers` also has the registers of each thread and each saved context.

Of a trace (`dmtcp.trace`): a line for each record, and a summary. With the programs that were launched, each with its
host and its arguments, and the files that they had; with the words of the launch, all behind `launch`, in the folder in
which it was made; or with a copy of the folder of sets as it was before the restart, the records are replayed by the
model of the manual (tools/model): a line then has the call with its arguments and its answer, and the last ones how
each process ended. `--svg` also draws the run: a row for each thread, one for channels and one for the store.

Status 1 where the set that counts is damaged, where a trace has bytes that spell no record, or where a record is
no step.
"""

import argparse
import sys
from pathlib import Path

from model.trace import Record
from showing.picture import draw
from showing.replay import NoStart, NoStep, Replay, launched, launched_by, restarted
from showing.sets import read_folder, set_lines, spelled
from showing.traces import read_trace, record_lines, record_text, summary_lines

DAMAGED, USAGE = 1, 2


def show_sets(folder: Path, registers: bool) -> int:
    """Shows a folder of sets."""
    print("\n".join(set_lines(folder, registers)))
    store = read_folder(folder)
    counting = store.counting()
    return DAMAGED if counting and isinstance(spelled(store, counting.slot), str) else 0


def _start_of(words: argparse.Namespace) -> Replay | None:
    """What a trace is replayed from, if that is given."""
    if words.program:
        return Replay(launched(words.program, words.file))
    if words.launch:
        return Replay(launched_by(words.launch))
    return Replay(restarted(words.set)) if words.set else None


def _tell(records: list[Record], replay: Replay | None) -> tuple[list[str], str]:
    """What is told of each record, and of the first that is no step, after which there are none."""
    told: list[str] = []
    try:
        for record in records:
            told.append(replay.step(record) if replay else record_text(record))
    except NoStep as reason:
        bad = record_text(records[len(told)])
        return told, f"record {len(told) + 1} is no step of this run: {reason} ({bad})"
    return told, ""


def end_lines(replay: Replay) -> list[str]:
    """How each process ended, and which live."""
    living = sorted(replay.machine.processes)
    if len(replay.endings) + len(living) == 1:
        return [f"the process ended {how}" for how in replay.endings.values()] or ["the process lives"]
    ended = [f"process {number} ended {how}" for number, how in sorted(replay.endings.items())]
    return ended + [f"process {number} lives" for number in living]


def show_trace(words: argparse.Namespace) -> int:
    """Shows a trace, told by a replay where there is a start for one."""
    records, bad = read_trace(words.path.read_bytes())
    replay = _start_of(words)
    told, no_step = _tell(records, replay)
    print("\n".join([*record_lines(records[: len(told)], told), *summary_lines(records)]))
    if words.svg:
        words.svg.write_text(draw(records, told, words.path.name))
    if no_step:
        print(no_step)
    elif replay:
        print("\n".join(end_lines(replay)))
    if bad is not None:
        print(f"the bytes at {bad} spell no record")
    return DAMAGED if no_step or bad is not None else 0


def _words() -> argparse.Namespace:
    parser = argparse.ArgumentParser(description="Shows what a folder of sets or a trace holds.")
    parser.add_argument("path", type=Path, help="a folder of sets, or a trace")
    parser.add_argument("--registers", action="store_true", help="of a folder: the registers of each thread")
    start = parser.add_mutually_exclusive_group()
    program = {"action": "append", "metavar": "[HOST:]FILE[,ARGUMENT].."}
    start.add_argument("--program", help="of a trace: a launched program, once for each", **program)
    start.add_argument("--set", type=Path, metavar="FOLDER", help="of a trace: the sets before the restart")
    launch = {"nargs": argparse.REMAINDER, "metavar": "WORD"}
    start.add_argument("--launch", help="of a trace: the words of the launch, all that follow", **launch)
    file = {"action": "append", "type": Path, "default": [], "metavar": "FILE"}
    parser.add_argument("--file", help="with --program: a file that was there, once for each", **file)
    parser.add_argument("--svg", type=Path, metavar="FILE", help="of a trace: draws the run into this file")
    words = parser.parse_args()
    if words.file and not words.program:
        parser.error("--file wants --program")
    return words


def main() -> int:
    """Shows what the words name."""
    words = _words()
    try:
        if words.path.is_dir():
            return show_sets(words.path, words.registers)
        return show_trace(words)
    except (OSError, NoStart) as error:
        print(f"show.py: {error}", file=sys.stderr)
        return USAGE


if __name__ == "__main__":
    sys.exit(main())
