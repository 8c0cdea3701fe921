#!/usr/bin/env python3
"""Refuses memory to the built program: in one run the first piece that it asks for, in the next the second,
and so on until a run asks for fewer; and then the same with each later piece refused too. Each run is gone
on with by a restart to which nothing is refused. Of jobs that ask for many pieces only each so-many-th is
refused (`stride` in refusals.py).

Usage: tools/refuse_memory.py [DMTCP [STRIDE [JOB]]]

DMTCP is a built program, else crates/dmtcp/out/dmtcp, which `cd crates/dmtcp && rt run -- --version` proves
and builds. With a STRIDE each so-many-th is refused of all jobs, so with 1 each, and with a JOB only the
trials of jobs are made whose words hold it. It wants a C compiler ($CC, else cc) and the C library of GNU,
for refuse_memory.c.

It fails where a run to which nothing is refused ends with another status than it is to have, writes no
trace, makes no set though it is to, or makes one though it is not to; where no piece is refused at all; and
after a refusal where a run ends with another status than the usual one or 20; where its console is not what
the usual run writes, or with 20 a part of that; where a line of its log is neither that of an outcome in
its trace, as it usually comes or of a checkpoint refused for memory, nor the last line; where a request has
no outcome; where a run without checkpoints makes the folder of sets; where a refusal changes none of this
and the trace is written all the same; or where the restart goes on from another set than the last that was
told complete, or one that was being written at the end, or leaves out or adds a byte. """

import itertools
import sys
from collections.abc import Iterator
from dataclasses import replace

from jobs import Progress, check
from refusals import TRIALS, Bench, Given, Ran, Trial, Usual, check_end, check_whole, run_usual, sweep, tell, try_out

REASON = "memory"


def check_first_part(ran: Ran, usual: Usual, trial: Trial) -> None:
    """A run that ended for want of memory wrote no more than usual."""
    told, wanted = ran.told, usual.ran.told
    check(told.log[-1:] == ["memory"], f"status 20, and the log is {told.log}")
    check(trial.job.is_part(told.console, wanted.console), "status 20, and the console has other bytes")
    check(len(told.log) <= len(wanted.log) or not trial.job.is_ordered, f"the log has more lines than usual: {told.log}")
    check(all(line.endswith(f" refused: {REASON}") for line in ran.refused()), f"the log is {told.log}")


def what_came(ran: Ran, usual: Usual, bench: Bench, trial: Trial) -> str:
    """Tells what came of the refusal, where it is one of the things that may."""
    if ran.told.status == 20:
        check_first_part(ran, usual, trial)
        came = "status 20"
    else:
        is_refused = check_whole(ran, usual, trial, REASON)
        check(is_refused or ran.records is None, "nothing came of the refusal")
        came = "a checkpoint refused" if is_refused else "no trace file"
    check(trial.every() or trial.before is not None or not bench.folder.has_sets(), "the folder of sets was made")
    return came


def pieces(stride: int, goes_on: bool) -> Iterator[tuple[str, Given]]:
    """Each piece of memory, with each one after it where the refusing goes on."""
    for piece in itertools.count(1, stride):
        given = {"REFUSED": str(piece)}
        if goes_on:
            given["REFUSED_ON"] = "1"
        yield f"piece {piece}{' and each one after it' if goes_on else ''} refused", given


def run_trial(bench: Bench, trial: Trial) -> None:
    """Makes a trial with each of its pieces refused."""
    usual = run_usual(bench, trial)

    def judge(ran: Ran, progress: Progress) -> str:
        came = what_came(ran, usual, bench, trial)
        progress.note(ran.told, ran.records)
        check_end(bench, progress)
        return came

    for goes_on in (False, True):
        came = sweep(bench, trial, usual, pieces(trial.stride, goes_on), judge)
        each = f"each {trial.stride}th piece" if trial.stride > 1 else "each piece"
        tell(trial, f"{each}{' and all after it' if goes_on else ''}", came)


def main() -> int:
    """Makes all trials."""
    stride = int(sys.argv[2]) if len(sys.argv) > 2 else None
    return try_out("refuse_memory.c", run_trial, [replace(trial, stride=stride or trial.stride) for trial in TRIALS])


if __name__ == "__main__":
    sys.exit(main())
