#!/usr/bin/env python3
"""Lets the folder of sets fail the built program: in one run the first call that it makes on it, in the
next the second, and so on until a run makes fewer; and then the same with each later call failing too. A
write that fails leaves nothing, and in further runs half of its bytes, or it answers that it wrote half,
and the write of the rest fails. Each run is gone on with by a restart to its end, and by one more, with a
checkpoint, where nothing fails.

Usage: tools/refuse_disk.py [DMTCP [STRIDE [JOB]]]

DMTCP is a built program, else crates/dmtcp/out/dmtcp, which `cd crates/dmtcp && rt run -- --version` proves
and builds. With a STRIDE each so-many-th call of all jobs fails, so with 1 each, in place of what
`disk_stride` in refusals.py says, and with a JOB only the trials of jobs are made whose words hold it. It
wants a C compiler ($CC, else cc) and a Linux of 64 bits, for refuse_disk.c.

It fails where a run in which nothing fails is not as refuse_memory.py has it; where no call is made on the
folder, or none of one of the kinds that are known; and after a failed call where a run ends with another
status than the usual one or 15; where with 15 it has a byte on the console, another log than that status's
line, or a trace; where else its console is not what the usual run writes, it has no trace, or a line of its
log is neither that of an outcome in the trace, as it usually comes or of a checkpoint refused for the disk,
nor the last line; where of one failing call more than one line comes, or where each later one fails too a
checkpoint is complete after a refused one; where nothing comes of a failing call, but for the kinds of
NOTHING_NEEDED; or where the restart goes on elsewhere than at the cut of the last complete set or of a
later one that was refused, or leaves out or adds a byte, or the other one tells of an earlier generation
than the log did. """

import functools
import itertools
import re
import sys
from collections import Counter, defaultdict
from collections.abc import Iterator
from dataclasses import replace

from jobs import Progress, check
from refusals import TRIALS, Bench, Given, Ran, Trial, Usual, check_end, check_whole, run_usual, sweep, tell, try_out

REASON = "disk fault"
KINDS = {"mkdir", "open", "lock", "list", "read", "seek", "stat", "write", "cut", "sync", "close"}
NOTHING_NEEDED = {
    "close": "nothing is taken for durable by it: each file is synced later, through a descriptor of that sync's own",
}
WAYS = {"": "call", "half": "write, which leaves half", "short": "write, which is cut short"}
ROOMS = (3, 40, 400)  # records of a call that is to make a checkpoint after its first record of work


def given_for(call: int, way: str, goes_on: bool) -> Given:
    given = {"REFUSED": str(call)}
    if goes_on:
        given["REFUSED_ON"] = "1"
    if way:
        given["REFUSED_WRITES"] = way
    return given


def writes_of(bench: Bench, trial: Trial, whole: bytes) -> list[int]:
    """The numbers of the calls that are writes, where nothing fails."""
    bench.prepare(trial, whole)
    kinds = (bench.run(trial.words(), given_for(0, "", False)).refusal or "").split()
    check("write" in kinds, "it writes nothing, or the library did not load")
    return [call for call, kind in enumerate(kinds, 1) if kind == "write"]


def calls(bench: Bench, trial: Trial, whole: bytes, way: str, goes_on: bool) -> Iterator[tuple[str, Given]]:
    """Each call that fails in this way, with each one after it where the failing goes on."""
    for call in writes_of(bench, trial, whole)[:: trial.stride] if way else itertools.count(1, trial.stride):
        on = " and each one after it" if goes_on else ""
        yield f"call {call}{on} failing{f' ({WAYS[way]})' if way else ''}", given_for(call, way, goes_on)


def with_room(trial: Trial, saved: int) -> Trial:
    """The trial with room for so many more records."""
    options = re.sub(r"(?<=--records )\d+", lambda room: str(int(room[0]) + saved), trial.options)
    return replace(trial, options=options)


def what_came(ran: Ran, usual: Usual, trial: Trial, goes_on: bool) -> str:
    """Tells what came of the failing call, where it is one of the things that may."""
    told = ran.told
    if told.status == 15:
        check(told.log == [REASON], f"status 15, and the log is {told.log}")
        check(not told.console and ran.records is None, "status 15, and there is a console or a trace")
        return "status 15"
    is_refused = check_whole(ran, usual, trial, REASON)
    check(ran.records is not None, "there is no trace")
    if not is_refused:
        failed = set((ran.refusal or "").split())
        check(failed <= set(NOTHING_NEEDED), f"nothing came of it: {', '.join(sorted(failed))}")
        return "nothing"
    outcomes = [" refused: " in line for line in told.log[:-1] if not line.endswith(" lapsed")]
    check(goes_on or sum(outcomes) == 1, "one call failed, and more than one checkpoint is refused")
    check(not goes_on or outcomes == sorted(outcomes), "a checkpoint is complete where each call failed")
    return "checkpoints refused" if goes_on else "a checkpoint refused"


def check_generation(bench: Bench, known: int) -> None:
    """One more restart makes a set of a later generation than the log told of, or its processes end before
    that."""
    for room in ROOMS:
        told = bench.run(["restart", "--every", "1", "--records", str(room)]).told
        check(told.status in (0, 18), f"a restart with a checkpoint answers {told.status}: {told.log}")
        if len(told.log) > 1:
            break
    check(" complete: " in told.log[0] or told.log[0] == "checkpoint 1 lapsed", f"no checkpoint is made: {told.log}")
    made = re.search(r"generation (\d+)", told.log[0])
    check(not made or int(made[1]) > known, f"generation {known} was complete, and a restart's log is {told.log}")


class Judge:
    """Says what came of each run of a trial, and counts by kind of the call that failed first."""

    def __init__(self, bench: Bench, trial: Trial, came: defaultdict[str, Counter[str]]) -> None:
        self.bench, self.trial, self.came = bench, trial, came
        self.usual = {0: run_usual(bench, trial)}

    def usual_with_room(self, saved: int) -> Usual:
        """What is usual with room for so many more records, but for the last line, which tells of the
        trial's own."""
        if self.trial.status == 0:
            return self.usual[0]
        if saved not in self.usual:
            usual = run_usual(self.bench.aside(), with_room(self.trial, saved))
            usual.ran.told.log[-1] = self.usual[0].ran.told.log[-1]
            self.usual[saved] = usual
        return self.usual[saved]

    def judge(self, goes_on: bool, ran: Ran, progress: Progress) -> str:
        # All but the first are refused when the store is opened again, before the mark of a cut, so that the trace has
        # room for one record more.
        usual = self.usual_with_room(max(len(ran.refused()) - 1, 0))
        came = what_came(ran, usual, self.trial, goes_on)
        progress.note(ran.told, [] if ran.told.status == 15 else ran.records)
        known = progress.complete or 0
        if check_end(self.bench, progress):
            check_generation(self.bench, known)
        self.came[(ran.refusal or "").split()[0]][came] += 1
        return came

    def run(self, way: str, goes_on: bool) -> Counter[str]:
        """Makes the trial with each of its calls failing in this way."""
        refusals = calls(self.bench, self.trial, self.usual[0].whole, way, goes_on)
        return sweep(self.bench, self.trial, self.usual[0], refusals, functools.partial(self.judge, goes_on))


def tell_kinds(came: defaultdict[str, Counter[str]]) -> None:
    """Tells what came of the kinds of calls."""
    for kind, counts in sorted(came.items()):
        why = f" ({NOTHING_NEEDED[kind]})" if counts["nothing"] else ""
        print(f"{kind}: {', '.join(f'{count} times {what}' for what, count in sorted(counts.items()) if count)}{why}")


def main() -> int:
    """Makes all trials with checkpoints."""
    stride = int(sys.argv[2]) if len(sys.argv) > 2 else None
    came: defaultdict[str, Counter[str]] = defaultdict(Counter)

    def run_trial(bench: Bench, trial: Trial) -> None:
        judge = Judge(bench, trial, came)
        for way, goes_on in itertools.product(WAYS, (False, True)):
            each = f"each {f'{trial.stride}th ' if trial.stride > 1 else ''}{WAYS[way]}"
            tell(trial, f"{each}{', and all after it' if goes_on else ''}", judge.run(way, goes_on))

    trials = [replace(trial, stride=stride or trial.disk_stride) for trial in TRIALS if trial.every()]
    status = try_out("refuse_disk.c", run_trial, trials)
    tell_kinds(came)
    missing = KINDS - set(came)
    if missing and len(sys.argv) < 3:
        print(f"FAILED: no call was made to fail of the kinds {', '.join(sorted(missing))}")
        return 1
    return status


if __name__ == "__main__":
    sys.exit(main())
