#!/usr/bin/env python3
"""Damages each field of sets alone, restarts from each, and compares what the built program tells with what
docs/FORMATS.md says, and with the model (model/), which was written from that page.

    tools/damage_each_field.py [DMTCP [BASE]]

DMTCP is a built program, else crates/dmtcp/out/dmtcp, which `cd crates/dmtcp && rt run -- --version` proves
and builds. With a BASE only the sets are tried whose name holds it.

The sets are those that the program makes of jobs of several processes, of which three have something of each
kind that a set can hold (comparing/kinds.py): bytes both ways in pipes, pairs and connections, sides that are
closed, shut down or not read, listeners and connections that wait there, files with a name and without,
children and zombies; and one that is laid out by hand (model/tests/shared_bytes.py). Of each file of each set

- every field gets other numbers, one at a time: its edges and the numbers beside them, bits turned, and what
  other fields of its name hold. Of the pages and registers of a process some are chosen;
- the file is cut short at and within its fields, and gets bytes behind;
- items of lists are left out, doubled and swapped;
- the file is missing, or shorter or longer than its manifest says, or stands in another one's place.

The lengths in the manifest are made right after each change. So are the shared images that set_cases tries,
as sets. Each restart runs for a while and makes checkpoints, where the set spells a state, and all that it
leaves is compared with the model's. damaging/rules.py has what docs/FORMATS.md says of each field: what it
may hold, and where else the set may be damaged by it. The script ends with status 1 where a restart leaves
anything else than the model or is not as the page says; and, in a run of all sets, where a field of the rules
was in none, or one of which what stands before it allows less was never refused. """

import random
import shutil
import sys
import tempfile
from collections.abc import Iterator
from pathlib import Path

from built import built_program
from comparing.cases import Case, run_program
from comparing.damage import Sets, counting_slot
from comparing.kinds import KINDS, kinds_in
from damaging.rules import RULES
from damaging.trial import FILES, HERE, Trial, try_set
from damaging.worked import WorkedSet, with_images, worked_sets
from guests.everything import make_everything
from guests.jobs import Job
from jobs import BUSY_SERVER, EXAMPLES, PIPELINE, SHELL
from jobs import Job as Example
from model.store import Store
from model.tests.shared_bytes import laid_out

ROOM = 40
"""Records of a launch beside its work: arrivals and marks are records too."""
EVERYTHING = {"everything 1": 200, "everything 2": 200, "everything 3": 200}
EXAMPLES_TRIED = ((SHELL, 130), (BUSY_SERVER, 300), (PIPELINE, 1900))


def of_job(program: str, job: Job, cut: int) -> Sets:
    """What a launch leaves that is cut off a while after its second set."""
    options = ["--every", str(cut // 2), "--records", str(cut * 3 // 2 + ROOM)]
    left = run_program(program, Case(["launch", *options, *job.words], job.files))
    if b"checkpoint 2 complete" not in left.log:
        sys.exit(f"a launch makes no two sets: {left.log!r}")
    return left.sets


def of_example(program: str, example: Example, cut: int) -> Sets:
    """The same of one of the examples."""
    files = {name: (EXAMPLES / name).read_bytes() for name in example.files()}
    return of_job(program, Job(files, example.words.split()), cut)


def by_hand() -> Sets:
    """The set of the shared image that is laid out by hand."""
    return WorkedSet("by hand", with_images(bytes(laid_out().content), [])).sets()


def bases(program: str, wanted: str) -> Iterator[tuple[str, Sets]]:
    """The sets that are damaged, each by its name."""
    if wanted in "by hand":
        yield "by hand", by_hand()
    for index, (name, cut) in enumerate(EVERYTHING.items(), start=1):
        if wanted in name:
            yield name, of_job(program, make_everything(random.Random(index)), cut)
    for example, cut in EXAMPLES_TRIED:
        if wanted in example.words:
            yield example.words, of_example(program, example, cut)


def lacking(sets: Sets) -> set[str]:
    """The kinds of things that the set which counts lacks."""
    return KINDS - kinds_in(Store(sets).get_machine(counting_slot(sets)))


def try_worked(trial: Trial) -> int:
    """The sets of tools/set_cases; tells how many there are. What one is damaged by the model knows from the
    page alone."""
    for count, worked in enumerate(worked_sets(), start=1):
        trial.restart(f"set_cases, {worked.case}", worked.sets())
    return count


def never_met(trial: Trial) -> list[str]:
    """The fields that no set had, and those of which less is allowed after what stands before them and none was
    refused."""
    found = []
    for kind, rules in enumerate(RULES):
        for name, rule in rules.items():
            met = trial.places[f"{FILES[kind]}: {name}"]
            found += [f"{FILES[kind]}: {name}"] if not met or (rule.narrowed and not met[HERE]) else []
    return found


def tell(trial: Trial) -> None:
    """A line for each field."""
    for name, places in trial.places.items():
        said = ", ".join(f"{count} {place}" for place, count in sorted(places.items()))
        print(f"{name}: {said}")


def main() -> int:
    """Tries all sets."""
    folder = Path(tempfile.mkdtemp())
    program, wanted = built_program(sys.argv, 1), sys.argv[2] if len(sys.argv) > 2 else ""
    trial = Trial(program, folder)
    if wanted in "set_cases":
        print(f"set_cases: {try_worked(trial)} sets, {trial.differ} differences", flush=True)
    for name, sets in bases(program, wanted):
        lacks = lacking(sets) if name in EVERYTHING else set()
        if lacks:
            sys.exit(f"{name} lacks {', '.join(sorted(lacks))}")
        before = trial.tried.copy()
        try_set(trial, name, sets)
        made = {key: count - before[key] for key, count in trial.tried.items()}
        counts = f"{made['sets']} sets, {made['damaged']} damaged, {trial.differ} differences"
        print(f"{name}: {counts}", flush=True)
    tell(trial)
    missing = [] if wanted else never_met(trial)
    print(*(f"never met: {what}" for what in missing), sep="\n", end="\n" * bool(missing))
    tried = trial.tried
    print(f"{tried['fields']} fields with other numbers, {tried['sets']} sets, {tried['damaged']} damaged, "
          f"{trial.differ} differences, {trial.wrong} not as the page says")
    if not trial.differ:
        shutil.rmtree(folder)
    return 1 if trial.differ or trial.wrong or missing else 0


if __name__ == "__main__":
    sys.exit(main())
