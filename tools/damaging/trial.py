"""Restarts from changed sets by the built program and by the model, and what docs/FORMATS.md says of each."""

import re
import sys
from collections import Counter, defaultdict
from dataclasses import dataclass, field
from pathlib import Path

from comparing.cases import PROGRAM_AND_MODEL, Case, differences, keep, run_program
from comparing.damage import MANIFEST, PROCESS, SHARED, Sets, counting_slot, generation, name_of, with_lengths
from comparing.set_fields import fields_of
from comparing.trial import model_outcome
from damaging.changes import Change, changed_lists, changes_of, fronts_of
from damaging.rules import ANYWHERE, END, FREE, IMAGES, OTHER_SLOT, RULES
from model import Outcome

DAMAGED = 17
REPORTED = 500  # sets after which the counts so far are told
TOLD = re.compile(rb"damaged: slot (\d) file (\d+) at (\d+)\n")
HERE, SPELLED, WITHIN = "the field", "another state", "within a field"
FILES = {MANIFEST: "manifest", SHARED: "shared image", PROCESS: "process image"}
WORDS = ["restart", "--every", "2", "--records", "12"]
"""A restart that runs for a while and puts what it has into a set."""


@dataclass(frozen=True)
class Place:
    """Where a set is damaged."""

    slot: int
    file: int
    offset: int


@dataclass
class Trial:
    """What was tried so far: of each field how often the set was damaged where, and what was wrong."""

    program: str
    folder: Path
    tried: Counter[str] = field(default_factory=Counter)
    places: dict[str, Counter[str]] = field(default_factory=lambda: defaultdict(Counter))
    differ: int = 0
    wrong: int = 0

    def restart(self, what: str, sets: Sets) -> Outcome:
        """Restarts by both, says where they differ, and gives what the program left."""
        case = Case(WORDS, {}, sets)
        ours, theirs = run_program(self.program, case), model_outcome(case)
        found = differences(ours, theirs)
        if found:
            self.differ += 1
            keep(case, dict(zip(PROGRAM_AND_MODEL, (ours, theirs))), self.folder / f"differ{self.differ}")
            where = f"{what} (kept in {self.folder}/differ{self.differ})"
            print(where, *found, sep="\n    ", file=sys.stderr, flush=True)
        self.tried["sets"] += 1
        if self.tried["sets"] % REPORTED == 0:
            print(f"{self.tried['sets']} sets, {self.differ} differences", file=sys.stderr, flush=True)
        self.tried["damaged" if ours.status == DAMAGED else "spelled"] += 1
        return ours

    def expect(self, holds: bool, what: str, outcome: Outcome) -> None:
        """Says where an outcome is not what the page says."""
        if not holds:
            self.wrong += 1
            said = f"status {outcome.status}, {outcome.log!r}"
            print(f"NOT AS THE PAGE SAYS: {what}: {said}", file=sys.stderr, flush=True)


def damage_in(outcome: Outcome) -> Place | None:
    """Where an outcome says that the set is damaged."""
    told = TOLD.fullmatch(outcome.log)
    is_damaged = outcome.status == DAMAGED and outcome.console == b"" and outcome.trace is None
    return Place(*map(int, told.groups())) if told and is_damaged else None


def place_in(index: int, change: Change, at: Place) -> str:
    """What stands where a set is damaged after a change of one of its files."""
    if at.file != index:
        return IMAGES
    if at.offset == change.field.at:
        return HERE
    if at.offset == len(change.content):
        return END
    fields = fields_of(index, change.content).fields
    found = [one.name for one in fields if one.at == at.offset]
    is_behind = bool(fields) and at.offset == fields[-1].at + fields[-1].size
    return found[0] if found else "behind the last field" if is_behind else f"{WITHIN}, at {at.offset}"


def came_of(index: int, change: Change, slot: int, sets: Sets, outcome: Outcome) -> str:
    """What came of a change: where the set is damaged, or what it spells."""
    if index == MANIFEST and (generation(sets, slot) < 0 or counting_slot(sets) != slot):
        return OTHER_SLOT
    at = damage_in(outcome)
    if at is None:
        return f"status {DAMAGED}" if outcome.status == DAMAGED else SPELLED
    return place_in(index, change, at) if at.slot == slot else "another slot's damage"


def is_as_said(index: int, change: Change, came: str) -> bool:
    """Whether it is what the page says of this number in this field."""
    rule = RULES[min(index, PROCESS)][change.name]
    if not rule.fits(change.value):
        return came == HERE
    if came in (HERE, SPELLED):
        return rule.narrowed if came == HERE else rule.spells
    return came in rule.places or (ANYWHERE in rule.places and came != IMAGES and WITHIN not in came)


def changed_sets(sets: Sets, slot: int, index: int, content: bytes) -> Sets:
    """The sets with this file, its length in the manifest made right."""
    changed = {**sets, name_of(slot, index): content}
    return changed if index == MANIFEST else with_lengths(changed, slot)


def try_fields(trial: Trial, base: str, sets: Sets, index: int) -> None:
    """Each field of a file of the set that counts."""
    slot = counting_slot(sets)
    content = sets[name_of(slot, index)]
    rules = RULES[min(index, PROCESS)]
    free = {name for name, rule in rules.items() if rule == FREE}
    for change in changes_of(index, content, free):
        of = f"{base}, {name_of(slot, index)}"
        what = f"{of}, {change.field.name} at {change.field.at} is {change.value:#x}"
        changed = changed_sets(sets, slot, index, change.content)
        outcome = trial.restart(what, changed)
        came = came_of(index, change, slot, changed, outcome)
        trial.tried["fields"] += 1
        trial.places[f"{FILES[min(index, PROCESS)]}: {change.name}"][came] += 1
        trial.expect(is_as_said(index, change, came), f"{what}, damage in {came}", outcome)


def try_lengths(trial: Trial, base: str, sets: Sets, index: int) -> None:
    """A file that is cut short, and one with bytes behind its last field: damaged where it ends or should."""
    slot = counting_slot(sets)
    content = sets[name_of(slot, index)]
    for front in fronts_of(index, content):
        if index == MANIFEST and len(front) < 16:
            continue
        what = f"{base}, {name_of(slot, index)} cut to {len(front)} bytes"
        outcome = trial.restart(what, changed_sets(sets, slot, index, front))
        trial.expect(damage_in(outcome) == Place(slot, index, len(front)), what, outcome)
    for more in (b"\0", b"\xff" * 5):
        what = f"{base}, {name_of(slot, index)} with {len(more)} bytes behind"
        outcome = trial.restart(what, changed_sets(sets, slot, index, content + more))
        trial.expect(damage_in(outcome) == Place(slot, index, len(content)), what, outcome)


def try_lists(trial: Trial, base: str, sets: Sets, index: int) -> None:
    """The items of each list."""
    slot = counting_slot(sets)
    for name, content in changed_lists(index, sets[name_of(slot, index)]):
        changed = changed_sets(sets, slot, index, content)
        outcome = trial.restart(f"{base}, {name_of(slot, index)}, {name}", changed)
        came = "damaged" if damage_in(outcome) else f"status {outcome.status}"
        trial.places[f"{FILES[min(index, PROCESS)]}: {name}"][came] += 1


def files_of(sets: Sets) -> range:
    """The files of the set that counts."""
    slot = counting_slot(sets)
    return range(1 + int.from_bytes(sets[name_of(slot, MANIFEST)][16:20], "little"))


def try_files(trial: Trial, base: str, sets: Sets) -> None:
    """Files that are not there, or that the manifest says to be of other lengths or numbers."""
    slot = counting_slot(sets)
    shared_end = Place(slot, SHARED, len(sets[name_of(slot, SHARED)]))
    for index in list(files_of(sets))[SHARED:]:
        name, content = name_of(slot, index), sets[name_of(slot, index)]
        without = {key: value for key, value in sets.items() if key != name}
        cases = [("not there", without, 0), ("not there and of no length", with_lengths(without, slot), 0),
                 ("shorter than said", {**sets, name: content[:-3]}, len(content) - 3),
                 ("longer than said", {**sets, name: content + b"\1"}, len(content))]
        for how, changed, at in cases:
            outcome = trial.restart(f"{base}, {name} {how}", changed)
            trial.expect(damage_in(outcome) == Place(slot, index, at), f"{base}, {name} {how}", outcome)
    manifest, last = sets[name_of(slot, MANIFEST)], files_of(sets)[-1]
    for count in (last - 1, last + 1):
        more = {**sets, name_of(slot, last + 1): sets[name_of(slot, last)]}
        more[name_of(slot, MANIFEST)] = manifest[:16] + count.to_bytes(4, "little")
        outcome = trial.restart(f"{base}, {count} files", with_lengths(more, slot))
        if count > SHARED:
            trial.expect(damage_in(outcome) == shared_end, f"{base}, {count} files", outcome)
    for index in range(PROCESS, last):
        one, other = name_of(slot, index), name_of(slot, index + 1)
        outcome = trial.restart(f"{base}, {one} and {other} swapped", changed_pair(sets, slot, one, other))
        is_said = damage_in(outcome) == Place(slot, index, 8)
        trial.expect(is_said, f"{base}, {one} and {other} swapped", outcome)


def changed_pair(sets: Sets, slot: int, one: str, other: str) -> Sets:
    """Two files in each other's place."""
    return with_lengths({**sets, one: sets[other], other: sets[one]}, slot)


def try_set(trial: Trial, base: str, sets: Sets) -> None:
    """All of one set."""
    first = trial.restart(f"{base}, as it is", sets)
    trial.expect(first.status != DAMAGED, f"{base}, as it is", first)
    for index in files_of(sets):
        try_fields(trial, base, sets, index)
        try_lengths(trial, base, sets, index)
        try_lists(trial, base, sets, index)
    try_files(trial, base, sets)
