"""One seed's runs by the built program and by what it is compared with."""

import random
import sys
from collections import Counter
from collections.abc import Callable
from dataclasses import dataclass, field, replace
from pathlib import Path

from comparing.bad_programs import CODE, bad_program
from comparing.cases import PROGRAM_AND_MODEL, Case, Names, differences, keep, run_program
from comparing.damage import damaged, with_little_left, with_other_field
from comparing.nodes import on_nodes
from comparing.odd_words import FOLDER, GUEST, MORE_FILES, odd_words
from comparing.tallies import Tallies
from comparing.telling import tell
from comparing.traces import records_of
from guests.everything import make_everything
from guests.jobs import Job, make_job
from guests.program import make_guest
from model import Outcome, run
from riscv import Segment, elf_file

MOST_RECORDS = 400
DAMAGED_SETS, BAD_FILES, ODD_WORDS, OTHER_FIELDS, CROWDS = 8, 8, 4, 30, 5  # of one seed
FEW_RECORDS = 20  # of a program that is not made by make_guest
MOST_PROGRAMS = 128
MOST_BYTES = 67_108_864  # of a file, and of all files that the words name


@dataclass
class Counts:
    """What was done."""

    done: Counter[str] = field(default_factory=Counter)
    records: int = 0
    sets: int = 0
    differ: int = 0


def model_outcome(case: Case) -> Outcome:
    return run(case.words, case.files, case.sets)


class Trial:
    """The runs so far, and what came of them."""

    names: Names = PROGRAM_AND_MODEL

    def __init__(self, program: str, folder: Path) -> None:
        self.program = program
        self.folder = folder
        self.counts = Counts()
        self.tallies = Tallies()
        self.nodes = random.Random()

    def outcomes(self, case: Case) -> tuple[Case, Outcome, Outcome]:
        """Makes a call by both, half of the time on nodes that its words name; gives it with what they left."""
        if self.nodes.random() < 0.5:
            case = replace(case, words=on_nodes(self.nodes, case.words))
        return case, run_program(self.program, case), model_outcome(case)

    def compare(self, seed: int, case: Case) -> Outcome:
        """Makes a call by both, says where they differ, and gives what the first one left."""
        made, ours, theirs = self.outcomes(case)
        found = differences(ours, theirs, self.names)
        if found:
            self.counts.differ += 1
            kept = self.folder / f"seed{seed}.{self.counts.differ}"
            both = dict(zip(self.names, (ours, theirs)))
            keep(made, both, kept)
            tell(made, both, kept)
            where = f"seed {seed}, words {made.words}, kept in {kept}"
            print(where, *found, sep="\n    ", file=sys.stderr, flush=True)
        self.counts.records += len(records_of(ours.trace or b""))
        self.counts.sets += ours.log.count(b" complete: generation ")
        self.tallies.add(ours, "restart" in case.words[:1])
        return ours

    def begin(self, seed: int) -> random.Random:
        """What a seed's runs are made of; their nodes are drawn apart from all else."""
        self.nodes = random.Random(f"nodes of {seed}")
        return random.Random(seed)

    def one_seed(self, seed: int) -> None:
        rng = self.begin(seed)
        rng.choice(KINDS)(self, seed, rng)


def options(rng: random.Random, every: bool, most: int = MOST_RECORDS) -> list[str]:
    """The options of a call, in either order."""
    pairs = [["--records", str(rng.choice([most, most, most, rng.randint(1, 60)]))]]
    if every:
        pairs.append(["--every", str(rng.choice([1, 2, 3, 5, 7, 10, 20, 40, 100]))])
    rng.shuffle(pairs)
    return [word for pair in pairs for word in pair]


def job_of(trial: Trial, rng: random.Random) -> Job:
    """A job of several processes as often as one guest, whose name stands on its stack."""
    if rng.random() < 0.5:
        trial.counts.done["jobs"] += 1
        return make_job(rng)
    trial.counts.done["guests"] += 1
    name = rng.choice([GUEST, GUEST, "g" * rng.randint(1, 40), "\u00e9" * rng.randint(1, 127), "n" * 255])
    return Job({name: make_guest(rng).file}, [f"0:{name}"])


def whole(trial: Trial, seed: int, rng: random.Random) -> None:
    """A launch without checkpoints."""
    job = job_of(trial, rng)
    trial.compare(seed, Case(["launch", *options(rng, False), *job.words], job.files))


def first_launch(job: Job, rng: random.Random) -> Case:
    """A launch that is mostly cut off, and leaves sets."""
    records = rng.choice([rng.randint(3, 30), rng.randint(10, 150), rng.randint(10, 150), MOST_RECORDS])
    every = rng.choice([1, 2, 3, 5, 8, 13, 21, 34]) if records < 150 else rng.choice([13, 21, 34, 55])
    words = ["launch", "--every", str(every), "--records", str(records), *job.words]
    return Case(words, job.files)


def restarted(trial: Trial, seed: int, rng: random.Random) -> None:
    """A launch that leaves sets, and restarts from what each call left."""
    left = trial.compare(seed, first_launch(job_of(trial, rng), rng))
    for _ in range(rng.randint(1, 3)):
        words = ["restart", *options(rng, rng.random() < 0.7, rng.choice([40, 100, 200]))]
        trial.counts.done["restarts"] += 1
        left = trial.compare(seed, Case(words, {}, left.sets))


def resumed(trial: Trial, seed: int, rng: random.Random) -> None:
    """Restarts from a set of the model, which was cut after some records of work."""
    job = job_of(trial, rng)
    cut = rng.choice([1, 1, 1, 2, rng.randint(1, 20), rng.randint(1, 200)])
    words = ["launch", "--every", str(cut), "--records", str(cut + rng.choice([2, 2, 10, 30])), *job.words]
    sets = model_outcome(Case(words, job.files)).sets
    for every in (False, *rng.choice([[], [], [True], [True, True]])):
        trial.counts.done["restarts"] += 1
        sets = trial.compare(seed, Case(["restart", *options(rng, every)], {}, sets)).sets


def launched_again(trial: Trial, seed: int, rng: random.Random) -> None:
    """A launch beside sets of another run, whole or damaged, and a restart."""
    sets = model_outcome(first_launch(job_of(trial, rng), rng)).sets
    sets = damaged(rng, sets) if rng.random() < 0.6 else sets
    job = job_of(trial, rng)
    words = ["launch", *options(rng, rng.random() < 0.8, 40), *job.words]
    left = trial.compare(seed, Case(words, job.files, sets))
    trial.counts.done["restarts"] += 1
    trial.compare(seed, Case(["restart", *options(rng, True, 40)], {}, left.sets))


def with_damage(trial: Trial, seed: int, rng: random.Random) -> None:
    """Restarts from what damage made of sets of the model."""
    sets = model_outcome(first_launch(job_of(trial, rng), rng)).sets
    for _ in range(DAMAGED_SETS):
        words = ["restart", *options(rng, rng.random() < 0.3, 40)]
        trial.counts.done["damaged sets"] += 1
        trial.compare(seed, Case(words, {}, damaged(rng, sets)))


def other_fields(trial: Trial, seed: int, rng: random.Random) -> None:
    """Restarts from a set that has something of each kind, and from it with another number in a field."""
    job, cut = make_everything(rng), rng.randint(150, 240)
    words = ["launch", "--every", str(cut), "--records", str(cut + 60), *job.words]
    sets = model_outcome(Case(words, job.files)).sets
    for changed in [sets, *(with_other_field(rng, sets) for _ in range(OTHER_FIELDS))]:
        trial.counts.done["damaged sets"] += 1
        trial.compare(seed, Case(["restart", *options(rng, rng.random() < 0.5, 100)], {}, changed))


def crowds(trial: Trial, seed: int, rng: random.Random) -> None:
    """Restarts from sets of a job in which little is left of something that has a limit."""
    sets = model_outcome(first_launch(make_job(rng), rng)).sets
    for _ in range(CROWDS):
        trial.counts.done["restarts"] += 1
        words = ["restart", *options(rng, rng.random() < 0.5, 200)]
        trial.compare(seed, Case(words, {}, with_little_left(rng, sets)))


def bad_files(trial: Trial, seed: int, rng: random.Random) -> None:
    for _ in range(BAD_FILES):
        words = ["launch", "--records", str(FEW_RECORDS), f"0:{GUEST}"]
        trial.counts.done["bad files"] += 1
        trial.compare(seed, Case(words, {GUEST: bad_program(rng)}))


def large_files(trial: Trial, seed: int, rng: random.Random) -> None:
    """Files that are as large as they may be, or larger, each or together."""
    simple = elf_file(0x10000, [Segment(0x10000, 5, CODE)])
    first = rng.choice([MOST_BYTES, MOST_BYTES + 1, MOST_BYTES // 2, 1])
    files = {"a": bytes(first), "b": bytes(MOST_BYTES - min(first, MOST_BYTES) + rng.randrange(2))}
    files[GUEST] = rng.choice([simple, simple, simple[:60]])
    programs = [f"0:{GUEST}", rng.choice(["1:none", f"1:{GUEST}"])]
    words = ["launch", "--records", "2", "--file", "a", "--file", "b", *programs]
    trial.counts.done["command lines"] += 1
    trial.compare(seed, Case(words, files))


def many_programs(trial: Trial, seed: int, rng: random.Random) -> None:
    """As many programs as there may be, a set of all of them, and a restart from it."""
    files = {GUEST: elf_file(0x10000, [Segment(0x10000, 5, CODE)])}
    programs = [f"{rng.randrange(16)}:{GUEST}" for _ in range(MOST_PROGRAMS)]
    left = trial.compare(seed, Case(["launch", "--every", "1", "--records", "3", *programs], files))
    trial.counts.done["restarts"] += 1
    trial.compare(seed, Case(["restart", "--every", "200", "--records", "600"], {}, left.sets))


def odd_command_lines(trial: Trial, seed: int, rng: random.Random) -> None:
    if rng.random() < 0.25:
        large_files(trial, seed, rng)
    if rng.random() < 0.1:
        many_programs(trial, seed, rng)
    simple = elf_file(0x10000, [Segment(0x10000, 5, CODE)])
    for _ in range(ODD_WORDS):
        trial.counts.done["command lines"] += 1
        files = dict.fromkeys([GUEST, *FOLDER], simple) | MORE_FILES
        trial.compare(seed, Case(odd_words(rng), files | {f"f{index}": b"" for index in range(65)}))


KINDS: list[Callable[[Trial, int, random.Random], None]] = (
    [whole] * 2 + [restarted] * 4 + [resumed] * 16 + [launched_again] + [with_damage] * 7 + [bad_files] * 2
    + [odd_command_lines] * 2 + [other_fields] * 2
    + [crowds] * 4)
