#!/usr/bin/env python3
"""Tells what a run of the gate costs: the processor seconds of each crate's proof, tests and edits.

    tools/gate_cost.py [--raw FILE] [COMMAND ..]

The command is `rt ci` where none is given. What an earlier run on this machine passed is not done again
and costs nothing here; `rt ci --anew` does all. What the command writes goes to standard error. Standard
output gets how long it took, a table in Markdown, the longest chain of crates that wait for one another, and
what is over the budget. It also gets how long the host of this machine, where it is a virtual one, had the
processors do something else meanwhile (the kernel's "steal"), by which the clock says more than the work
takes; and how long one small task, done each minute, took the processor, so that runs on two machines can be
compared, and one on a machine whose host is busy can be told. --raw writes the figures as JSON. The status is
the command's.

A process belongs to the crate that its words name: to the edits where it runs in a copy with an edit, to
the tests where it proves or runs those, to the builds where a compiler takes what was proved of a program,
and else to the proof. What belongs to no crate is `other`, so that the total is what the kernel counted.
"""

import argparse
import json
import os
import re
import statistics
import sys
import threading
import time
from pathlib import Path

from process_times import TICK, measure

TOP = Path(__file__).resolve().parent.parent
PHASES = ["proof", "builds", "tests", "edits"]
# The budget, in processor seconds.
MOST, MEAN, PROOF_MOST, TESTS_MOST, TOTAL_MOST = 600, 400, 150, 400, 18_000
OF_TESTS = re.compile(r"worked_|bench_")
STEPS = 500_000  # of the small task
PAUSE = 60  # seconds from one such task to the next
NAMED = re.compile(r"\0--crate-name\0(\w+)\0")
RUN_TESTS = re.compile(r"/rt-run-[^/\0]*/bin/(\w+)_tests\0")


def place_of(words, folder):
    """The crate and phase that a process names, if it names one."""
    ran, named = RUN_TESTS.search(words), NAMED.search(words)
    if ran:
        return ran[1], "tests"
    if not named:
        return None
    if "/rt-edit-" in folder:
        return named[1], "edits"
    if "\0--crate-checked\0" in words:
        return named[1], "builds"
    return named[1], "tests" if "\0--test\0" in words else "proof"


class Cost:
    """What was used, by crate and phase."""

    def __init__(self, usage):
        self.usage = usage

    def of(self, crate, phase):
        return self.usage.seconds.get((crate, phase), 0)

    def sum_of(self, crate):
        return sum(self.of(crate, phase) for phase in PHASES)

    def memory_of(self, crate):
        return max(self.usage.memory.get((crate, phase), 0) for phase in PHASES)

    def other(self):
        return self.usage.total - sum(seconds for place, seconds in self.usage.seconds.items() if place)


def dependencies():
    """The crates of crates.txt in its order, each with those of them that it stands on."""
    lines = (line.partition("#")[0].partition(":") for line in (TOP / "crates.txt").read_text().splitlines())
    named = {head.split()[0]: tail.split() for head, _, tail in lines if head.strip()}
    return {crate: [it for it in below if it in named] for crate, below in named.items()}


def longest_chain(crates, cost):
    """The crates that wait for one another whose proofs take longest, and their seconds."""
    ends = {}

    def end_of(crate):
        if crate not in ends:
            before = max(map(end_of, crates[crate]), key=lambda end: end[1], default=([], 0))
            ends[crate] = [*before[0], crate], before[1] + cost.of(crate, "proof")
        return ends[crate]

    return max(map(end_of, crates), key=lambda end: end[1])


def edits_of(crate):
    """How many edits the gate tries, and how many are kept as records in a file of their own."""
    files = (TOP / "crates" / crate / "must-fail").glob("*")
    endings = [file.suffix for file in files if file.name != "tried.md"]
    return f"{endings.count('.edit')} / {endings.count('.md')}"


def row_of(crate, cost):
    seconds = [*(cost.of(crate, phase) for phase in PHASES), cost.sum_of(crate)]
    memory = f"{cost.memory_of(crate) / 1e9:.1f} GB"
    return [f"`{crate}`", *(f"{it:,.0f}" if it else "-" for it in seconds), memory, edits_of(crate)]


def table(crates, cost):
    rows = [row_of(crate, cost) for crate in crates if cost.sum_of(crate)]
    sums = [sum(cost.of(crate, phase) for crate in crates) for phase in PHASES]
    rows.append(["all", *(f"{it:,.0f}" for it in [*sums, sum(sums)]), "", ""])
    rows.append(["other", *[""] * len(PHASES), f"{cost.other():,.0f}", "", ""])
    heads = ["Crate", *(phase.capitalize() for phase in PHASES), "Sum", "Memory", "Edits tried / recorded"]
    return "\n".join(f"| {' | '.join(row)} |" for row in [heads, ["---"] * len(heads), *rows])


def part_of(crate, cost):
    """What has a limit of its own: a crate's proof, and of a crate of tests all, with that limit."""
    if OF_TESTS.match(crate):
        return "tests", cost.sum_of(crate), TESTS_MOST
    return "proof", cost.of(crate, "proof"), PROOF_MOST


def over_budget(crates, cost):
    """Lines on what costs more than it may."""
    sums = {crate: cost.sum_of(crate) for crate in crates if cost.sum_of(crate)}
    mean = sum(sums.values()) / max(len(sums), 1)
    over = [f"`{crate}`: {seconds:,.0f} s of {MOST}" for crate, seconds in sums.items() if seconds > MOST]
    for crate in sums:
        what, part, most = part_of(crate, cost)
        over += [f"`{crate}`: {part:,.0f} s of {what}, of {most}"] * (part > most)
    over += [f"a crate on average: {mean:,.0f} s of {MEAN}"] * (mean > MEAN)
    return over + [f"in all: {cost.usage.total:,.0f} s of {TOTAL_MOST:,}"] * (cost.usage.total > TOTAL_MOST)


def stolen():
    """The seconds for which this machine's host had the processors that are used here do something else."""
    mine = {f"cpu{it}" for it in os.sched_getaffinity(0)}
    rows = [line.split() for line in Path("/proc/stat").read_text().splitlines()]
    return sum(int(row[8]) for row in rows if row and row[0] in mine) / TICK


class Speed(threading.Thread):
    """How many seconds of the processor one small task takes, done again and again."""

    def __init__(self):
        super().__init__(daemon=True)
        self.seconds = []
        self.is_over = threading.Event()

    def run(self):
        while True:
            self.seconds.append(self.task())
            if self.is_over.wait(PAUSE):
                return

    @staticmethod
    def task():
        begun, value = time.thread_time(), 0
        for step in range(STEPS):
            value = (value * 31 + step) & 0xFFFF_FFFF
        return time.thread_time() - begun

    def stop(self):
        """Ends after the task that is under way, of which there is one at least."""
        self.is_over.set()
        self.join()

    def told(self):
        least, middle, most = min(self.seconds), statistics.median(self.seconds), max(self.seconds)
        return f"{STEPS:,} steps of a loop took {middle:.2f} s in the middle, {least:.2f} to {most:.2f}"


def report(command, cost, taken, speed):
    crates = dependencies()
    chain, seconds = longest_chain(crates, cost)
    minutes, processors = cost.usage.clock / 60, len(os.sched_getaffinity(0))
    took = f"{minutes:,.1f} minutes on {processors} processors, and {cost.usage.total:,.0f} s of them"
    beside = f"the host took {taken:,.0f} s, and {speed.told()}"
    print(f"`{' '.join(command)}` took {took}; {beside}:\n\n{table(crates, cost)}\n")
    print(f"The longest chain of proofs takes {seconds:,.0f} s: {', '.join(f'`{it}`' for it in chain)}.\n")
    over = over_budget(crates, cost)
    print("Over the budget: " + "; ".join(over) + "." if over else "Nothing is over the budget.")


def write_raw(file, command, cost, taken, speed):
    usage = cost.usage
    places = [place for place in usage.seconds if place]
    figures = {
        "command": command,
        "status": usage.status,
        "clock": usage.clock,
        "total": usage.total,
        "stolen": taken,
        "speed": speed.seconds,
        "other": cost.other(),
        "seconds": {" ".join(place): usage.seconds[place] for place in sorted(places)},
        "memory": {" ".join(place): usage.memory[place] for place in sorted(places)},
    }
    Path(file).write_text(json.dumps(figures, indent=1) + "\n")


def main():
    reader = argparse.ArgumentParser(description="Tells what a run of the gate costs.")
    reader.add_argument("--raw", metavar="FILE", help="where the figures are written as JSON")
    reader.add_argument("command", nargs=argparse.REMAINDER, metavar="COMMAND", help="none: rt ci")
    options = reader.parse_args()
    command = options.command or ["rt", "ci"]
    before, speed = stolen(), Speed()
    speed.start()
    cost = Cost(measure(command, place_of))
    speed.stop()
    taken = stolen() - before
    report(command, cost, taken, speed)
    if options.raw:
        write_raw(options.raw, command, cost, taken, speed)
    return cost.usage.status if cost.usage.status >= 0 else 128 - cost.usage.status


if __name__ == "__main__":
    sys.exit(main())
