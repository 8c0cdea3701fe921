#!/usr/bin/env python3
"""Tells which functions take the checks of a command longest.

    tools/function_times.py [--over SECONDS] [--so-far FILE] [COMMAND ..]

The command is `rt ci` where none is given, and may be `tools/gate_cost.py ..`. A check from nothing, as that
command makes them, writes a file for each part of what it proves of a function, into a folder of the
temporary folder whose name has the number of its process; this looks at all such folders while the command
runs. A part took from the file before it to its own, in seconds of the processor that the process used, as
far as two looks a second tell; where checks share a processor with others, these are some more.
Standard output gets a table in Markdown of the functions, tests and files of lemmas that took longer (than
10 s where nothing else is said), or a line that none did; with --so-far the file gets it each minute too. What
the command writes goes to standard error. The status is the command's.
"""

import argparse
import bisect
import os
import re
import subprocess
import sys
import tempfile
import time
from collections import defaultdict
from pathlib import Path

PERIOD = 0.5  # seconds from look to look
TELLING = 60  # seconds from one table so far to the next
FOLDERS = "rattle-logic-built-locked-*"  # of a check each
PROCESS = re.compile(r"-(\d+)-\d+$")  # at the end of a folder's name
TICKS = os.sysconf("SC_CLK_TCK")
PART = re.compile(r"Rattle-(\w+)-(?:proofs|specs)\.(?:contracts\.)?(.+)\.oantt")


def used_by(process):
    """The seconds of the processor that it has used, its children's among them; none once it ended."""
    try:
        told = Path(f"/proc/{process}/stat").read_text()
    except OSError:
        return None
    return sum(map(int, told.rpartition(")")[2].split()[11:15])) / TICKS


class Check:
    """What one check has written so far, and how much of the processor it had used at each look."""

    def __init__(self, folder):
        self.folder = folder
        self.process = PROCESS.search(folder.name)[1]
        self.written, self.times, self.used = {}, [], []

    def look(self):
        used = used_by(self.process)
        if used is not None:
            self.times.append(time.time())
            self.used.append(used)
        try:
            for file in os.scandir(self.folder):
                if file.name not in self.written:
                    self.written[file.name] = file.stat().st_mtime
        except OSError:
            pass  # (the check has ended meanwhile)

    def used_at(self, moment):
        """What it had used by then, between two looks in proportion."""
        after = bisect.bisect_left(self.times, moment)
        if after in (0, len(self.times)):
            return self.used[min(after, len(self.times) - 1)]
        (start, end), (low, high) = self.times[after - 1 : after + 1], self.used[after - 1 : after + 1]
        return low + (high - low) * (moment - start) / (end - start)

    def seconds(self):
        """What each of its functions took."""
        took = defaultdict(float)
        parts = sorted((at, name) for name, at in self.written.items() if PART.fullmatch(name))
        for (before, _), (at, name) in zip(parts, parts[1:] if self.times else []):
            took[function_of(*PART.fullmatch(name).groups())] += self.used_at(at) - self.used_at(before)
        return took.items()


class Watch:
    """The checks that are seen."""

    def __init__(self):
        self.checks = {}

    def look(self):
        for folder in Path(tempfile.gettempdir()).glob(FOLDERS):
            if PROCESS.search(folder.name):
                self.checks.setdefault(folder, Check(folder)).look()

    def seconds(self):
        """What each function of each check took, the slowest first."""
        rows = [row for check in self.checks.values() for row in check.seconds()]
        return sorted(rows, key=lambda row: -row[1])


def function_of(crate, part):
    """The function whose part this is: the path up to the last name with a small letter in front."""
    names = part.split(".")
    last = max((at for at, name in enumerate(names) if name[:1].islower()), default=len(names) - 1)
    return "::".join([crate, *names[: last + 1]])


def table(rows):
    lines = [f"| `{function}` | {seconds:.1f} |" for function, seconds in rows]
    return "\n".join(["| Function | Seconds |", "| --- | --- |", *lines])


def told(watch, over):
    rows = [row for row in watch.seconds() if row[1] > over]
    return table(rows) if rows else f"No function took more than {over:g} s."


def main():
    reader = argparse.ArgumentParser(description="Tells which functions take a command's checks longest.")
    reader.add_argument("--over", type=float, default=10, metavar="SECONDS", help="none: 10")
    reader.add_argument("--so-far", metavar="FILE", help="where the table stands while the command runs")
    reader.add_argument("command", nargs=argparse.REMAINDER, metavar="COMMAND", help="none: rt ci")
    options = reader.parse_args()
    watch = Watch()
    running = subprocess.Popen(options.command or ["rt", "ci"], stdout=sys.stderr)
    next_told = time.monotonic() + TELLING
    while running.poll() is None:
        watch.look()
        if options.so_far and time.monotonic() > next_told:
            Path(options.so_far).write_text(told(watch, options.over) + "\n")
            next_told = time.monotonic() + TELLING
        time.sleep(PERIOD)
    print(told(watch, options.over))
    return running.returncode if running.returncode >= 0 else 128 - running.returncode


if __name__ == "__main__":
    sys.exit(main())
