"""What the processes of a command use of the processor, each for the place that it works for.

All of them are looked at again and again. What a process used after the last look at it is told by the
process that waited for it, and is shared by all that ended meanwhile, so that only what works for no
place is left over from what the kernel counted.
"""

import os
import subprocess
import sys
import time
from collections import defaultdict
from dataclasses import dataclass
from pathlib import Path

PERIOD = 0.5  # seconds from look to look
TICK = os.sysconf("SC_CLK_TCK")
PAGE = os.sysconf("SC_PAGE_SIZE")


@dataclass
class Look:
    """A process when it was looked at: the one above it, when it began, the seconds of its own and of the
    processes that it has waited for, the bytes that it held, and the place that it works for."""

    parent: int
    begun: int
    own: float
    waited: float
    memory: int
    place: tuple = None


@dataclass
class Usage:
    """What a command took: its status, the seconds by the clock and of the processor, and by place the
    seconds of the processor and the most bytes that one process held."""

    status: int
    clock: float
    total: float
    seconds: dict
    memory: dict


def look_at(pid):
    try:
        fields = Path(f"/proc/{pid}/stat").read_text(errors="replace").rpartition(")")[2].split()
    except OSError:
        return None
    own, waited = (sum(map(int, fields[at : at + 2])) / TICK for at in (11, 13))
    return Look(int(fields[1]), int(fields[19]), own, waited, int(fields[21]) * PAGE)


def words_of(pid):
    """The words of a process, each between two bytes 0, and the folder that it works in."""
    try:
        words = Path(f"/proc/{pid}/cmdline").read_bytes().decode(errors="replace")
        return f"\0{words}", os.readlink(f"/proc/{pid}/cwd")
    except OSError:
        return "", ""


class Meter:
    """What a process and all below it have used so far. `place_of` tells the place of one from its words
    and folder; one that names none works for the place of the one above it."""

    def __init__(self, root, place_of):
        self.root = root
        self.place_of = place_of
        self.seen = {}
        self.seconds = defaultdict(float)
        self.memory = defaultdict(int)

    def look(self):
        looks = {int(name): look_at(name) for name in os.listdir("/proc") if name.isdigit()}
        below = defaultdict(list)
        for pid, look in looks.items():
            if look:
                below[look.parent].append(pid)
        now, left = {}, [(self.root, None)]
        while left:
            pid, above = left.pop()
            look = looks.get(pid)
            if look:
                before = self.seen.get((pid, look.begun))
                look.place = (before and before.place) or self.place_of(*words_of(pid)) or above
                now[pid, look.begun] = look
                self.memory[look.place] = max(self.memory[look.place], look.memory)
                left += [(child, look.place) for child in below[pid]]
        self.settle(now)
        self.seen = now

    def settle(self, now):
        """Counts what the processes used that have ended since the last look, also what they used after
        it."""
        ended = {key: look for key, look in self.seen.items() if key not in now}
        keys = {key[0]: key for key in self.seen}
        by_waiter = defaultdict(list)
        for look in ended.values():
            self.seconds[look.place] += look.own
            waiter = keys.get(look.parent)
            while waiter in ended:
                waiter = keys.get(ended[waiter].parent)
            by_waiter[waiter].append(look)
        for waiter in by_waiter.keys() & now.keys():
            looks = by_waiter[waiter]
            told = now[waiter].waited - self.seen[waiter].waited
            self.share(told - sum(look.own + look.waited for look in looks), looks)

    def share(self, rest, looks):
        places = [look.place for look in looks if look.place]
        for place in places:
            self.seconds[place] += max(rest, 0) / len(places)


def measure(command, place_of):
    """Runs a command, what it writes on standard output going to standard error, and returns what it
    used."""
    begun = time.monotonic()
    running = subprocess.Popen(command, stdout=sys.stderr)
    meter = Meter(running.pid, place_of)
    # Not waited for before the last look, which finds what it has waited for itself.
    while not os.waitid(os.P_PID, running.pid, os.WEXITED | os.WNOHANG | os.WNOWAIT):
        meter.look()
        time.sleep(PERIOD)
    meter.look()
    meter.settle({})
    _, status, used = os.wait4(running.pid, 0)
    running.returncode = os.waitstatus_to_exitcode(status)
    clock = time.monotonic() - begun
    # The kernel's count lacks what nobody waited for, as where the command was killed.
    total = max(used.ru_utime + used.ru_stime, sum(meter.seconds.values()))
    return Usage(running.returncode, clock, total, dict(meter.seconds), dict(meter.memory))
