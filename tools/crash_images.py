#!/usr/bin/env python3
"""Tries what a crash of the machine may leave of the folder of sets: after each call of the system that the
built program makes there, as `strace` tells of it, images are made of what was not synced then, and the set
that counts in each is compared with the one that it is to be.

Usage: tools/crash_images.py [DMTCP [SEED]]

DMTCP is a built program, else crates/dmtcp/out/dmtcp, which `cd crates/dmtcp && rt run -- --version` proves
and builds. Random images are made from the SEED, 1 where none is given. It wants a Linux, and `strace`.

What was not synced may be lost or kept, each write and cut by itself; a write may have its first half, or
other bytes in its range; a file that was made may be left out until the folder is synced, and the folder
until the one above is. Five runs are tried: a launch with checkpoints; the same, where a call of fsync
fails, each in turn; the same, killed at a call of fsync, each in turn, and a restart from what it left
unsynced; a restart from a folder that has sets; and a launch with a set that is shorter than the one that
it is written over. The first four are tried of a server with two clients too, with each fifth call of fsync.

It fails where the set that counts in an image is older than the last that the log called complete, or is
not whole, byte for byte as it was written; where none counts though one was complete; and where fewer than
1,000 images were made, or no call of fsync is missed: each in turn is left out and answered well, and then
an image is to be wrong where the call was needed.
"""
import os
import random
import re
import shutil
import subprocess
import sys
import tempfile
from dataclasses import dataclass, field

from built import HOME, built_program
from jobs import HANDLER, HELLO, SERVER

TRACED = "trace=mkdir,openat,open,close,lseek,write,ftruncate,fsync,fdatasync"
CALL = re.compile(r"(?:\d+ +)?(\w+)\((.*)\) += (-?\d+)(?:<([^>]*)>)?( .*)?$")
NAME = re.compile(r"dmtcp_set/(s[01]_\d+\.img)$")
MOST_FILES = 129  # that a manifest names; another count is junk
COMPLETE = re.compile(rb"checkpoint \d+ complete: generation (\d+)")


class Wrong(Exception):
    pass


@dataclass
class File:
    """A file's bytes as reads give them, as a sync has settled them, and the changes since then."""

    now: bytearray = field(default_factory=bytearray)
    settled: bytes = b""
    pending: list = field(default_factory=list)

    def change(self, what, at, data=b""):
        self.pending.append((what, at, data))
        apply(self.now, what, at, data)

    def sync(self):
        self.settled = bytes(self.now)
        self.pending = []


def apply(content, what, at, data):
    if what == "cut":
        del content[at:]
    else:
        content.extend(bytes(max(0, at - len(content))))
        content[at : at + len(data)] = data


class Disk:
    """The folder of sets: what reads give, and what is durable of its names and of its own."""

    def __init__(self):
        self.files = {}
        self.durable_names = set()
        self.is_there = self.is_durable = False

    def image(self, choose):
        """The files that a crash leaves, where `choose` says what comes of each change and each name."""
        if not self.is_durable and choose("name") == "lost":
            return {}
        left = {}
        for name, file in self.files.items():
            if name not in self.durable_names and choose("name") == "lost":
                continue
            content = bytearray(file.settled)
            for what, at, data in file.pending:
                fate = choose(what)
                if fate == "lost":
                    continue
                part = {"half": data[: len(data) // 2], "junk": bytes(len(data) * [0xA5])}.get(fate, data)
                apply(content, what, at, part)
            left[name] = bytes(content)
        return left

    def contents(self):
        return {name: bytes(file.now) for name, file in self.files.items()}


def choices(dice):
    """Ways to choose: all lost, all kept, halves, junk, and four at random."""
    for fate in ("lost", "kept", "half", "junk"):
        yield lambda what, fate=fate: fate if what == "write" or fate == "lost" else "kept"
    fates = {"write": ["lost", "kept", "half", "junk"], "cut": ["lost", "kept"], "name": ["lost", "kept"]}
    for _ in range(4):
        yield lambda what: dice.choice(fates[what])


def set_of(files):
    """The generation of the set that counts and its files, or nothing: docs/STORE.md, "The slots"."""
    found = []
    for slot in (0, 1):
        manifest = files.get(f"s{slot}_0.img", b"")
        if len(manifest) >= 16 and manifest[0] == 1:
            found.append((int.from_bytes(manifest[8:16], "little"), -slot))
    if not found:
        return None
    generation, slot = max(found)
    manifest = files[f"s{-slot}_0.img"]
    count = min(int.from_bytes(manifest[16:20], "little"), MOST_FILES)
    return generation, [manifest] + [files.get(f"s{-slot}_{i}.img") for i in range(1, count + 1)]


class Watch:
    """Follows the calls of a run or of some in a row, and judges each image."""

    def __init__(self, dice):
        self.dice = dice
        self.disk = Disk()
        self.written = {}
        self.complete = 0
        self.images = 0
        self.opened = {}

    def follow(self, told):
        self.opened = {}
        for line in told.splitlines():
            match = CALL.match(line)
            if match:
                # A call that was not made and yet answered well has done nothing.
                self.take(match[1] if "INJECTED" not in line else "none", match[2], int(match[3]))

    def take(self, call, words, answer):
        getattr(self, f"on_{call}", lambda words, answer: None)(words, answer)
        there = set_of(self.disk.contents())
        if there and None not in there[1]:
            self.written[there[0]] = there[1]
        for choose in choices(self.dice):
            self.judge(self.disk.image(choose))

    def judge(self, image):
        self.images += 1
        found = set_of(image)
        if not found:
            if self.complete:
                raise Wrong(f"no set counts, and generation {self.complete} was complete")
            return
        generation, files = found
        if generation < self.complete:
            raise Wrong(f"generation {generation} counts, and {self.complete} was complete")
        if self.written.get(generation) != files:
            raise Wrong(f"the set of generation {generation} counts and is not whole")

    def on_mkdir(self, _words, answer):
        if answer == 0:
            self.disk.is_there = True

    def on_openat(self, words, answer):
        path = unquoted(words)
        name = NAME.search(path)
        if answer < 0:
            return
        self.opened[answer] = [name[1] if name else path, 0]
        if name and "O_CREAT" in words and name[1] not in self.disk.files:
            self.disk.files[name[1]] = File()

    on_open = on_openat

    def on_close(self, words, _answer):
        self.opened.pop(int(re.match(r"\d+", words)[0]), None)

    def of_call(self, words):
        number = int(re.match(r"\d+", words)[0])
        return number, self.opened.get(number)

    def on_lseek(self, words, answer):
        _, opened = self.of_call(words)
        if opened and answer >= 0:
            opened[1] = answer

    def on_write(self, words, answer):
        number, opened = self.of_call(words)
        data = bytes_in(words)[: max(answer, 0)]
        if number == 2:
            self.complete = max([self.complete, *(int(told) for told in COMPLETE.findall(data))])
        if opened and opened[0] in self.disk.files and answer > 0:
            self.disk.files[opened[0]].change("write", opened[1], data)
            opened[1] += answer

    def on_ftruncate(self, words, answer):
        _, opened = self.of_call(words)
        if opened and opened[0] in self.disk.files and answer == 0:
            self.disk.files[opened[0]].change("cut", int(words.split(", ")[-1]))

    def on_fsync(self, words, answer):
        _, opened = self.of_call(words)
        if not opened or answer != 0:
            return
        path = opened[0]
        if path in self.disk.files:
            self.disk.files[path].sync()
        elif path.rstrip("/.") == "dmtcp_set" and not path.endswith(".."):
            self.disk.durable_names = set(self.disk.files)
        elif path.endswith("dmtcp_set/.."):
            self.disk.is_durable = True

    on_fdatasync = on_fsync


def bytes_in(words):
    text = re.search(r'"((?:\\x[0-9a-f]{2})*)"', words)
    return bytes.fromhex(text[1].replace("\\x", "")) if text else b""


def unquoted(words):
    return bytes_in(words).decode(errors="replace")


class Runs:
    """Runs the program under strace in a folder of its own."""

    def __init__(self, program, place, dice):
        self.program = program
        self.place = place
        self.dice = dice

    def begin(self):
        shutil.rmtree(self.place, ignore_errors=True)
        os.mkdir(self.place)
        for guest in HELLO.files() | HANDLER.files() | SERVER.files():
            shutil.copy(f"{HOME}/examples/{guest}", self.place)
        return Watch(self.dice)

    def run(self, watch, words, inject=None):
        calls = f"{self.place}/calls"
        tracer = ["strace", "-f", "-xx", "-s", "1000000", "-e", TRACED, "-o", calls]
        if inject:
            tracer += ["-e", f"inject=fsync,fdatasync:{inject}"]
        ran = subprocess.run(
            [*tracer, self.program, *words.split()],
            cwd=self.place,
            stdin=subprocess.DEVNULL,
            capture_output=True,
            check=False,
        )
        with open(calls, encoding="ascii") as told:
            text = told.read()
        watch.follow(text)
        return ran.returncode, text

    def one(self, words, inject=None, then=None):
        watch = self.begin()
        status, told = self.run(watch, words, inject)
        if then:
            self.run(watch, then)
        return watch, status, told

    def finds_left_out(self, number):
        """Whether an image is wrong where a call of fsync was left out and answered well."""
        try:
            self.one(LAUNCH, f"retval=0:when={number}")
        except Wrong:
            return True
        return False


LAUNCH = f"launch --every 1 {HELLO.words}"
CUT_OFF = f"launch --every 1 --records 3 {HELLO.words}"
RESTART = "restart --every 1"
SHORTER = f"launch --every 4 {HANDLER.words}"  # its last set is shorter than one before
JOB = f"launch --every 40 {SERVER.words}"
JOB_CUT_OFF = f"launch --every 30 --records 120 {SERVER.words}"
JOB_RESTART = "restart --every 40"
EACH_OF_JOB = 5
SYNC = re.compile(r"\bf(?:data)?sync\(")


@dataclass
class Counts:
    """How many calls of fsync were tried, how many images were made, and how many calls are missed where they
    are left out."""

    syncs: int = 0
    images: int = 0
    missed: int = 0


def try_syncs(runs, words, restart, stride, counts):
    """Tries a launch, and each so-many-th of its calls of fsync, failing, and the last of a killed run."""
    watch, status, told = runs.one(words)
    if status != 0 or not watch.complete:
        raise Wrong(f"{words}: status {status}, generation {watch.complete}")
    counts.images += watch.images
    for number in range(1, len(SYNC.findall(told)) + 1, stride):
        counts.syncs += 1
        counts.images += runs.one(words, f"error=EIO:when={number}")[0].images
        counts.images += runs.one(words, f"signal=KILL:when={number}", restart)[0].images


def try_runs(runs):
    """Tries all runs."""
    counts = Counts()
    for words, restart in ((CUT_OFF, RESTART), (SHORTER, None), (JOB_CUT_OFF, JOB_RESTART)):
        counts.images += runs.one(words, then=restart)[0].images
    try_syncs(runs, LAUNCH, RESTART, 1, counts)
    counts.missed = sum(runs.finds_left_out(number) for number in range(1, counts.syncs + 1))
    try_syncs(runs, JOB, JOB_RESTART, EACH_OF_JOB, counts)
    return counts


def main():
    program = built_program(sys.argv, 1)
    dice = random.Random(int(sys.argv[2]) if len(sys.argv) > 2 else 1)
    with tempfile.TemporaryDirectory() as folder:
        try:
            counts = try_runs(Runs(program, f"{folder}/here", dice))
        except Wrong as wrong:
            print(f"FAILED: {wrong}", file=sys.stderr)
            return 1
    print(
        f"{counts.syncs} calls of fsync, each failing, and each the last of a killed run: {counts.images} images, "
        f"nothing lost; {counts.missed} of the calls are missed where they are left out"
    )
    return 0 if counts.images >= 1000 and counts.missed > 0 else 1


if __name__ == "__main__":
    sys.exit(main())
