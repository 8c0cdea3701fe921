#!/usr/bin/env python3
"""Times how long a set takes on the host's disk, beside a plain write and fsync of the same files.

The built program runs a stored guest, which runs for ever, with a checkpoint after each record of work; the
time of its sets is that from the log's line of the first to that of the last, so that the records and the
images that are made of the process are in it. In another run the time of the store alone is taken, from a
set's first call of fsync to the end of its last, which `strace` tells. Then the files of the last set are
written as often, by one call of write each over those of two turns before, and each is synced by one call of
fsync. The three take turns, so that all meet the same disk.

Usage: bench/sets.py [ROUNDS [GUEST..]]

It wants `strace`, and crates/dmtcp/out/dmtcp, which `cd crates/dmtcp && rt run -- --version` proves and builds, or another
program of the same words in DMTCP; and TMPDIR on the disk that is meant.
"""
import os
import re
import shutil
import statistics
import subprocess
import sys
import tempfile
import time
from pathlib import Path

HERE = Path(__file__).resolve().parent
PROGRAM = os.path.realpath(os.environ.get("DMTCP", HERE / "../crates/dmtcp/out/dmtcp"))
SETS = 20
SLOTS = 2
SPENT = 18  # the status of a run that `--records` ends
SYNC = re.compile(r"(\d+\.\d+) fsync\(.*<(\d+\.\d+)>$", re.M)
SYNCS = 5  # of a set whose files are there: the gate, its three files, the gate


def words_of(guest):
    """What is run: of each set one record is work, one its cut and one its outcome."""
    return [PROGRAM, "launch", "--every", "1", "--records", str(3 * (SETS + 1)), f"0:{guest}.elf"]


def time_sets(folder, guest):
    """Milliseconds of a set, of those of a run behind its first."""
    times, lines = [], []
    with subprocess.Popen(words_of(guest), cwd=folder, stderr=subprocess.PIPE, bufsize=0) as run:
        for line in run.stderr:
            times.append(time.perf_counter())
            lines.append(line.decode().strip())
    wrong = [line for line in lines[:-1] if " complete: " not in line]
    if run.returncode != SPENT or wrong or len(lines) != SETS + 2:
        sys.exit(f"{guest}: status {run.returncode}: {wrong or lines}")
    return 1000 * (times[SETS] - times[0]) / SETS


def time_store(folder, guest):
    """Milliseconds of the store's part of a set, of those of a run, where the slots have their files."""
    tracer = ["strace", "-f", "--seccomp-bpf", "-ttt", "-T", "-e", "trace=fsync", "-o", "calls"]
    subprocess.run([*tracer, *words_of(guest)], cwd=folder, stderr=subprocess.DEVNULL, check=False)
    syncs = [(float(begun), float(lasted)) for begun, lasted in SYNC.findall((folder / "calls").read_text())]
    own = syncs[len(syncs) - SYNCS * SETS :]
    sets = zip(own[::SYNCS], own[SYNCS - 1 :: SYNCS])
    return 1000 * sum(last + lasted - first for (first, _), (last, lasted) in sets) / SETS


def files_of_last_set(folder):
    """The contents of the files in the slot of the greater generation, the manifest last, as a set has it."""
    slots = []
    for slot in range(SLOTS):
        paths = sorted(folder.glob(f"dmtcp_set/s{slot}_*.img"))
        slots.append([path.read_bytes() for path in paths])
    last = max(slots, key=lambda files: int.from_bytes(files[0][8:16], "little"))
    return [*last[1:], last[0]]


def write_plainly(folder, turn, files):
    """Writes and syncs these files."""
    for index, content in enumerate(files):
        file = os.open(folder / f"plain{turn % SLOTS}_{index}", os.O_WRONLY | os.O_CREAT | os.O_TRUNC, 0o600)
        os.write(file, content)
        os.fsync(file)
        os.close(file)


def time_plain(folder, files):
    """Milliseconds of writing and syncing these files."""
    begun = time.perf_counter()
    for turn in range(SETS):
        write_plainly(folder, turn, files)
    return 1000 * (time.perf_counter() - begun) / SETS


def compare(folder, guest, rounds):
    """Prints the times of both, and how fast a set is beside the plain files."""
    shutil.copy(HERE / f"{guest}.elf", folder)
    sets, stores, plain = [], [], []
    for _ in range(rounds):
        sets.append(time_sets(folder, guest))
        stores.append(time_store(folder, guest))
        files = files_of_last_set(folder)
        plain.append(time_plain(folder, files))
    print(f"{guest}: {sum(len(content) for content in files):,} bytes")
    for name, times in (("a set", sets), ("the store alone", stores), ("plain files", plain)):
        middle = statistics.median(times)
        speed = f"{statistics.median(plain) / middle:.2f} of the plain speed, {sum(plain) / sum(times):.2f} over all"
        print(f"    {name}: {middle:.1f} ms in the middle round, {min(times):.1f} ms in the fastest; {speed}", flush=True)


def main():
    rounds = int(sys.argv[1]) if len(sys.argv) > 1 else 10
    for guest in sys.argv[2:] or ["loop", "sweep"]:
        with tempfile.TemporaryDirectory() as folder:
            compare(Path(folder), guest, rounds)


if __name__ == "__main__":
    main()
