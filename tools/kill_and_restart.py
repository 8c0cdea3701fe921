#!/usr/bin/env python3
"""Kills jobs of examples/ at random moments, goes on with each from its last complete set, and at last to
its end.

    tools/kill_and_restart.py [DMTCP [KILLS [SEED]]]

DMTCP is a built program, else crates/dmtcp/out/dmtcp, which `cd crates/dmtcp && rt run -- --version` proves
and builds. Each job is killed KILLS times, else 20.

A call that follows a kill is a restart where a set counts, and else a launch once more. How long it waits
before a kill follows from how long a run takes that is not killed. Where a job comes to its end before all
kills are made it begins anew, without sets. It fails where a set that the log had told complete is lost, or
another one counts than that or the one that was being written; where a call that was not killed ends with
another status than 0; where what the consoles had before the cuts of the sets that restarts went on from,
and from the last restart on, is not what the job writes undisturbed: as it is, or, of a job whose processes
write in turns that a checkpoint may shift, line by line in any order; where a checkpoint is refused; or
where no set was complete before the last kill. """

import random
import sys
import tempfile
import time
from dataclasses import dataclass
from pathlib import Path

from built import built_program
from jobs import BUFFER, BUSY_SERVER, COUNT, PIPELINE, SHELL, THREADS, Folder, Job, Progress, Told, Wrong, check

KILLS = 20
EVERY = {COUNT: 1, PIPELINE: 5, SHELL: 1, BUSY_SERVER: 1, BUFFER: 20, THREADS: 1}  # records of work


@dataclass
class Counts:
    """What was done with a job."""

    kills: int = 0
    restarts: int = 0
    complete: int = 0
    untold: int = 0
    ends: int = 0


class Kills:
    """A job that is killed again and again in a folder."""

    def __init__(self, folder: Folder, job: Job, rng: random.Random) -> None:
        self.folder, self.job, self.rng = folder, job, rng
        self.options = ["--every", str(EVERY[job])]
        self.counts = Counts()
        self.whole, self.seconds = self.undisturbed()
        self.begin()

    def launch(self) -> list[str]:
        return ["launch", *self.options, *self.job.words.split()]

    def undisturbed(self) -> tuple[bytes, float]:
        """The job's console, and how many seconds it takes with its checkpoints."""
        self.folder.begin(self.job)
        told = self.folder.run(["launch", *self.job.words.split()])
        check(told.status == 0, f"undisturbed it ends with {told.status}: {told.log}")
        begun = time.monotonic()
        check(self.folder.run(self.launch()).status == 0, "with checkpoints it does not come to its end")
        return told.console, time.monotonic() - begun

    def begin(self) -> None:
        """Begins the job anew, without sets."""
        self.folder.begin(self.job)
        self.words = self.launch()
        self.progress = Progress(self.folder, self.job, self.whole)

    def note(self, told: Told) -> None:
        """What a call has come to, and the words of the next one."""
        self.counts.complete += sum(" complete: " in line for line in told.log)
        check(not any(" refused: " in line for line in told.log), f"a checkpoint is refused: {told.log}")
        self.progress.note(told, self.folder.records())
        if told.status == 0:
            self.progress.check_end(told)
            self.counts.ends += 1
            self.begin()
            return
        complete = self.progress.complete
        self.words = self.launch()
        if self.progress.can_restart():
            self.counts.untold += self.progress.complete != complete
            self.words = ["restart", *self.options]

    def run(self, kills: int) -> None:
        """Kills it so many times, and lets it come to its end."""
        while self.counts.kills < kills:
            self.counts.restarts += self.words[0] == "restart"
            told = self.folder.run_and_kill(self.words, self.rng.uniform(0, 3 * self.seconds / kills))
            check(told.status in (0, -9), f"{' '.join(self.words)} ends with {told.status}: {told.log}")
            self.counts.kills += told.status != 0
            self.note(told)
        check(self.counts.complete, f"no set was complete at any of {kills} kills")
        self.counts.restarts += self.words[0] == "restart"
        self.note(self.folder.run(self.words))


def main() -> int:
    """Tries all jobs."""
    program = built_program(sys.argv, 1)
    kills = int(sys.argv[2]) if len(sys.argv) > 2 else KILLS
    seed = int(sys.argv[3]) if len(sys.argv) > 3 else random.randrange(1 << 32)
    failures = 0
    with tempfile.TemporaryDirectory() as name:
        for job in EVERY:
            try:
                trial = Kills(Folder(Path(name) / "here", program), job, random.Random(seed))
                trial.run(kills)
                did = trial.counts
                print(f"{' '.join(trial.launch())}: {did.kills} kills, {did.restarts} restarts, {did.complete} complete "
                      f"sets, {did.untold} of them not told, {did.ends} times to its end, nothing missing", flush=True)
            except Wrong as wrong:
                failures += 1
                print(f"FAILED: {job.words}, seed {seed}: {wrong}", flush=True)
    return 1 if failures else 0


if __name__ == "__main__":
    sys.exit(main())
