"""A random job: several programs on some hosts, with files."""

import random
from dataclasses import dataclass

from guests.builder import FIRST_PROCESS, Place
from guests.program import THEMES_OF_JOBS, make_guest

PORTS = [80, 81, 40_000]
FILE_NAMES = ["a", "b", "text"]


@dataclass
class Job:
    """The files of the current folder, and the words behind the options: `--file` and programs."""

    files: dict[str, bytes]
    words: list[str]


def make_job(rng: random.Random) -> Job:
    """The job that this source of numbers makes."""
    hosts = [rng.choice([0, 0, 1, 3, 15]) for _ in range(rng.choice([1, 1, 2, 2, 3, 4]))]
    servers = tuple((host, rng.choice(PORTS)) for host in hosts)
    named = rng.sample(FILE_NAMES, rng.choice([0, 0, 1, 2, 3]))
    files = {name: rng.randbytes(rng.choice([0, 1, 100, 5000])) for name in named}
    words = [word for name in named for word in ("--file", name)]
    for index, host in enumerate(hosts):
        name = f"g{index}.elf"
        files[name] = make_guest(rng, Place(FIRST_PROCESS + index, host, servers), THEMES_OF_JOBS).file
        words.append(f"{host}:{name}" + rng.choice(["", "", ",x", ",one,,three"]))
    return Job(files, words)
