"""The words of the command line (docs/CLI.md)."""

from dataclasses import dataclass
from enum import Enum

DEFAULT_RECORDS = 1_000_000
NAME_LIMIT = 255
ARGUMENTS_LIMIT = 4_096
PROGRAMS_LIMIT = 128
FILES_LIMIT = 64
HOSTS = {str(host): host for host in range(16)}
EVERY, RECORDS, FILE, NODES, WORKERS = "--every", "--records", "--file", "--nodes", "--workers"
SHIFT, PID_BASE, PORT_BASE = "--shift", "--pid-base", "--port-base"
RANGES = {
    EVERY: range(1, 4_000_001),
    RECORDS: range(1, 4_000_001),
    NODES: range(1, 17),
    WORKERS: range(1),
    SHIFT: range(16),
    PID_BASE: range(1, 1_000_000_001),
    PORT_BASE: range(1_024, 57_345),
}
"""Of `--workers` the only number that is built."""
DIGITS = set("0123456789")


class Usage(Exception):
    """The words are none of the command line's."""


class Verb(Enum):
    """The commands."""

    LAUNCH = "launch"
    RESTART = "restart"
    RING = "ring"
    HELP = "help"


OPTIONS = {
    Verb.LAUNCH: {EVERY, RECORDS, FILE, NODES, WORKERS},
    Verb.RESTART: {EVERY, RECORDS, NODES, WORKERS, SHIFT, PID_BASE, PORT_BASE},
    Verb.RING: {EVERY, WORKERS},
    Verb.HELP: set(),
}
DEFAULTS_OF_EVERY = {Verb.RING: 1_000}
"""Without it there are no checkpoints."""
PROCESSES_OF_RING = {str(count): count for count in range(2, 17)}


@dataclass(frozen=True)
class Program:
    """A program that is launched: its host, its name and its arguments."""

    host: int
    name: str
    arguments: tuple[str, ...]


@dataclass(frozen=True)
class Command:
    """What the words ask for."""

    verb: Verb
    every: int | None
    records: int
    files: tuple[str, ...] = ()
    programs: tuple[Program, ...] = ()
    processes: int = 0
    """Of a ring."""


def _number(option: str, word: str) -> int:
    """A number in the option's range, in decimal with no sign and no leading zero."""
    plain = word and set(word) <= DIGITS and len(word) <= len(str(RANGES[option].stop))
    if not plain or word != str(int(word)) or int(word) not in RANGES[option]:
        raise Usage
    return int(word)


def _options(verb: Verb, words: list[str]) -> dict[str, list[str]]:
    """The values of the options at the beginning; each but `--file` stands there at most once."""
    found: dict[str, list[str]] = {}
    place = 0
    while place < len(words) and words[place] in OPTIONS[verb]:
        if place + 1 == len(words) or (words[place] in found and words[place] != FILE):
            raise Usage
        found.setdefault(words[place], []).append(words[place + 1])
        place += 2
    return found


def _named(name: str) -> str:
    """A name of 1 to 255 bytes."""
    if not 1 <= len(name.encode()) <= NAME_LIMIT:
        raise Usage
    return name


def _files(names: list[str]) -> tuple[str, ...]:
    """At most 64 distinct names of files."""
    if len(names) > FILES_LIMIT or len(set(names)) < len(names):
        raise Usage
    return tuple(_named(name) for name in names)


def _program(word: str) -> Program:
    """A host, and behind a colon a program's name and its arguments."""
    host, colon, rest = word.partition(":")
    if not colon or host not in HOSTS:
        raise Usage
    name, *arguments = rest.split(",")
    if sum(len(one.encode()) + 1 for one in (name, *arguments)) > ARGUMENTS_LIMIT:
        raise Usage
    return Program(HOSTS[host], _named(name), tuple(arguments))


def _processes(word: str) -> int:
    """2 to 16 processes of a ring, as a number is written."""
    if word not in PROCESSES_OF_RING:
        raise Usage
    return PROCESSES_OF_RING[word]


def _programs(verb: Verb, words: list[str]) -> tuple[Program, ...]:
    """1 to 128 programs of a launch, none of another command."""
    counts = range(1, PROGRAMS_LIMIT + 1) if verb is Verb.LAUNCH else range(1)
    if len(words) not in counts:
        raise Usage
    return tuple(_program(word) for word in words)


def _numbers(verb: Verb, options: dict[str, list[str]], programs: tuple[Program, ...]) -> dict[str, int]:
    """The numbers of the options; each program of a launch is on one of its nodes."""
    numbers = {name: _number(name, words[0]) for name, words in options.items() if name != FILE}
    if verb is Verb.LAUNCH and NODES in numbers and any(one.host >= numbers[NODES] for one in programs):
        raise Usage
    return numbers


def _test_text(words: list[str]) -> None:
    """Each word is in UTF-8 and has no zero byte."""
    try:
        if b"\0" in "".join(words).encode():
            raise Usage
    except UnicodeEncodeError:
        raise Usage from None


def read_words(words: list[str]) -> Command:
    """The command that the words spell."""
    _test_text(words)
    if not words or words[0] not in (verb.value for verb in Verb):
        raise Usage
    verb, rest = Verb(words[0]), words[1:]
    processes = _processes(rest.pop(0) if rest else "") if verb is Verb.RING else 0
    options = _options(verb, rest)
    taken = 2 * sum(len(values) for values in options.values())
    programs = _programs(verb, rest[taken:])
    numbers = _numbers(verb, options, programs)
    every = numbers.get(EVERY, DEFAULTS_OF_EVERY.get(verb))
    records = numbers.get(RECORDS, DEFAULT_RECORDS)
    return Command(verb, every, records, _files(options.get(FILE, [])), programs, processes)
