"""Sets in which little is left of something that has a limit (docs/MACHINE.md, "Limits"): they spell states all the same,
in which calls are refused."""

import random
import struct
from collections.abc import Callable

from comparing.set_fields import Entries, Field, shared_fields
from model.read_shared import read_shared
from model.reader import Damage

DESCRIPTORS, FILES, PROCESSES = 256, 1024, 128
LAST_MADE, LAST_NUMBER, LAST_FILE = 2**32 - 4, 2**31 - 1, 2**32 - 1
Change = Callable[[random.Random, bytes], bytes]


def value_of(content: bytes, one: Field) -> int:
    """What a field holds."""
    return int.from_bytes(content[one.at:one.at + one.size], "little")


def with_value(content: bytes, one: Field, value: int) -> bytes:
    """The same with another number in a field."""
    return content[:one.at] + value.to_bytes(one.size, "little") + content[one.at + one.size:]


def named(content: bytes, name: str) -> list[Field]:
    """All fields of a name."""
    return [field for field in shared_fields(content).fields if field.name == name]


def lists_of(content: bytes, name: str) -> list[Entries]:
    """All lists of entries of a name."""
    return [entries for entries in shared_fields(content).lists if entries.name == name]


def with_entries(content: bytes, entries: Entries, pieces: list[bytes]) -> bytes:
    """The same with other entries in a list."""
    start = entries.count_at + 4
    end = entries.entries[-1][1] if entries.entries else start
    return content[:entries.count_at] + len(pieces).to_bytes(4, "little") + b"".join(pieces) + content[end:]


def pieces_of(content: bytes, entries: Entries) -> list[bytes]:
    """The bytes of a list's entries."""
    return [content[start:end] for start, end in entries.entries]


def full_descriptors(rng: random.Random, content: bytes) -> bytes:
    """A process has all descriptors but some, the further ones for one of its descriptions."""
    tables = [entries for entries in lists_of(content, "descriptor") if entries.entries]
    if not tables:
        return content
    table = rng.choice(tables)
    held = {int.from_bytes(piece[:4], "little"): piece for piece in pieces_of(content, table)}
    free = [number for number in range(DESCRIPTORS) if number not in held]
    more = rng.choice(list(held.values()))
    for number in free[:max(0, len(free) - rng.choice([0, 0, 1, 2]))]:
        held[number] = number.to_bytes(4, "little") + more[4:]
    return with_entries(content, table, [held[number] for number in sorted(held)])


def last_made(rng: random.Random, content: bytes) -> bytes:
    """A process has few numbers left for what it makes."""
    made = rng.choice(named(content, "process.made"))
    return with_value(content, made, LAST_MADE - rng.choice([0, 0, 1, 2, -1]))


def many_files(rng: random.Random, content: bytes) -> bytes:
    """There are as many files as there may be, or one less."""
    files, next_file = lists_of(content, "file")[0], named(content, "next_file")[0]
    pieces, first = pieces_of(content, files), value_of(content, next_file)
    missing = min(FILES - len(pieces) - rng.choice([0, 0, 1]), LAST_FILE - first)
    for number in range(first, first + missing):
        name = b"more%d" % number
        pieces.append(struct.pack("<IH", number, len(name)) + name + bytes(4))
    return with_value(with_entries(content, files, pieces), next_file, first + max(0, missing))


def many_zombies(rng: random.Random, content: bytes) -> bytes:
    """There are as many processes as there may be, or one less: the further ones have ended and are a live one's."""
    processes, next_id = lists_of(content, "process")[0], named(content, "next_id")[0]
    pieces, first = pieces_of(content, processes), value_of(content, next_id)
    live = [piece for piece in pieces if piece[16] == 0]
    if not live:
        return content
    parent = rng.choice(live)
    missing = min(PROCESSES - len(pieces) - rng.choice([0, 0, 1]), LAST_NUMBER - first)
    for number in range(first, first + missing):
        head = struct.pack("<I", number) + parent[:4] + parent[8:12] + struct.pack("<I", rng.randrange(9))
        pieces.append(head + b"\1" + struct.pack("<IIII", rng.randrange(256) << 8, 0, 0, 0))
    return with_value(with_entries(content, processes, pieces), next_id, first + max(0, missing))


CHANGES: list[Change] = [full_descriptors, full_descriptors, last_made, many_files, many_zombies]


def somebody_lives(content: bytes) -> bool:
    """Whether a shared image spells a state in which a process lives."""
    try:
        return bool(read_shared(content).processes)
    except Damage:
        return False


def crowded(rng: random.Random, content: bytes) -> bytes:
    """The shared image of a state in which little is left of something; one that is damaged stays as it is."""
    return rng.choice(CHANGES)(rng, content) if somebody_lives(content) else content
