"""The shared images that tools/set_cases tries, each with its case, as sets."""

import sys
from collections.abc import Iterator
from dataclasses import dataclass
from pathlib import Path

sys.path.append(str(Path(__file__).parents[1] / "set_cases"))

from bases import with_user_parts
from cases import Case, all_cases
from edits import Edit, edited
from model.read_shared import read_shared
from model.reader import Damage
from model.store import file_name, write_manifest

REPEATED = "*"
SLOT, GENERATION = 0, 7


@dataclass(frozen=True)
class WorkedSet:
    """The files of a set behind its manifest, by the case that they are of."""

    case: str
    files: list[bytes]

    def sets(self) -> dict[str, bytes]:
        """The folder of sets that has this one."""
        manifest = write_manifest(GENERATION, [len(file) for file in self.files])
        return {file_name(SLOT, index): file for index, file in enumerate([manifest, *self.files])}


def _unspelled(words: list[str]) -> bytes:
    """The bytes that a case's words are."""
    found = b""
    for word in words:
        count, repeated, digits = word.rpartition(REPEATED)
        found += bytes.fromhex(digits) * (int(count) if repeated else 1)
    return found


def _edit(word: str) -> Edit:
    place, count, digits = word.split(":")
    return Edit(int(place), int(count), bytes.fromhex(digits))


def _turned(base: bytes, bits: int) -> Iterator[bytes]:
    for at, byte in enumerate(base):
        yield base[:at] + bytes([byte ^ bits]) + base[at + 1 :]


def _with_numbers(base: bytes, field: str, values: list[str]) -> Iterator[bytes]:
    place, size = map(int, field.split(":"))
    for value in values:
        yield base[:place] + int(value).to_bytes(size, "little") + base[place + size :]


def _images(case: Case, base: bytes) -> Iterator[bytes]:
    """The shared images of a case that edits one."""
    kind, *words = case.how.split(" ")
    match kind:
        case "bytes":
            yield _unspelled(words)
        case "with":
            yield edited(base, [_edit(word) for word in words])
        case "fronts":
            yield from (base[:length] for length in range(len(base)))
        case "turn":
            yield from _turned(base, int(words[0], 16))
        case "field":
            yield from _with_numbers(base, words[0], words[1:])
        case "kernel":
            yield base
        case _:
            raise ValueError(f"no kind of case is called {kind}")


def with_images(shared: bytes, others: list[bytes]) -> list[bytes]:
    """A shared image with images of the processes that live there, or with others where it spells none."""
    try:
        return [shared, *with_user_parts(read_shared(shared))]
    except (Damage, IndexError):  # it is damaged, or nobody lives
        return [shared, *others]


def worked_sets() -> Iterator[WorkedSet]:
    """All of them."""
    base, images = b"", []
    for case in all_cases():
        kind, *words = case.how.split(" ")
        if kind == "set":
            pieces = " ".join(words).split(" / ")
            yield WorkedSet(case.name, [base, *(_unspelled(piece.split()) for piece in pieces)])
            continue
        for shared in _images(case, base):
            if kind == "bytes":
                base, images = shared, with_user_parts(read_shared(shared))
            yield WorkedSet(case.name, with_images(shared, images))
