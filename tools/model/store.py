"""The folder of sets: slots, manifests, which set counts (docs/STORE.md; docs/FORMATS.md, "Manifest", "Whole sets")."""

from dataclasses import dataclass
from functools import partial
from typing import Callable, TypeVar

from .read_process import read_process
from .read_shared import read_shared
from .reader import Damage, Reader
from .state import Machine

SLOTS = (0, 1)
OPEN_GATE = 1
MAGIC = b"DMTSET1"
COUNT_LIMIT = 129
HEAD_SIZE = 16
SHARED = 1
"""The file of a set that holds what all processes share; those behind it are the processes' own."""
Value = TypeVar("Value")


class SetDamaged(Exception):
    """The first damage of the set that counts."""

    def __init__(self, slot: int, file: int, offset: int) -> None:
        super().__init__(slot, file, offset)
        self.slot = slot
        self.file = file
        self.offset = offset


@dataclass(frozen=True)
class Counting:
    """The set that counts: where it lies, and its generation."""

    slot: int
    generation: int


def file_name(slot: int, index: int) -> str:
    """A file of a slot."""
    return f"s{slot}_{index}.img"


def write_manifest(generation: int, lengths: list[int]) -> bytes:
    """File 0 of a set."""
    out = bytes([OPEN_GATE]) + MAGIC + generation.to_bytes(8, "little")
    out += len(lengths).to_bytes(4, "little")
    return out + b"".join(length.to_bytes(8, "little") for length in lengths)


def read_manifest(data: bytes) -> list[int]:
    """The lengths of the files that a manifest names; raises its first damage."""
    reader = Reader(data)
    reader.byte(lambda value: value == OPEN_GATE)
    reader.magic(MAGIC)
    reader.number(8)
    count = reader.word(lambda value: 1 <= value <= COUNT_LIMIT)
    lengths = [reader.number(8) for _ in range(count)]
    reader.end()
    return lengths


@dataclass
class Store:
    """The files of the folder by name."""

    files: dict[str, bytes]

    def content(self, slot: int, index: int) -> bytes:
        """A file's bytes; one that is not there has none."""
        return self.files.get(file_name(slot, index), b"")

    def counting(self) -> Counting | None:
        """The set that counts: the greatest generation behind an open gate, the lower slot on a tie."""
        best: Counting | None = None
        for slot in SLOTS:
            head = self.content(slot, 0)[:HEAD_SIZE]
            if len(head) < HEAD_SIZE or head[0] != OPEN_GATE:
                continue
            generation = int.from_bytes(head[8:], "little")
            if best is None or generation > best.generation:
                best = Counting(slot, generation)
        return best

    def put_set(self, images: list[bytes]) -> None:
        """Writes the slot that does not hold the set that counts; its other files stay."""
        before = self.counting()
        slot = 0 if before is None else 1 - before.slot
        generation = 1 if before is None else before.generation + 1
        for index, image in enumerate(images, start=1):
            self.files[file_name(slot, index)] = image
        self.files[file_name(slot, 0)] = write_manifest(generation, [len(image) for image in images])

    def get_machine(self, slot: int) -> Machine:
        """The state that a slot's set spells; raises the first damage."""
        lengths = self._read(slot, 0, read_manifest)
        for index, length in enumerate(lengths, start=1):
            found = len(self.content(slot, index))
            if found != length or file_name(slot, index) not in self.files:  # missing, also where it should have no byte
                raise SetDamaged(slot, index, min(found, length))
        machine = self._read(slot, SHARED, read_shared)
        if len(lengths) != 1 + len(machine.processes):
            raise SetDamaged(slot, SHARED, len(self.content(slot, SHARED)))
        for index, number in enumerate(sorted(machine.processes), start=SHARED + 1):
            self._read(slot, index, partial(read_process, process=machine.processes[number]))
        return machine

    def _read(self, slot: int, index: int, read: Callable[[bytes], Value]) -> Value:
        """Reads a file; damage in it is told with its place in the set."""
        try:
            return read(self.content(slot, index))
        except Damage as damage:
            raise SetDamaged(slot, index, damage.offset) from damage
