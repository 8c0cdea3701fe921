"""The trace and its records (docs/FORMATS.md, "The trace")."""

import struct
from dataclasses import dataclass, field
from enum import IntEnum

from .objects import DirectionName


class Kind(IntEnum):
    """The kinds of records."""

    USER = 1
    CALL = 2
    DELIVER = 3
    ARRIVE = 4
    CUT = 5
    DRAINED = 6
    REFILLED = 7
    COMPLETE = 8
    REFUSED = 9
    LAPSED = 10


WORK = frozenset({Kind.USER, Kind.CALL, Kind.DELIVER})
RECORD_BYTES = 16
RECORD_FORM = "<BBHIII"


@dataclass(frozen=True)
class Record:
    """One event; fields that it does not name are 0."""

    kind: Kind
    x: int = 0
    fd: int = 0
    a: int = 0
    b: int = 0
    n: int = 0

    def encode(self) -> bytes:
        """16 bytes, each number with its least significant byte first."""
        return struct.pack(RECORD_FORM, self.kind, self.x, self.fd, self.a, self.b, self.n)


class BadRecord(Exception):
    """Bytes of a trace that spell no record."""

    def __init__(self, place: int) -> None:
        super().__init__(place)
        self.place = place


# By kind, the fields that a record names; those of Refused hang on its x.
NAMED_FIELDS = {
    Kind.USER: "abn",
    Kind.CALL: "ab",
    Kind.DELIVER: "xab",
    Kind.ARRIVE: "xabn",
    Kind.CUT: "bn",
    Kind.DRAINED: "xabn",
    Kind.REFILLED: "xabn",
    Kind.COMPLETE: "bn",
    Kind.LAPSED: "",
}
UNSUPPORTED, DISK_FAULT, WANT_OF_MEMORY = 1, 2, 3
DATAGRAM_PAIR, EVENT_COUNTER = 5, 6


def _is_refusal(fields: dict[str, int]) -> bool:
    """A refusal for a descriptor that no image holds names it and its kind, the others name nothing."""
    if fields["x"] == UNSUPPORTED:
        return fields["n"] == 0 and fields["b"] in (DATAGRAM_PAIR, EVENT_COUNTER)
    return fields["x"] in (DISK_FAULT, WANT_OF_MEMORY) and not any(fields[name] for name in ("fd", "a", "b", "n"))


def _is_spelled(kind: int, fields: dict[str, int]) -> bool:
    """Whether a record has these fields."""
    if kind == Kind.REFUSED:
        return _is_refusal(fields)
    if kind not in NAMED_FIELDS or (kind == Kind.DELIVER and not 1 <= fields["x"] <= 31):
        return False
    return all(name in NAMED_FIELDS[Kind(kind)] for name, value in fields.items() if value)


def read_record(data: bytes, place: int) -> Record:
    """The record at a place of a trace; raises where its bytes spell none."""
    piece = data[place : place + RECORD_BYTES]
    if len(piece) < RECORD_BYTES:
        raise BadRecord(place)
    kind, x, fd, a, b, n = struct.unpack(RECORD_FORM, piece)
    if not _is_spelled(kind, {"x": x, "fd": fd, "a": a, "b": b, "n": n}):
        raise BadRecord(place)
    return Record(Kind(kind), x, fd, a, b, n)


def user(process: int, thread: int, count: int) -> Record:
    """So many instructions."""
    return Record(Kind.USER, a=process, b=thread, n=count)


def call(process: int, thread: int) -> Record:
    """A call that is served."""
    return Record(Kind.CALL, a=process, b=thread)


def delivery(process: int, thread: int, signal: int) -> Record:
    """A signal that is delivered."""
    return Record(Kind.DELIVER, x=signal, a=process, b=thread)


def moved(kind: Kind, direction: DirectionName, count: int) -> Record:
    """So many bytes of a direction that have arrived, or that were drained or refilled."""
    channel = direction.channel
    return Record(kind, x=direction.side, a=channel.pid, b=channel.num, n=count)


def mark(kind: Kind, generation: int = 0) -> Record:
    """A mark, with the two halves of a generation."""
    return Record(kind, b=generation & 0xFFFFFFFF, n=generation >> 32)


@dataclass
class Trace:
    """Records in the room that was reserved for them."""

    room: int
    count: int = 0
    data: bytearray = field(default_factory=bytearray)

    def is_full(self) -> bool:
        """Whether no record fits any more."""
        return self.count >= self.room

    def append(self, record: Record) -> bool:
        """Puts a record at the end; false where it is full."""
        if self.is_full():
            return False
        self.data += record.encode()
        self.count += 1
        return True
