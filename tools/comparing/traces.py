"""The records of a trace, in words."""

import struct
from dataclasses import dataclass

from model.trace import RECORD_BYTES, RECORD_FORM, Kind


@dataclass
class Record:
    """A record's fields, whatever they hold."""

    kind: int
    x: int
    fd: int
    a: int
    b: int
    n: int

    def __str__(self) -> str:
        name = Kind(self.kind).name.capitalize() if self.kind in list(Kind) else f"kind {self.kind}"
        return f"{name}(x {self.x}, fd {self.fd}, a {self.a}, b {self.b}, n {self.n})"


def records_of(trace: bytes) -> list[Record]:
    """The records. A rest that is too short for one is left out."""
    whole = len(trace) - len(trace) % RECORD_BYTES
    return [Record(*fields) for fields in struct.iter_unpack(RECORD_FORM, trace[:whole])]


def first_difference(ours: bytes, theirs: bytes, names: tuple[str, str]) -> str:
    """Says which record is the first to differ, and what stands around it, of two traces of these names."""
    mine, other = records_of(ours), records_of(theirs)
    lengths = f"{len(mine)} and {len(other)} records"
    for at, (a, b) in enumerate(zip(mine, other)):
        if a != b:
            before = f" after {mine[at - 1]}" if at else ""
            return f"record {at} of {lengths}: {names[0]} {a}, {names[1]} {b}{before}"
    if len(ours) == len(theirs):
        return "the bytes behind the last record"
    longer, whose = (mine, names[0]) if len(mine) > len(other) else (other, names[1])
    shorter = min(len(mine), len(other))
    after = f" after {longer[shorter - 1]}" if shorter else ""
    further = f": the {whose} goes on with {longer[shorter]}{after}" if shorter < len(longer) else ""
    return f"{lengths}{further}"
