"""What a guest tells of itself on the console: blocks of records, each of a tag and a value.

A block is a magic word, its length in bytes, the thread's checksum, the thread's area, and its records. A tag is a kind
in its upper byte, a variant in the next, and a number in its lower half.
"""

import enum
import struct
from dataclasses import dataclass

MAGIC = 0x7C90E57F
BLOCK_HEADER = 16
LONGEST_BLOCK = 1024


class Tag(enum.IntEnum):
    """The kind of a record: the answer of a call, or a place that was passed."""

    CALL = 1
    MARK = 2


class Mark(enum.IntEnum):
    """A place of a guest that was passed, with a value."""

    HANDLED = 1  # a handler began; the value's lowest 5 bits are the signal
    ASKED_BREAK = 2  # the next record is the answer of a brk that asked for this break
    PASSED_TRAP = 3  # goes on behind a trap; the value is its signal
    PASSED_IGNORED = 4  # goes on behind a signal that is ignored
    PASSED_BLOCKED = 5  # goes on behind a signal that is blocked
    WAKES = 6  # a waiting thread's signal was sent by another one
    RETURNED = 7  # goes on behind a handler that returned
    DEADLY = 8  # what comes next is to end the process; the value is a Death
    BREAKS_OUT = 9  # a handler goes on elsewhere and doesn't return
    REWRITTEN = 10  # code that was rewritten has run
    DEEP = 11  # so many handlers are entered inside each other
    CROWD = 12  # so many threads could be made
    ORDER = 13  # the how-manieth thread to be woken this one is
    OUTLIVES = 14  # a thread goes on though the first one has ended
    FILLED = 15  # so many pages were mapped before none was left
    LEAVES = 16  # the thread ends by exit
    ENDS_ALL = 17  # the thread ends the process
    WAITS_FOR_EVER = 18  # the thread waits, and nobody is to wake it
    LOOPED = 19  # a loop of so many rounds has ended
    INTERRUPTED = 20  # a waiting thread was interrupted; the value is the answer of its call
    CLEARED = 21  # a thread was woken by the end of another one
    RESTARTED = 22  # a handler's flags have the interrupted call begin again
    PASSED_DUE = 23  # goes on behind a trap at which the same signal was pending
    ODD_HANDLER = 24  # goes on behind a handler whose address is no multiple of 4
    RETURN_PAGE = 25  # goes on behind a jump to the page to which handlers return
    CLONED = 26  # a thread that a handler made begins
    FORKED = 27  # a child begins


class Death(enum.IntEnum):
    """How a process is to end by a signal."""

    BY_DEFAULT = 1
    BY_KILL = 2
    TRAP_BY_DEFAULT = 3
    TRAP_MASKED = 4
    TRAP_IGNORED = 5
    TOO_DEEP = 6
    BAD_HANDLER = 7
    BY_OTHER = 8


class Futex(enum.IntEnum):
    """The variant of a futex call's record."""

    WAIT = 1
    WAKE = 2
    OTHER = 3


def tag_of(kind: Tag, number: int, variant: int = 0) -> int:
    return kind << 24 | variant << 16 | number


@dataclass
class Told:
    """One record of a block."""

    kind: int
    variant: int
    number: int
    value: int


def told_on(console: bytes) -> list[Told]:
    """The records of all blocks, in the order in which they were written."""
    found: list[Told] = []
    at = console.find(struct.pack("<I", MAGIC))
    while at >= 0:
        found += _block_at(console, at)
        at = console.find(struct.pack("<I", MAGIC), at + 4)
    return found


def _block_at(console: bytes, at: int) -> list[Told]:
    if at + BLOCK_HEADER > len(console):
        return []
    _, length, _, _ = struct.unpack_from("<4I", console, at)
    if not BLOCK_HEADER <= length <= LONGEST_BLOCK or at + length > len(console):
        return []
    pairs = struct.iter_unpack("<2I", console[at + BLOCK_HEADER:at + length - length % 8])
    return [Told(tag >> 24, tag >> 16 & 0xFF, tag & 0xFFFF, value) for tag, value in pairs]
