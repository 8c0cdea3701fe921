"""Where a guest's segments lie: its text, its data, and a strip of pages with all sorts of rights side by side."""

import enum
import random
from dataclasses import dataclass

from riscv import NOP, Segment, immediate_word, jalr_word, words_of

PAGE = 4096
HEAP_END, MAPPINGS, MAPPINGS_END = 0x40000000, 0x40000000, 0x70000000
STACK, STACK_END, RETURN_PAGE_END = 0x7FFC0000, 0x80000000, 0x80001000
TEXT_ROOM, DATA_BYTES = 0x18000, 0x5F80
LINK = 5  # the register that holds the way back from a routine
STRIP_ALWAYS: list[int | None] = [7, None]  # the rights of the strip's pages; None: no page
STRIP_MORE: list[int | None] = [4, 6, 2, 1, 5, 6, 0, None, 5, 7]
ODD_RIGHTS = [3, 7, 12, 0xFFFFFFF8, 0xFFFFFFFE]  # only the lowest three bits count


class Arrangement(enum.Enum):
    """In which order the segments lie, and where."""

    LOW = enum.auto()
    USUAL = enum.auto()
    REVERSED = enum.auto()
    HIGH = enum.auto()  # the strip ends where the heap ends, so that no break is possible
    SHARED = enum.auto()  # the text begins in the data's last page


class Code(enum.IntEnum):
    """Where routines stand in a page of code."""

    RETURNS = 0  # goes back at once
    ADDS = 64  # adds to a0 and goes back
    RUNS_OFF = PAGE - 8  # two instructions, then the next page


@dataclass
class StripPage:
    """A page of the strip, or a gap."""

    address: int
    rights: int | None

    def can(self, right: int) -> bool:
        return self.rights is not None and self.rights & right == right


class Pool:
    """The bytes of a segment, placed one behind the other."""

    def __init__(self, address: int, room: int) -> None:
        self.address = address
        self.room = room
        self.content = bytearray()

    def place(self, content: bytes, alignment: int = 4) -> int:
        """Puts the bytes behind the others, and gives their address."""
        self.content += bytes(-len(self.content) % alignment)
        at = self.address + len(self.content)
        self.content += content
        if len(self.content) > self.room:
            raise ValueError("the data has no room left")
        return at

    def word(self, value: int = 0) -> int:
        return self.place((value & 0xFFFFFFFF).to_bytes(4, "little"))


@dataclass
class Layout:
    """Where the segments of one guest begin."""

    text: int
    text_rights: int
    data: int
    data_rights: int
    strip: list[StripPage]

    def text_is_writable(self) -> bool:
        return self.text_rights & 2 != 0

    def page_with(self, rng: random.Random, rights: int) -> StripPage:
        """A page of the strip that has at least these rights."""
        return rng.choice([page for page in self.strip if page.can(rights)])

    def page_without(self, rng: random.Random, right: int) -> StripPage:
        return rng.choice([page for page in self.strip if not page.can(right)])

    def boundaries(self) -> list[int]:
        """The places where one page ends and another one, or none, begins."""
        fixed = [0, 0x1000, HEAP_END, MAPPINGS_END, STACK, STACK_END, RETURN_PAGE_END, 1 << 32]
        return [page.address for page in self.strip] + [self.strip[-1].address + PAGE] + fixed

    def edge(self, rng: random.Random) -> int:
        """An address a few bytes from where a page begins."""
        return (rng.choice(self.boundaries()) + rng.randint(-17, 17)) & 0xFFFFFFFF


def layout_of(rng: random.Random) -> Layout:
    """A random layout."""
    count = rng.choice([1, 2, 2, 3, 3, len(STRIP_MORE)])
    rights = STRIP_ALWAYS + rng.sample(STRIP_MORE, count)
    rng.shuffle(rights)
    size = PAGE * len(rights)
    arrangement = rng.choice(list(Arrangement))
    text, data, strip = {
        Arrangement.LOW: (0x1000, 0x20000, 0x30000),
        Arrangement.USUAL: (0x10000, 0x30000, 0x40000),
        Arrangement.REVERSED: (0x40000, 0x20000, 0x10000),
        Arrangement.HIGH: (0x3FF00000, 0x3FF20000, HEAP_END - size),
        Arrangement.SHARED: (0x20000 + DATA_BYTES, 0x20000, 0x10000),
    }[arrangement]
    pages = [StripPage(strip + PAGE * i, right) for i, right in enumerate(rights)]
    text_rights = rng.choice([5, 7, 7])
    if arrangement is Arrangement.SHARED:
        text_rights = 7
    return Layout(text, text_rights, data, rng.choice([6, 6, 7]), pages)


def code_page(rng: random.Random) -> bytes:
    """A page of code. It goes back from its first word, and its last two words run into the next page."""
    words = [rng.choice([NOP, rng.getrandbits(32)]) for _ in range(PAGE // 4)]
    words[Code.RETURNS] = jalr_word(0, 0, LINK)
    adds = Code.ADDS // 4
    words[adds:adds + 2] = [immediate_word("addi", 10, 10, rng.randint(-2048, 2047)), jalr_word(0, 0, LINK)]
    words[-2:] = [NOP, NOP]
    return words_of(words)


def strip_segment(rng: random.Random, page: StripPage) -> Segment:
    """The segment of one page of the strip, with other bits than the rights set here and there."""
    rights = page.rights or 0
    content = code_page(rng) if page.can(1) else rng.randbytes(rng.choice([0, 1, 300, PAGE - 1, PAGE]))
    odd = rng.choice([0, 0, 0, rng.choice(ODD_RIGHTS)]) & 0xFFFFFFF8
    return Segment(page.address, rights | odd, content, PAGE)


def strip_segments(rng: random.Random, layout: Layout) -> list[Segment]:
    return [strip_segment(rng, page) for page in layout.strip if page.rights is not None]
