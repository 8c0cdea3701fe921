"""A process's memory: pages with rights, the break, mappings (docs/MACHINE.md, "Instructions" and "Calls")."""

from dataclasses import dataclass, field
from struct import Struct

from .bits import WORD_LIMIT
from .traps import Trap, TrapSignal

PAGE_SIZE = 4096
PAGE_SHIFT = 12
OFFSET_MASK = PAGE_SIZE - 1
PAGE_LIMIT = 2048
READ, WRITE, EXECUTE = 4, 2, 1
BREAK_LIMIT = 0x40000000
MAPPINGS_START = 0x40000000
MAPPINGS_END = 0x70000000
NUMBERS = {1: Struct("<B"), 2: Struct("<H"), 4: Struct("<I")}
"""Numbers of so many bytes, the lowest first."""


@dataclass
class Page:
    """4,096 bytes and the rights to them."""

    data: bytearray
    rights: int


def blank_page(rights: int) -> Page:
    """A page of zeros."""
    return Page(bytearray(PAGE_SIZE), rights)


def page_up(address: int) -> int:
    """The number of the first page that begins at or after the address."""
    return (address + PAGE_SIZE - 1) >> PAGE_SHIFT


@dataclass
class Memory:
    """The pages by number, and where the break starts and is."""

    break_start: int
    break_now: int
    pages: dict[int, Page] = field(default_factory=dict)

    def copy(self) -> "Memory":
        """The same in bytes and pages of its own."""
        pages = {number: Page(bytearray(page.data), page.rights) for number, page in self.pages.items()}
        return Memory(self.break_start, self.break_now, pages)

    def allows(self, address: int, length: int, right: int) -> bool:
        """Whether all bytes from the address on are there with the right; past 0xFFFFFFFF none is."""
        if length == 0:
            return True
        end = address + length
        if end > WORD_LIMIT:
            return False
        for number in range(address >> PAGE_SHIFT, page_up(end)):
            page = self.pages.get(number)
            if page is None or not page.rights & right:
                return False
        return True

    def peek(self, address: int, length: int) -> bytes:
        """Bytes that are there, whatever their rights."""
        out = bytearray()
        while len(out) < length:
            offset = (address + len(out)) & OFFSET_MASK
            page = self.pages[(address + len(out)) >> PAGE_SHIFT]
            out += page.data[offset : offset + length - len(out)]
        return bytes(out)

    def poke(self, address: int, data: bytes) -> None:
        """Puts bytes where pages are, whatever their rights."""
        done = 0
        while done < len(data):
            offset = (address + done) & OFFSET_MASK
            room = min(PAGE_SIZE - offset, len(data) - done)
            page = self.pages[(address + done) >> PAGE_SHIFT]
            page.data[offset : offset + room] = data[done : done + room]
            done += room

    def fetch(self, address: int) -> int:
        """The word of an instruction."""
        # At an address that is no multiple of 4 it is the four bytes from there on.
        page = self.pages.get(address >> PAGE_SHIFT)
        offset = address & OFFSET_MASK
        if page is None or not page.rights & EXECUTE:
            raise Trap(TrapSignal.FAULT)
        if offset <= PAGE_SIZE - 4:
            return int.from_bytes(page.data[offset : offset + 4], "little")
        return self._across(address, 4, EXECUTE)

    def load(self, address: int, size: int) -> int:
        """The number that a load of so many bytes reads, without its sign."""
        page = self.pages.get(address >> PAGE_SHIFT)
        offset = address & OFFSET_MASK
        if page is None or not page.rights & READ:
            raise Trap(TrapSignal.FAULT)
        if offset + size <= PAGE_SIZE:
            return NUMBERS[size].unpack_from(page.data, offset)[0]
        return self._across(address, size, READ)

    def store(self, address: int, size: int, value: int) -> None:
        """A store of so many bytes, all or none."""
        page = self.pages.get(address >> PAGE_SHIFT)
        offset = address & OFFSET_MASK
        if page is None or not page.rights & WRITE:
            raise Trap(TrapSignal.FAULT)
        if offset + size <= PAGE_SIZE:
            NUMBERS[size].pack_into(page.data, offset, value)
            return
        if not self.allows(address, size, WRITE):
            raise Trap(TrapSignal.FAULT)
        self.poke(address, value.to_bytes(size, "little"))

    def _across(self, address: int, size: int, right: int) -> int:
        """A number that lies in two pages."""
        if not self.allows(address, size, right):
            raise Trap(TrapSignal.FAULT)
        return int.from_bytes(self.peek(address, size), "little")

    def move_break(self, address: int) -> int:
        """Call 214: the new break where the address is allowed and the pages fit, else the old one."""
        if not self.break_start <= address <= BREAK_LIMIT:
            return self.break_now
        old_end, new_end = page_up(self.break_now), page_up(address)
        if len(self.pages) + new_end - old_end > PAGE_LIMIT:
            return self.break_now
        for number in range(old_end, new_end):
            self.pages[number] = blank_page(READ | WRITE)
        for number in range(new_end, old_end):
            self.pages.pop(number, None)
        self.break_now = address
        return address

    def map_lowest(self, count: int, rights: int) -> int | None:
        """Call 222: so many zeroed pages at the lowest place where they fit; None without room."""
        if len(self.pages) + count > PAGE_LIMIT:
            return None
        start = self._lowest_gap(count)
        if start is None:
            return None
        for number in range(start, start + count):
            self.pages[number] = blank_page(rights)
        return start << PAGE_SHIFT

    def _lowest_gap(self, count: int) -> int | None:
        """The lowest page of mappings from which so many in a row are missing."""
        start = MAPPINGS_START >> PAGE_SHIFT
        end = MAPPINGS_END >> PAGE_SHIFT
        for number in sorted(n for n in self.pages if start <= n < end):
            if number - start >= count:
                return start
            start = number + 1
        return start if end - start >= count else None

    def unmap(self, address: int, length: int) -> None:
        """Call 215: takes pages away; those that are missing are passed over."""
        for number in range(address >> PAGE_SHIFT, page_up(address + length)):
            self.pages.pop(number, None)


@dataclass
class Foreseen:
    """A memory at which an instruction is tried without any effect."""

    memory: Memory

    def load(self, address: int, size: int) -> int:
        """As the memory's own load."""
        return self.memory.load(address, size)

    def store(self, address: int, size: int, _value: int) -> None:
        """Faults where the store would, and writes nothing."""
        if not self.memory.allows(address, size, WRITE):
            raise Trap(TrapSignal.FAULT)
