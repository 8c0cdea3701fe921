"""Program files (docs/PROGRAMS.md): the rules in order, and the program that a file describes."""

from dataclasses import dataclass, field

from .memory import BREAK_LIMIT, EXECUTE, PAGE_SHIFT, page_up

HEADER_SIZE = 52
ENTRY_SIZE = 32
MAGIC = b"\x7fELF"
RISC_V = 243
EXECUTABLE = 2
REFUSED_FLAGS = 0x0F
HEADERS_LIMIT = 64
PAGES_LIMIT = 1536
LOWEST_ADDRESS = 0x1000
TYPE_LOAD, TYPE_DYNAMIC, TYPE_INTERPRETER = 1, 2, 3


class BadProgram(Exception):
    """The first rule that fails, by its reason, and its place in the file."""

    def __init__(self, reason: str, place: int) -> None:
        super().__init__(reason, place)
        self.reason = reason
        self.place = place


@dataclass(frozen=True)
class Header:
    """The fields of a program header that count."""

    place: int
    kind: int
    offset: int
    address: int
    file_size: int
    memory_size: int
    rights: int

    def end(self) -> int:
        """The address after its last byte in memory."""
        return self.address + self.memory_size


@dataclass(frozen=True)
class Segment:
    """A piece of memory: bytes of the file, then zeros."""

    address: int
    data: bytes
    size: int
    rights: int

    def end(self) -> int:
        """The address after its last byte."""
        return self.address + self.size

    def page_numbers(self) -> range:
        """The pages that it has a byte in."""
        return range(self.address >> PAGE_SHIFT, page_up(self.end()))

    def meets(self, other: Header) -> bool:
        """Whether it shares a byte with a header's piece."""
        return self.address < other.end() and other.address < self.end()


@dataclass
class Program:
    """What a file describes: its entry, its segments, and the rights of each of their pages."""

    entry: int
    segments: list[Segment] = field(default_factory=list)
    page_rights: dict[int, int] = field(default_factory=dict)


def _number(data: bytes, place: int, size: int) -> int:
    return int.from_bytes(data[place : place + size], "little")


def _test_identification(data: bytes) -> None:
    """The first three rules."""
    if len(data) < HEADER_SIZE:
        raise BadProgram("short", len(data))
    for place in range(4):
        if data[place] != MAGIC[place]:
            raise BadProgram("magic", place)
    for place in (4, 5, 6):
        if data[place] != 1:
            raise BadProgram("class", place)


def _test_header(data: bytes) -> None:
    """The rules on the rest of the file's header, and where the table ends."""
    if _number(data, 18, 2) != RISC_V:
        raise BadProgram("machine", 18)
    if _number(data, 16, 2) != EXECUTABLE:
        raise BadProgram("filetype", 16)
    if _number(data, 36, 4) & REFUSED_FLAGS:
        raise BadProgram("flags", 36)
    if _number(data, 42, 2) != ENTRY_SIZE:
        raise BadProgram("segment", 42)
    count = _number(data, 44, 2)
    if not 1 <= count <= HEADERS_LIMIT:
        raise BadProgram("segment", 44)
    if _number(data, 28, 4) + ENTRY_SIZE * count > len(data):
        raise BadProgram("short", len(data))


def _header(data: bytes, place: int) -> Header:
    return Header(
        place=place,
        kind=_number(data, place, 4),
        offset=_number(data, place + 4, 4),
        address=_number(data, place + 8, 4),
        file_size=_number(data, place + 16, 4),
        memory_size=_number(data, place + 20, 4),
        rights=_number(data, place + 24, 4) & 7,
    )


def _fits(header: Header, file_length: int) -> bool:
    """The rule on one segment's place in the file and in memory."""
    return (
        header.offset + header.file_size <= file_length
        and header.file_size <= header.memory_size
        and header.address >= LOWEST_ADDRESS
        and header.end() <= BREAK_LIMIT
    )


def _take(program: Program, header: Header, data: bytes) -> None:
    """The four rules on one program header; a segment is added to the program."""
    if header.kind in (TYPE_DYNAMIC, TYPE_INTERPRETER):
        raise BadProgram("dynamic", header.place)
    if header.kind != TYPE_LOAD or header.memory_size == 0:
        return
    if not _fits(header, len(data)):
        raise BadProgram("segment", header.place)
    if any(segment.meets(header) for segment in program.segments):
        raise BadProgram("overlap", header.place)
    content = data[header.offset : header.offset + header.file_size]
    segment = Segment(header.address, content, header.memory_size, header.rights)
    for number in segment.page_numbers():
        program.page_rights[number] = program.page_rights.get(number, 0) | header.rights
    if len(program.page_rights) > PAGES_LIMIT:
        raise BadProgram("toolarge", header.place)
    program.segments.append(segment)


def read_elf(data: bytes) -> Program:
    """The program of a file, or the first rule that it breaks."""
    _test_identification(data)
    _test_header(data)
    program = Program(entry=_number(data, 24, 4))
    table = _number(data, 28, 4)
    for index in range(_number(data, 44, 2)):
        _take(program, _header(data, table + ENTRY_SIZE * index), data)
    rights = program.page_rights.get(program.entry >> PAGE_SHIFT, 0)
    if program.entry & 3 or not rights & EXECUTE:
        raise BadProgram("segment", 24)
    return program
