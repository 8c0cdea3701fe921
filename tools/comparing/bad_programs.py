"""Program files with odd headers: edge values in fields, files cut short, and segments that overlap or share pages."""

import random
from collections.abc import Callable
from dataclasses import dataclass

from riscv import (
    ECALL, FILE_HEADER_BYTES, PROGRAM_HEADER_BYTES, Segment, elf_file, file_header, immediate_word, load_number,
    program_header, words_of,
)

EDGES = [0, 1, 2, 3, 4, 8, 16, 31, 32, 33, 51, 52, 53, 63, 64, 65, 84, 242, 243, 244, 0xFFF, 0x1000, 0x1001, 0xFFFF,
         0x10000, 0x3FFFF000, 0x3FFFFFFF, 0x40000000, 0x40000001, 0x7FFFFFFF, 0x80000000, 0xFFFFFFE0, 0xFFFFFFFF]
HEADER_FIELDS = [(0, 1), (1, 1), (2, 1), (3, 1), (4, 1), (5, 1), (6, 1), (7, 1), (16, 2), (16, 2), (18, 2), (18, 2),
                 (20, 4), (24, 4), (28, 4), (32, 4), (36, 4), (36, 4), (40, 2), (42, 2), (44, 2), (46, 2)]
HEADER_LIMITS = {
    16: [1, 2, 3], 18: [242, 243, 244], 28: [51, 52, 53], 36: [1, 2, 4, 8, 16, 0x80000000], 42: [31, 32, 33],
    44: [0, 1, 2, 64, 65],
}
SEGMENT_FIELDS = [(0, 4), (4, 4), (8, 4), (12, 4), (16, 4), (20, 4), (24, 4), (28, 4)]
TYPES = [0, 1, 2, 3, 4, 6, 7, 0x6474E551, 0x70000003, 0xFFFFFFFF]
PAGE, HEAP_END, PROGRAM_PAGES, MOST_SEGMENTS = 4096, 0x40000000, 1536, 64


def ending_words(status: int) -> list[int]:
    """Writes the first bytes of its stack on the console, and ends."""
    write = load_number(10, 1) + [immediate_word("addi", 11, 2, 0)] + load_number(12, 40) + load_number(17, 64)
    return write + [ECALL] + load_number(10, status) + load_number(17, 94) + [ECALL]


CODE = words_of(ending_words(0))


@dataclass
class Place:
    """A number in a file."""

    at: int
    size: int


def set_number(content: bytes, place: Place, value: int) -> bytes:
    if place.at + place.size > len(content):
        return content
    new = (value & (1 << 8 * place.size) - 1).to_bytes(place.size, "little")
    return content[:place.at] + new + content[place.at + place.size:]


def change_header(rng: random.Random, content: bytes) -> bytes:
    """Sets a field of the file's header, or of a program header, to an edge value or one beside the old."""
    headers = max(1, min(content[44] if len(content) > 44 else 1, MOST_SEGMENTS))
    places = [Place(*place) for place in HEADER_FIELDS]
    first = FILE_HEADER_BYTES + PROGRAM_HEADER_BYTES * rng.randrange(headers)
    places += [Place(first + at, size) for at, size in SEGMENT_FIELDS] * 2
    place = rng.choice(places)
    old = int.from_bytes(content[place.at:place.at + place.size], "little")
    flipped = old ^ 1 << rng.randrange(8 * place.size)
    limits = HEADER_LIMITS.get(place.at, EDGES)
    value = rng.choice([rng.choice(limits), rng.choice(limits), rng.choice(EDGES), old + 1, old - 1, flipped])
    return set_number(content, place, value)


def change_type(rng: random.Random, content: bytes) -> bytes:
    """Makes a program header one of another type, mostly one that is refused."""
    at = FILE_HEADER_BYTES + PROGRAM_HEADER_BYTES * rng.randrange(2)
    return set_number(content, Place(at, 4), rng.choice([2, 3, 2, 3, rng.choice(TYPES)]))


def change_length(rng: random.Random, content: bytes) -> bytes:
    if rng.random() < 0.2:
        return content + bytes(rng.randint(1, 40))
    places = [0, 3, 4, 6, 7, 51, 52, 53, 83, 84, 85, len(content) - 1, rng.randrange(len(content) + 1)]
    return content[:rng.choice(places)]


def change_byte(rng: random.Random, content: bytes) -> bytes:
    at = rng.randrange(min(len(content), FILE_HEADER_BYTES + 2 * PROGRAM_HEADER_BYTES))
    return set_number(content, Place(at, 1), rng.randrange(256))


def code_segment(rng: random.Random) -> Segment:
    address = rng.choice([0x1000, 0x10000, 0x10054, 0x10FFC, HEAP_END - PAGE, HEAP_END - len(CODE),
                          rng.randrange(1, 999) * PAGE])
    return Segment(address, rng.choice([1, 5, 7, 0xFFFFFFFD]), CODE, rng.choice([0, PAGE, 3 * PAGE]))


def near(rng: random.Random, other: Segment) -> Segment:
    """A segment that lies at the beginning or the end of another one, or in it, or a byte away from it."""
    size = rng.choice([0, 1, 3, 100, PAGE - 1, PAGE, 2 * PAGE + 1])
    start = rng.choice([other.address - size, other.end(), other.address, other.end() - 1, other.address - size + 1,
                        other.address // PAGE * PAGE, -(-other.end() // PAGE) * PAGE])
    shift = rng.choice([0, 0, 0, 1, -1, 4])
    content = rng.randbytes(rng.choice([0, size // 2, size]))
    return Segment(max(0, start + shift), rng.choice([0, 2, 4, 6, 7, 1, 8]), content, size)


def large(rng: random.Random) -> Segment:
    """A segment of about as many pages as there may be."""
    pages = rng.choice([PROGRAM_PAGES - 1, PROGRAM_PAGES, PROGRAM_PAGES + 1, PROGRAM_PAGES // 2])
    return Segment(0x100000 + rng.choice([0, 1, PAGE - 1]), 6, b"", pages * PAGE - rng.choice([0, 0, 1]))


def some_segments(rng: random.Random) -> bytes:
    """A file of a few segments near each other; some headers are of another type."""
    code = code_segment(rng)
    segments = [code] + [near(rng, code) for _ in range(rng.choice([1, 1, 2, 3]))]
    if rng.random() < 0.3:
        segments.append(large(rng))
    rng.shuffle(segments)
    content = elf_file(code.address + rng.choice([0, 0, 0, 0, 4, 2, len(CODE)]), segments)
    for i in range(len(segments)):
        if rng.random() < 0.1:
            content = set_number(content, Place(FILE_HEADER_BYTES + PROGRAM_HEADER_BYTES * i, 4), rng.choice(TYPES))
    return content


def many_segments(rng: random.Random) -> bytes:
    """A file of so many program headers as there may be, or one more; all but the code's are of no size."""
    count = rng.choice([MOST_SEGMENTS - 1, MOST_SEGMENTS, MOST_SEGMENTS + 1])
    code = Segment(0x10000, 5, CODE)
    empty = [Segment(rng.choice([0, 0xFFFFFFFF, 0x10000]), 7) for _ in range(count - 1)]
    return elf_file(code.address, [*empty, code])


def moved_headers(rng: random.Random) -> bytes:
    """A file whose program headers stand behind the code, at an odd place, or at the file's very end."""
    code = Segment(0x10000, 5, CODE)
    gap = rng.randrange(8)
    at = FILE_HEADER_BYTES + len(CODE) + gap
    content = file_header(code.address, 1) + CODE + bytes(gap) + program_header(code, FILE_HEADER_BYTES)
    content += bytes(rng.choice([0, 0, 5]))
    return set_number(content, Place(28, 4), at + rng.choice([0, 0, 0, 1, -1]))


CHANGES: list[Callable[[random.Random, bytes], bytes]] = [
    change_header, change_header, change_header, change_header, change_type, change_length, change_byte,
]


def bad_program(rng: random.Random) -> bytes:
    """A program file with something odd in it."""
    simple = elf_file(0x10000, [Segment(0x10000, 5, CODE), Segment(0x20000, 6, b"data", 100)])
    content = rng.choice([lambda: simple, lambda: simple, lambda: some_segments(rng), lambda: some_segments(rng),
                          lambda: many_segments(rng), lambda: moved_headers(rng)])()
    for _ in range(rng.choice([0, 1, 1, 1, 2])):
        content = rng.choice(CHANGES)(rng, content)
        if not content:
            break
    return content
