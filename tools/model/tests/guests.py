"""Small guests for tests: words of instructions, and a file with them."""

import os
import struct
from pathlib import Path

BASE, HEADERS = 0x10000, 84
DATA = 0x20000
HOME = Path(__file__).resolve().parents[3]
EXAMPLES = Path(os.environ.get("MODEL_EXAMPLES", HOME / "examples"))
A0, A1, A2, A3, A4, A7, T0, T1, S0 = 10, 11, 12, 13, 14, 17, 5, 6, 8
ECALL, EBREAK = 0x00000073, 0x00100073


def example(name: str) -> bytes:
    """A stored guest."""
    return (EXAMPLES / name).read_bytes()


def addi(rd: int, rs1: int, value: int) -> int:
    """`addi`."""
    return (value & 0xFFF) << 20 | rs1 << 15 | rd << 7 | 0x13


def lui(rd: int, value: int) -> int:
    """`lui` of the upper twenty bits."""
    return value & 0xFFFFF000 | rd << 7 | 0x37


def load_word(rd: int, rs1: int, offset: int) -> int:
    """`lw`."""
    return (offset & 0xFFF) << 20 | rs1 << 15 | 2 << 12 | rd << 7 | 0x03


def store_word(rs2: int, rs1: int, offset: int) -> int:
    """`sw`."""
    return (offset >> 5 & 0x7F) << 25 | rs2 << 20 | rs1 << 15 | 2 << 12 | (offset & 31) << 7 | 0x23


def branch(funct3: int, rs1: int, rs2: int, offset: int) -> int:
    """A branch by so many bytes."""
    bits = (offset >> 12 & 1) << 31 | (offset >> 5 & 0x3F) << 25 | (offset >> 1 & 15) << 8 | (offset >> 11 & 1) << 7
    return bits | rs2 << 20 | rs1 << 15 | funct3 << 12 | 0x63


def li(rd: int, value: int) -> list[int]:
    """A register's value, always in two words."""
    value &= 0xFFFFFFFF
    low = (value & 0xFFF) - (0x1000 if value & 0x800 else 0)
    return [lui(rd, value - low), addi(rd, rd, low)]


def call(number: int, *arguments: int) -> list[int]:
    """A call with constant arguments."""
    words = [word for place, value in enumerate(arguments) for word in li(A0 + place, value)]
    return [*words, *li(A7, number), ECALL]


def write_word(register: int) -> list[int]:
    """Writes a register's four bytes on the console, by way of the data's last word."""
    return [*li(T0, DATA + 0xF00), store_word(register, T0, 0), *call(64, 1, DATA + 0xF00, 4)]


def header(kind: int, offset: int, address: int, file_size: int, memory_size: int, rights: int) -> bytes:
    """A program header."""
    return struct.pack("<IIIIIIII", kind, offset, address, 0, file_size, memory_size, rights, 1)


def elf(words: list[int], data: bytes = b"") -> bytes:
    """A file with code at 0x10000 and a page of data at 0x20000."""
    code = b"".join(word.to_bytes(4, "little") for word in words)
    place = 52 + 64
    file = b"\x7fELF" + bytes([1, 1, 1]) + bytes(9)
    file += struct.pack("<HHIIIIIHHHHHH", 2, 243, 1, BASE, 52, 0, 0, 52, 32, 2, 0, 0, 0)
    file += header(1, place, BASE, len(code), len(code), 5)
    file += header(1, place + len(code), DATA, len(data), 4096, 6)
    return file + code + data
