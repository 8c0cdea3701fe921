"""Words of RV32IM and the headers of ELF files, for the scripts that make programs.

They are from the tables of the RISC-V unprivileged manual and of the System V ABI, and not from this project's code.
"""

import struct
from dataclasses import dataclass

FILE_HEADER_BYTES, PROGRAM_HEADER_BYTES = 52, 32
ECALL, EBREAK, NOP, FENCE = 0x00000073, 0x00100073, 0x00000013, 0x0FF0000F

# funct7, funct3
REGISTER = {
    "add": (0, 0), "sub": (32, 0), "sll": (0, 1), "slt": (0, 2), "sltu": (0, 3), "xor": (0, 4), "srl": (0, 5),
    "sra": (32, 5), "or": (0, 6), "and": (0, 7), "mul": (1, 0), "mulh": (1, 1), "mulhsu": (1, 2), "mulhu": (1, 3),
    "div": (1, 4), "divu": (1, 5), "rem": (1, 6), "remu": (1, 7),
}
IMMEDIATE = {"addi": 0, "slti": 2, "sltiu": 3, "xori": 4, "ori": 6, "andi": 7}
SHIFT = {"slli": (0, 1), "srli": (0, 5), "srai": (32, 5)}
LOAD = {"lb": (0, 1), "lh": (1, 2), "lw": (2, 4), "lbu": (4, 1), "lhu": (5, 2)}  # funct3, bytes
STORE = {"sb": (0, 1), "sh": (1, 2), "sw": (2, 4)}
BRANCH = {"beq": 0, "bne": 1, "blt": 4, "bge": 5, "bltu": 6, "bgeu": 7}


def r_type(funct7: int, rs2: int, rs1: int, funct3: int, rd: int, opcode: int) -> int:
    return funct7 << 25 | rs2 << 20 | rs1 << 15 | funct3 << 12 | rd << 7 | opcode


def i_type(imm: int, rs1: int, funct3: int, rd: int, opcode: int) -> int:
    return (imm & 0xFFF) << 20 | rs1 << 15 | funct3 << 12 | rd << 7 | opcode


def s_type(imm: int, rs2: int, rs1: int, funct3: int) -> int:
    return r_type(imm >> 5 & 0x7F, rs2, rs1, funct3, imm & 0x1F, 0x23)


def b_type(imm: int, rs2: int, rs1: int, funct3: int) -> int:
    high = (imm >> 12 & 1) << 6 | imm >> 5 & 0x3F
    return r_type(high, rs2, rs1, funct3, imm & 0x1E | imm >> 11 & 1, 0x63)


def j_type(imm: int, rd: int) -> int:
    high = (imm >> 20 & 1) << 19 | (imm >> 1 & 0x3FF) << 9 | (imm >> 11 & 1) << 8 | imm >> 12 & 0xFF
    return high << 12 | rd << 7 | 0x6F


def u_type(value: int, rd: int, opcode: int) -> int:
    return value << 12 | rd << 7 | opcode


def register_word(name: str, rd: int, rs1: int, rs2: int) -> int:
    funct7, funct3 = REGISTER[name]
    return r_type(funct7, rs2, rs1, funct3, rd, 0x33)


def immediate_word(name: str, rd: int, rs1: int, imm: int) -> int:
    return i_type(imm, rs1, IMMEDIATE[name], rd, 0x13)


def shift_word(name: str, rd: int, rs1: int, by: int) -> int:
    funct7, funct3 = SHIFT[name]
    return r_type(funct7, by, rs1, funct3, rd, 0x13)


def load_word(name: str, rd: int, imm: int, rs1: int) -> int:
    return i_type(imm, rs1, LOAD[name][0], rd, 0x03)


def store_word(name: str, rs2: int, imm: int, rs1: int) -> int:
    return s_type(imm, rs2, rs1, STORE[name][0])


def branch_word(name: str, rs1: int, rs2: int, by: int) -> int:
    return b_type(by, rs2, rs1, BRANCH[name])


def jalr_word(rd: int, imm: int, rs1: int) -> int:
    return i_type(imm, rs1, 0, rd, 0x67)


def load_number(rd: int, value: int) -> list[int]:
    """lui and addi."""
    upper = (value + 0x800 & 0xFFFFFFFF) >> 12
    return [u_type(upper, rd, 0x37), immediate_word("addi", rd, rd, value)]


def words_of(words: list[int]) -> bytes:
    return struct.pack(f"<{len(words)}I", *words)


def file_header(entry: int, segments: int) -> bytes:
    """The header of an executable for RISC-V, with the program headers right behind it."""
    fields = struct.pack("<HHIIIIIHHHHHH", 2, 243, 1, entry, FILE_HEADER_BYTES, 0, 0, FILE_HEADER_BYTES,
                         PROGRAM_HEADER_BYTES, segments, 0, 0, 0)
    return b"\x7fELF\x01\x01\x01" + bytes(9) + fields


@dataclass
class Segment:
    """A piece of memory: its bytes, then zeros up to its size. Rights: 4 reads, 2 writes, 1 executes."""

    address: int
    rights: int
    content: bytes = b""
    size: int = 0

    def end(self) -> int:
        return self.address + max(self.size, len(self.content))


def program_header(segment: Segment, offset: int) -> bytes:
    """The header of a segment whose bytes stand at this place of the file."""
    size = segment.end() - segment.address
    place = segment.address
    return struct.pack("<8I", 1, offset, place, place, len(segment.content), size, segment.rights, 4096)


def elf_file(entry: int, segments: list[Segment]) -> bytes:
    """An executable with these segments, their bytes behind the headers."""
    headers, contents = file_header(entry, len(segments)), b""
    start = len(headers) + PROGRAM_HEADER_BYTES * len(segments)
    for segment in segments:
        headers += program_header(segment, start + len(contents))
        contents += segment.content
    return headers + contents
