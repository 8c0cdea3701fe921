#!/usr/bin/env python3
"""Writes hello.elf: a static executable for RV32I that writes `hello` and a newline on the console and ends.

Usage: make_hello.py FILE..

The file is an ELF header, one program header and one segment, which is the whole file, at 0x10000 with rights R and X.
Sources: System V ABI, chapters 4 and 5; RISC-V ELF psABI; RISC-V unprivileged manual, chapter 2.
"""
import struct
import sys

BASE = 0x10000
HEADERS = 52 + 32
TEXT = b"hello\n"

CODE = [
    0x00100513,  # addi a0, x0, 1      the console
    0x00000597,  # auipc a1, 0
    0x02058593,  # addi a1, a1, 32     the text, behind the code
    0x00600613,  # addi a2, x0, 6      its length
    0x04000893,  # addi a7, x0, 64     write
    0x00000073,  # ecall
    0x00000513,  # addi a0, x0, 0
    0x05E00893,  # addi a7, x0, 94     exit_group
    0x00000073,  # ecall
]


def hello():
    size = HEADERS + 4 * len(CODE) + len(TEXT)
    identification = b"\x7fELF" + bytes([1, 1, 1]) + bytes(9)
    # e_type 2 (executable), e_machine 243 (RISC-V), e_version, e_entry, e_phoff, e_shoff, e_flags,
    # e_ehsize, e_phentsize, e_phnum, e_shentsize, e_shnum, e_shstrndx
    header = struct.pack("<HHIIIIIHHHHHH", 2, 243, 1, BASE + HEADERS, 52, 0, 0, 52, 32, 1, 0, 0, 0)
    # p_type 1 (load), p_offset, p_vaddr, p_paddr, p_filesz, p_memsz, p_flags R and X, p_align
    segment = struct.pack("<IIIIIIII", 1, 0, BASE, BASE, size, size, 5, 0x1000)
    code = b"".join(struct.pack("<I", word) for word in CODE)
    return identification + header + segment + code + TEXT


for name in sys.argv[1:]:
    with open(name, "wb") as file:
        file.write(hello())
