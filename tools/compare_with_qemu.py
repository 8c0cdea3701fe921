#!/usr/bin/env python3
"""Runs programs by the built program and by QEMU's user mode: both must write the same and end with the same status.

The programs are the stored guests of examples/, and random ones. A random program gives each register a value, goes ten
times through a body of random instructions, and writes its data and its registers on standard output. Values are drawn
from the edges of the 32-bit numbers as often as from between them. The words are encoded by riscv.py, and not by this
project's code.

Each program is launched twice: to its end, and with a checkpoint after its first record of work, where it is cut off
and goes on by a restart.

    tools/compare_with_qemu.py [PROGRAMS [FIRST_SEED [DMTCP [QEMU]]]]

It ends with status 1, and keeps the programs, where any two differ.
"""

import collections
import os
import random
import shutil
import struct
import subprocess
import sys
import tempfile

from built import HOME, built_program
from riscv import (
    BRANCH, ECALL, FENCE, FILE_HEADER_BYTES, IMMEDIATE, LOAD, NOP, PROGRAM_HEADER_BYTES, REGISTER, SHIFT, STORE,
    Segment, branch_word, file_header, immediate_word, j_type, jalr_word, load_number, load_word, program_header,
    register_word, shift_word, store_word, u_type, words_of,
)

BASE, HEADERS = 0x10000, FILE_HEADER_BYTES + PROGRAM_HEADER_BYTES
DATA, LOOP = 31, 30  # registers that no random instruction writes: where the data is, rounds left
DATA_BYTES, UNITS, ROUNDS = 256, 700, 10
BUDGET = 18  # the status of a run that its number of records cut off
EDGES = [0, 1, 2, 3, 31, 32, 0x7FFFFFFF, 0x80000000, 0x80000001, 0xFFFFFFFF, 0xFFFFFFFE, 0x0000FFFF, 0xFFFF8000]
# by its own status, which is QEMU's; fill.elf fills a memory that QEMU does not bound. QEMU has no wait4 for RISC-V of 32
# bits, which pipeline.elf tells by its status.
STORED = {"hello.elf": 0, "total.elf": 0, "count.elf": 0, "threads.elf": 0, "handler.elf": 7, "pipeline.elf": 1,
          "buffer.elf": 0}
DONE = 0  # the status of a guest's end, whatever its own status is


def number(rng):
    return rng.choice(EDGES) if rng.random() < 0.5 else rng.getrandbits(32)


def plain_unit(rng, name):
    """The words of one instruction that goes on behind itself, or of one that jumps behind the next."""
    rd, rs1, rs2 = rng.randrange(LOOP), rng.randrange(32), rng.randrange(32)
    if name in REGISTER:
        return [register_word(name, rd, rs1, rs2)]
    if name in IMMEDIATE:
        return [immediate_word(name, rd, rs1, rng.choice([0, 1, -1, 2047, -2048, rng.getrandbits(12)]))]
    if name in SHIFT:
        return [shift_word(name, rd, rs1, rng.randrange(32))]
    if name in LOAD:
        return [load_word(name, rd, rng.randrange(DATA_BYTES - LOAD[name][1] + 1), DATA)]
    if name in STORE:
        return [store_word(name, rs2, rng.randrange(DATA_BYTES - STORE[name][1] + 1), DATA)]
    if name == "lui":
        return [u_type(rng.getrandbits(20), rd, 0x37)]
    if name == "auipc":
        return [u_type(rng.getrandbits(20), rd, 0x17)]
    if name == "jalr":
        through = rng.randrange(1, LOOP)  # auipc; jalr over a word that must not run, with bit 0 set half of the time
        return [u_type(0, through, 0x17), jalr_word(rd, 12 + rng.randrange(2), through), 0]
    return [FENCE]


NAMES = [*REGISTER, *IMMEDIATE, *SHIFT, *LOAD, *STORE, "lui", "auipc", "jalr", "fence", *BRANCH, "jal"]


def body(rng, used):
    """Random units. A branch or a jump goes over the next one to four of them."""
    names = [rng.choice(NAMES) for _ in range(UNITS)]
    units = [[0] if name in BRANCH or name == "jal" else plain_unit(rng, name) for name in names]
    units += [[NOP]] * 4
    places = [0]
    for unit in units:
        places.append(places[-1] + 4 * len(unit))
    for at, name in enumerate(names):
        used[name] += 1
        over = places[at + rng.randrange(2, 6)] - places[at] if at + 5 < len(places) else 8
        if name in BRANCH:
            rs2, rs1 = rng.randrange(32), rng.randrange(32)
            units[at] = [branch_word(name, rs1, rs2, over)]
        elif name == "jal":
            units[at] = [j_type(over, rng.randrange(LOOP))]
    return [word for unit in units for word in unit]


def program(rng, used):
    """The bytes of an ELF file with one segment that may be read, written and executed."""
    values = [word for register in range(1, LOOP) for word in load_number(register, number(rng))]
    turn = body(rng, used)
    back = [immediate_word("addi", LOOP, LOOP, -1), branch_word("beq", LOOP, 0, 8), j_type(-4 * (len(turn) + 2), 0)]
    save = [store_word("sw", register, DATA_BYTES + 4 * (register - 1), DATA) for register in range(1, LOOP)]
    size = DATA_BYTES + 4 * (LOOP - 1)
    show = load_number(10, 1) + [immediate_word("addi", 11, DATA, 0)] + load_number(12, size) + load_number(17, 64)
    leave = load_number(10, 0) + load_number(17, 94) + [ECALL]
    tail = back + save + show + [ECALL] + leave
    length = 4 * (4 + len(values) + len(turn) + len(tail))
    data = BASE + HEADERS + length
    start = load_number(DATA, data) + load_number(LOOP, ROUNDS)
    words = start + values + turn + tail
    text = words_of(words) + rng.randbytes(DATA_BYTES) + bytes(4 * LOOP)
    whole = Segment(BASE, 7, bytes(HEADERS) + text)  # the file from its first byte on
    return file_header(BASE + HEADERS, 1) + program_header(whole, 0) + text


def instructions_run(folder):
    """How many instructions a launch ran, by its trace: records of 16 bytes, the kind first, the count last."""
    with open(os.path.join(folder, "dmtcp.trace"), "rb") as trace:
        records = list(struct.iter_unpack("<BBHIII", trace.read()))
    return sum(count for kind, _, _, _, _, count in records if kind == 1)


def result_of(words, folder):
    done = subprocess.run(words, cwd=folder, capture_output=True)
    return done.returncode, done.stdout


def differs(dmtcp, qemu, folder, file, own_status=0):
    """Whether a launch, or a restart from the first checkpoint, writes otherwise than QEMU, or one does not end."""
    os.chmod(file, 0o755)
    shutil.rmtree(os.path.join(folder, "dmtcp_set"), ignore_errors=True)
    job = "0:" + os.path.basename(file)
    status, written = result_of([qemu, file], folder)
    wanted = (DONE, written)
    # room for one record of work, the cut, and that its set is complete
    cut_off = result_of([dmtcp, "launch", "--every", "1", "--records", "3", job], folder)
    restarted = result_of([dmtcp, "restart"], folder)
    launched = result_of([dmtcp, "launch", job], folder)
    if status != own_status or not written or cut_off != (BUDGET, b""):
        return True
    return restarted != wanted or launched != wanted


def main():
    words = sys.argv[1:]
    count = int(words[0]) if words else 500
    first = int(words[1]) if len(words) > 1 else 1
    dmtcp = built_program(words, 2)
    qemu = words[3] if len(words) > 3 else "qemu-riscv32"
    used, differ, ran = collections.Counter(), [], 0
    folder = tempfile.mkdtemp()
    for name, own_status in STORED.items():
        file = shutil.copy(os.path.join(HOME, "examples", name), folder)
        if differs(dmtcp, qemu, folder, file, own_status):
            differ.append(name)
    for seed in range(first, first + count):
        file = os.path.join(folder, f"random{seed}.elf")
        with open(file, "wb") as out:
            out.write(program(random.Random(seed), used))
        if differs(dmtcp, qemu, folder, file):
            differ.append(os.path.basename(file))
        else:
            os.remove(file)
        ran += instructions_run(folder)
    print(f"{count} random programs, {len(used)} kinds of instructions, {ran:,} run, {len(differ)} files differ")
    if differ:
        print(*differ, "kept in", folder)
        sys.exit(1)
    shutil.rmtree(folder)


if __name__ == "__main__":
    main()
