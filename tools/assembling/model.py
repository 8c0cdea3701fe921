"""A model of the assembler, written from docs/PROGRAMS.md alone: what file, or which line's fault, a text has."""

import re

REGISTERS = {f"x{n}": n for n in range(32)}
for number, name in enumerate(
    "zero ra sp gp tp t0 t1 t2 s0 s1 a0 a1 a2 a3 a4 a5 a6 a7 s2 s3 s4 s5 s6 s7 s8 s9 s10 s11 t3 t4 t5 t6".split()
):
    REGISTERS[name] = number

ARITHMETIC = {"addi": 0, "slti": 2, "sltiu": 3, "xori": 4, "ori": 6, "andi": 7}
SHIFTS = {"slli": (1, 0), "srli": (5, 0), "srai": (5, 0x20)}
LOADS = {"lb": 0, "lh": 1, "lw": 2, "lbu": 4, "lhu": 5}
STORES = {"sb": 0, "sh": 1, "sw": 2}
BRANCHES = {"beq": 0, "bne": 1, "blt": 4, "bge": 5, "bltu": 6, "bgeu": 7}
THREE = {name: (funct3, 0) for funct3, name in enumerate("add sll slt sltu xor srl or and".split())}
THREE |= {"sub": (0, 0x20), "sra": (5, 0x20)}
THREE |= {name: (funct3, 1) for funct3, name in enumerate("mul mulh mulhsu mulhu div divu rem remu".split())}
WHOLE = {"ecall": 0x00000073, "ebreak": 0x00100073, "fence": 0x0FF0000F, "nop": 0x00000013, "ret": 0x00008067}

HEADERS = 84
BASE = 0x10000
LIMIT = 4194304
NAME = re.compile(rb"[A-Za-z_.][A-Za-z0-9_.]*\Z")


class Broken(Exception):
    """The line breaks a rule."""


def need(holds):
    if not holds:
        raise Broken


def name(text):
    need(NAME.match(text))
    return text


def register(text):
    need(text.decode("latin-1") in REGISTERS)
    return REGISTERS[text.decode("latin-1")]


def number(text, low, high):
    if re.match(rb"0x[0-9A-Fa-f]+\Z", text):
        value = int(text[2:], 16)
    else:
        need(re.match(rb"-?[0-9]+\Z", text))
        value = int(text)
    need(low <= value <= high)
    return value


def based(text):
    found = re.match(rb"([^(]*)\((.*)\)\Z", text, re.S)
    need(found)
    return number(found[1], -2048, 2047), register(found[2])


def i_type(opcode, funct3, rd, rs1, imm):
    need(-2048 <= imm <= 2047)
    return opcode | rd << 7 | funct3 << 12 | rs1 << 15 | (imm & 0xFFF) << 20


def u_type(opcode, rd, value):
    return opcode | rd << 7 | value & 0xFFFFF000


def jump(rd, offset):
    need(offset % 2 == 0 and -(2**20) <= offset < 2**20)
    return (
        0x6F | rd << 7 | (offset >> 12 & 0xFF) << 12 | (offset >> 11 & 1) << 20 | (offset >> 1 & 0x3FF) << 21
        | (offset >> 20 & 1) << 31
    )


def branch(funct3, rs1, rs2, offset):
    need(offset % 2 == 0 and -4096 <= offset < 4096)
    return (
        0x63 | (offset >> 11 & 1) << 7 | (offset >> 1 & 0xF) << 8 | funct3 << 12 | rs1 << 15 | rs2 << 20
        | (offset >> 5 & 0x3F) << 25 | (offset >> 12 & 1) << 31
    )


def two_parts(first, rd, value):
    upper = value + 0x800 & 0xFFFFF000
    lower = (value - upper + 2**31) % 2**32 - 2**31
    return [u_type(first, rd, upper), i_type(0x13, 0, rd, rd, lower)]


def spelled(text):
    need(len(text) >= 2 and text[:1] == b'"' and text[-1:] == b'"')
    out, place, inside = b"", 0, text[1:-1]
    while place < len(inside):
        byte = inside[place : place + 1]
        if byte == b"\\":
            escape = inside[place + 1 : place + 2]
            need(escape in (b"n", b"0", b"\\", b'"') and escape)
            out += {b"n": b"\n", b"0": b"\0"}.get(escape, escape)
            place += 2
        else:
            need(32 <= byte[0] <= 126 and byte != b'"')
            out += byte
            place += 1
    return out


def read(line):
    """What a line says: its kind, its size (or a function of its place), and its words as a function of the rest."""
    text = line.lstrip(b" ")
    if not text or text.startswith(b"#"):
        return ("nothing",)
    if text.endswith(b":"):
        return ("label", name(text[:-1]))
    word, space, rest = text.partition(b" ")
    word = word.decode("latin-1")
    if word == ".ascii":
        need(space)
        return ("bytes", spelled(rest.lstrip(b" ")))
    operands = [part.lstrip(b" ") for part in rest.split(b",")] if space else []

    def count(wanted):
        need(len(operands) == wanted)

    if word in WHOLE:
        count(0)
        return ("words", lambda at, to: [WHOLE[word]], 1, None)
    if word in THREE:
        count(3)
        rd, rs1, rs2 = map(register, operands)
        funct3, funct7 = THREE[word]
        return ("words", lambda at, to: [0x33 | rd << 7 | funct3 << 12 | rs1 << 15 | rs2 << 20 | funct7 << 25], 1, None)
    if word in ARITHMETIC:
        count(3)
        rd, rs1 = map(register, operands[:2])
        imm = number(operands[2], -2048, 2047)
        return ("words", lambda at, to: [i_type(0x13, ARITHMETIC[word], rd, rs1, imm)], 1, None)
    if word in SHIFTS:
        count(3)
        rd, rs1 = map(register, operands[:2])
        amount = number(operands[2], 0, 31)
        funct3, funct7 = SHIFTS[word]
        return ("words", lambda at, to: [0x13 | rd << 7 | funct3 << 12 | rs1 << 15 | amount << 20 | funct7 << 25], 1, None)
    if word in LOADS or word == "jalr":
        count(2)
        rd, (imm, rs1) = register(operands[0]), based(operands[1])
        opcode, funct3 = (0x67, 0) if word == "jalr" else (0x03, LOADS[word])
        return ("words", lambda at, to: [i_type(opcode, funct3, rd, rs1, imm)], 1, None)
    if word in STORES:
        count(2)
        rs2, (imm, rs1) = register(operands[0]), based(operands[1])
        made = 0x23 | (imm & 0x1F) << 7 | STORES[word] << 12 | rs1 << 15 | rs2 << 20 | (imm >> 5 & 0x7F) << 25
        return ("words", lambda at, to: [made], 1, None)
    if word in BRANCHES:
        count(3)
        rs1, rs2 = map(register, operands[:2])
        return ("words", lambda at, to: [branch(BRANCHES[word], rs1, rs2, to - at)], 1, name(operands[2]))
    if word in ("lui", "auipc"):
        count(2)
        rd, value = register(operands[0]), number(operands[1], 0, 0xFFFFF)
        return ("words", lambda at, to: [u_type(0x37 if word == "lui" else 0x17, rd, value << 12)], 1, None)
    if word == "jal":
        count(2)
        rd = register(operands[0])
        return ("words", lambda at, to: [jump(rd, to - at)], 1, name(operands[1]))
    if word in ("j", "call"):
        count(1)
        return ("words", lambda at, to: [jump(1 if word == "call" else 0, to - at)], 1, name(operands[0]))
    if word == "li":
        count(2)
        rd, value = register(operands[0]), number(operands[1], -(2**31), 2**32 - 1)
        return ("words", lambda at, to: two_parts(0x37, rd, value), 2, None)
    if word == "la":
        count(2)
        rd = register(operands[0])
        return ("words", lambda at, to: two_parts(0x17, rd, to - at), 2, name(operands[1]))
    if word == "mv":
        count(2)
        rd, rs1 = map(register, operands)
        return ("words", lambda at, to: [i_type(0x13, 0, rd, rs1, 0)], 1, None)
    if word == ".word":
        count(1)
        value = number(operands[0], -(2**31), 2**32 - 1)
        return ("words", lambda at, to: [value & 0xFFFFFFFF], 1, None)
    if word == ".byte":
        count(1)
        return ("bytes", bytes([number(operands[0], -128, 255) & 0xFF]))
    if word == ".zero":
        count(1)
        return ("bytes", bytes(number(operands[0], 0, 1048576)))
    if word == ".align":
        count(0)
        return ("align",)
    raise Broken


def size(statement, place):
    kind = statement[0]
    if kind == "words":
        return 4 * statement[2]
    if kind == "bytes":
        return len(statement[1])
    return -place % 4 if kind == "align" else 0


def assembled(text):
    """The file of a text, or the number of the first line that breaks a rule."""
    statements, places, labels, place = [], [], {}, HEADERS
    for line in text.split(b"\n"):
        try:
            statement = read(line)
        except Broken:
            statement = None
        statements.append(statement)
        places.append(place)
        if statement and statement[0] == "label":
            labels.setdefault(statement[1], (place, len(places)))
        place += size(statement, place) if statement else 0
    end, body = place, b""
    for line, (statement, place) in enumerate(zip(statements, places), 1):
        try:
            need(statement)
            need(place + size(statement, place) <= LIMIT)
            body += made(statement, line, place, labels, end)
        except Broken:
            return line
    entry = BASE + labels.get(b"_start", (HEADERS, 0))[0]
    return headers(entry, HEADERS + len(body)) + body


def made(statement, line, place, labels, end):
    kind = statement[0]
    if kind == "bytes":
        return statement[1]
    if kind == "align":
        return bytes(-place % 4)
    if kind == "label":
        need(labels[statement[1]][1] == line)
        if statement[1] == b"_start":
            need(place % 4 == 0 and (place < end or place % 4096))
        return b""
    if kind == "words":
        need(place % 4 == 0)
        target = None
        if statement[3] is not None:
            need(statement[3] in labels)
            target = labels[statement[3]][0]
        return b"".join((word & 0xFFFFFFFF).to_bytes(4, "little") for word in statement[1](place, target))
    return b""


def headers(entry, whole):
    def half(n):
        return n.to_bytes(2, "little")

    def word(n):
        return n.to_bytes(4, "little")

    ident = b"\x7fELF\x01\x01\x01" + bytes(9)
    header = ident + half(2) + half(243) + word(1) + word(entry) + word(52) + word(0) + word(0)
    header += half(52) + half(32) + half(1) + half(0) + half(0) + half(0)
    return header + word(1) + word(0) + word(BASE) + word(BASE) + word(whole) + word(whole) + word(7) + word(4096)
