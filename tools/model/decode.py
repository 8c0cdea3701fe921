"""Words to instructions (docs/MACHINE.md, "Instructions").

An instruction is a function of the registers, the memory and `pc`. It gives the next `pc`, or traps and changes
nothing.
"""

from typing import Callable

from .alu import BRANCH_TESTS, IMMEDIATE_OPERATIONS, REGISTER_OPERATIONS, SHIFT_OPERATIONS
from .bits import WORD_MASK, with_sign
from .memory import Foreseen, Memory
from .traps import Trap, TrapSignal

Instruction = Callable[[list[int], Memory | Foreseen, int], int]

ECALL = 0x00000073
EBREAK = 0x00100073
DISCARD = 32
"""Registers are a list of 33: what is written to x0 goes to this place, which nobody reads."""


def rd_of(word: int) -> int:
    """The place of the register that is written."""
    return word >> 7 & 31 or DISCARD


def funct3_of(word: int) -> int:
    """Bits 14 to 12."""
    return word >> 12 & 7


def rs1_of(word: int) -> int:
    """Bits 19 to 15."""
    return word >> 15 & 31


def rs2_of(word: int) -> int:
    """Bits 24 to 20."""
    return word >> 20 & 31


def funct7_of(word: int) -> int:
    """Bits 31 to 25."""
    return word >> 25


def i_immediate(word: int) -> int:
    """Format I."""
    return with_sign(word >> 20, 12)


def s_immediate(word: int) -> int:
    """Format S."""
    return with_sign((word >> 25) << 5 | word >> 7 & 31, 12)


def b_immediate(word: int) -> int:
    """Format B."""
    bits = (word >> 31) << 12 | (word >> 7 & 1) << 11 | (word >> 25 & 0x3F) << 5 | (word >> 8 & 15) << 1
    return with_sign(bits, 13)


def j_immediate(word: int) -> int:
    """Format J."""
    bits = (word >> 31) << 20 | (word >> 12 & 0xFF) << 12 | (word >> 20 & 1) << 11 | (word >> 21 & 0x3FF) << 1
    return with_sign(bits, 21)


def _lui(word: int) -> Instruction:
    rd, value = rd_of(word), word & 0xFFFFF000

    def lui(regs: list[int], _memory: Memory, pc: int) -> int:
        regs[rd] = value
        return (pc + 4) & WORD_MASK

    return lui


def _auipc(word: int) -> Instruction:
    rd, value = rd_of(word), word & 0xFFFFF000

    def auipc(regs: list[int], _memory: Memory, pc: int) -> int:
        regs[rd] = (pc + value) & WORD_MASK
        return (pc + 4) & WORD_MASK

    return auipc


def _jal(word: int) -> Instruction:
    rd, offset = rd_of(word), j_immediate(word)

    def jal(regs: list[int], _memory: Memory, pc: int) -> int:
        target = (pc + offset) & WORD_MASK
        if target & 3:
            raise Trap(TrapSignal.MISALIGNED)
        regs[rd] = (pc + 4) & WORD_MASK
        return target

    return jal


def _jalr(word: int) -> Instruction | None:
    if funct3_of(word) != 0:
        return None
    rd, rs1, offset = rd_of(word), rs1_of(word), i_immediate(word)

    def jalr(regs: list[int], _memory: Memory, pc: int) -> int:
        target = (regs[rs1] + offset) & WORD_MASK & ~1
        if target & 3:
            raise Trap(TrapSignal.MISALIGNED)
        regs[rd] = (pc + 4) & WORD_MASK
        return target

    return jalr


def _branch(word: int) -> Instruction | None:
    test = BRANCH_TESTS.get(funct3_of(word))
    if test is None:
        return None
    rs1, rs2, offset = rs1_of(word), rs2_of(word), b_immediate(word)

    def branch(regs: list[int], _memory: Memory, pc: int) -> int:
        if not test(regs[rs1], regs[rs2]):
            return (pc + 4) & WORD_MASK
        target = (pc + offset) & WORD_MASK
        if target & 3:
            raise Trap(TrapSignal.MISALIGNED)
        return target

    return branch


LOAD_SIZES = {0: 1, 1: 2, 2: 4, 4: 1, 5: 2}
STORE_SIZES = {0: 1, 1: 2, 2: 4}


def _load(word: int) -> Instruction | None:
    size = LOAD_SIZES.get(funct3_of(word))
    if size is None:
        return None
    rd, rs1, offset = rd_of(word), rs1_of(word), i_immediate(word)
    sign_bits = 8 * size if funct3_of(word) < 2 else 0

    def load(regs: list[int], memory: Memory, pc: int) -> int:
        value = memory.load((regs[rs1] + offset) & WORD_MASK, size)
        regs[rd] = with_sign(value, sign_bits) & WORD_MASK if sign_bits else value
        return (pc + 4) & WORD_MASK

    return load


def _store(word: int) -> Instruction | None:
    size = STORE_SIZES.get(funct3_of(word))
    if size is None:
        return None
    rs1, rs2, offset = rs1_of(word), rs2_of(word), s_immediate(word)
    mask = (1 << 8 * size) - 1

    def store(regs: list[int], memory: Memory, pc: int) -> int:
        memory.store((regs[rs1] + offset) & WORD_MASK, size, regs[rs2] & mask)
        return (pc + 4) & WORD_MASK

    return store


def _immediate(word: int) -> Instruction | None:
    compute = IMMEDIATE_OPERATIONS.get(funct3_of(word))
    value = i_immediate(word) & WORD_MASK
    if compute is None:
        compute = SHIFT_OPERATIONS.get(funct7_of(word), {}).get(funct3_of(word))
        value = rs2_of(word)
    if compute is None:
        return None
    rd, rs1 = rd_of(word), rs1_of(word)

    def immediate(regs: list[int], _memory: Memory, pc: int) -> int:
        regs[rd] = compute(regs[rs1], value)
        return (pc + 4) & WORD_MASK

    return immediate


def _register(word: int) -> Instruction | None:
    compute = REGISTER_OPERATIONS.get(funct7_of(word), {}).get(funct3_of(word))
    if compute is None:
        return None
    rd, rs1, rs2 = rd_of(word), rs1_of(word), rs2_of(word)

    def register(regs: list[int], _memory: Memory, pc: int) -> int:
        regs[rd] = compute(regs[rs1], regs[rs2])
        return (pc + 4) & WORD_MASK

    return register


def _fence(word: int) -> Instruction | None:
    def fence(_regs: list[int], _memory: Memory, pc: int) -> int:
        return (pc + 4) & WORD_MASK

    return fence if funct3_of(word) == 0 else None


def _system(word: int) -> Instruction | None:
    """`ebreak` alone: who runs instructions stops at an `ecall` before it is decoded."""

    def ebreak(_regs: list[int], _memory: Memory, _pc: int) -> int:
        raise Trap(TrapSignal.BREAKPOINT)

    return ebreak if word == EBREAK else None


def _no_instruction(_regs: list[int], _memory: Memory, _pc: int) -> int:
    raise Trap(TrapSignal.ILLEGAL)


BY_OPCODE: dict[int, Callable[[int], Instruction | None]] = {
    0x37: _lui,
    0x17: _auipc,
    0x6F: _jal,
    0x67: _jalr,
    0x63: _branch,
    0x03: _load,
    0x23: _store,
    0x13: _immediate,
    0x33: _register,
    0x0F: _fence,
    0x73: _system,
}

KNOWN: dict[int, Instruction] = {}
"""The words that were decoded so far."""


def decode(word: int) -> Instruction:
    """The instruction of a word; one that traps where the word has none."""
    make = BY_OPCODE.get(word & 0x7F)
    instruction = make(word) if make else None
    KNOWN[word] = instruction or _no_instruction
    return KNOWN[word]
