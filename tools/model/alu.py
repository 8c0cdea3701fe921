"""What instructions compute, on words and to words (docs/MACHINE.md, "Instructions", the table)."""

from typing import Callable

from .bits import WORD_MASK, signed

Compute = Callable[[int, int], int]

SIGN_BIT = 0x80000000


def add(a: int, b: int) -> int:
    """Sum modulo 2^32."""
    return (a + b) & WORD_MASK


def sub(a: int, b: int) -> int:
    """Difference modulo 2^32."""
    return (a - b) & WORD_MASK


def sll(a: int, b: int) -> int:
    """Shift to the left by the lowest five bits."""
    return (a << (b & 31)) & WORD_MASK


def slt(a: int, b: int) -> int:
    """1 where less, signed."""
    return 1 if a ^ SIGN_BIT < b ^ SIGN_BIT else 0


def sltu(a: int, b: int) -> int:
    """1 where less, unsigned."""
    return 1 if a < b else 0


def xor(a: int, b: int) -> int:
    """Exclusive or."""
    return a ^ b


def srl(a: int, b: int) -> int:
    """Shift to the right, unsigned."""
    return a >> (b & 31)


def sra(a: int, b: int) -> int:
    """Shift to the right, signed."""
    return (signed(a) >> (b & 31)) & WORD_MASK


def bit_or(a: int, b: int) -> int:
    """Or."""
    return a | b


def bit_and(a: int, b: int) -> int:
    """And."""
    return a & b


def mul(a: int, b: int) -> int:
    """The lower word of the product."""
    return (a * b) & WORD_MASK


def mulh(a: int, b: int) -> int:
    """The upper word, both signed."""
    return (signed(a) * signed(b) >> 32) & WORD_MASK


def mulhsu(a: int, b: int) -> int:
    """The upper word, the first signed and the second unsigned."""
    return (signed(a) * b >> 32) & WORD_MASK


def mulhu(a: int, b: int) -> int:
    """The upper word, both unsigned."""
    return a * b >> 32


def _toward_zero(a: int, b: int) -> int:
    """The quotient of signed numbers, rounded toward 0."""
    quotient = abs(a) // abs(b)
    return quotient if (a < 0) == (b < 0) else -quotient


def div(a: int, b: int) -> int:
    """The signed quotient; -2^31 / -1 is -2^31 modulo 2^32."""
    if b == 0:
        return WORD_MASK
    return _toward_zero(signed(a), signed(b)) & WORD_MASK


def divu(a: int, b: int) -> int:
    """The unsigned quotient."""
    return a // b if b else WORD_MASK


def rem(a: int, b: int) -> int:
    """What `div` leaves."""
    if b == 0:
        return a
    left, right = signed(a), signed(b)
    return (left - _toward_zero(left, right) * right) & WORD_MASK


def remu(a: int, b: int) -> int:
    """What `divu` leaves."""
    return a % b if b else a


# By funct7, then funct3: opcode 0x33.
REGISTER_OPERATIONS: dict[int, dict[int, Compute]] = {
    0x00: {0: add, 1: sll, 2: slt, 3: sltu, 4: xor, 5: srl, 6: bit_or, 7: bit_and},
    0x01: {0: mul, 1: mulh, 2: mulhsu, 3: mulhu, 4: div, 5: divu, 6: rem, 7: remu},
    0x20: {0: sub, 5: sra},
}

# By funct3: opcode 0x13, but for the shifts.
IMMEDIATE_OPERATIONS: dict[int, Compute] = {0: add, 2: slt, 3: sltu, 4: xor, 6: bit_or, 7: bit_and}

# By funct7, then funct3: the shifts of opcode 0x13.
SHIFT_OPERATIONS: dict[int, dict[int, Compute]] = {0x00: {1: sll, 5: srl}, 0x20: {5: sra}}


def _equal(a: int, b: int) -> bool:
    return a == b


def _differ(a: int, b: int) -> bool:
    return a != b


def _less(a: int, b: int) -> bool:
    return a ^ SIGN_BIT < b ^ SIGN_BIT


def _not_less(a: int, b: int) -> bool:
    return a ^ SIGN_BIT >= b ^ SIGN_BIT


def _less_unsigned(a: int, b: int) -> bool:
    return a < b


def _not_less_unsigned(a: int, b: int) -> bool:
    return a >= b


# By funct3: opcode 0x63.
BRANCH_TESTS: dict[int, Callable[[int, int], bool]] = {
    0: _equal,
    1: _differ,
    4: _less,
    5: _not_less,
    6: _less_unsigned,
    7: _not_less_unsigned,
}
