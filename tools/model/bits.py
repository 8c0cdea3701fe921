"""Words of 32 bits, as docs/MACHINE.md, "Instructions", speaks of them."""

WORD_MASK = 0xFFFFFFFF
WORD_LIMIT = 1 << 32


def signed(word: int) -> int:
    """The signed number that a word stands for."""
    return word - WORD_LIMIT if word & 0x80000000 else word


def with_sign(value: int, bits: int) -> int:
    """The number of so many bits, with its sign from the highest one."""
    return value - (1 << bits) if value >> (bits - 1) & 1 else value


def word_bytes(word: int) -> bytes:
    """A word as four bytes, the least significant first."""
    return word.to_bytes(4, "little")


def words_bytes(words: list[int]) -> bytes:
    """Words one after the other."""
    return b"".join(word_bytes(word) for word in words)
