"""The routines of a guest: keeping and writing records, mixing registers and memory into the checksum."""

from guests.builder import A0, A7, AREA, FREE, T1, T2, TAG, VALUE, Area, Guest
from guests.layout import LINK
from riscv import (
    ECALL, immediate_word, jalr_word, load_word, register_word, shift_word, store_word,
)

BACK = jalr_word(0, 0, LINK)


def mixed(register: int) -> list[int]:
    """T1 = 33 * T1 xor a register, through T2."""
    return [
        shift_word("slli", T2, T1, 5), register_word("add", T1, T1, T2), register_word("xor", T1, T1, register),
    ]


def put_record(guest: Guest) -> None:
    """Puts TAG and VALUE behind the records and mixes them into the checksum. The first records give way when the area
    is full."""
    text = guest.text
    text.label("record")
    text.put(
        load_word("lw", T1, Area.NEXT, AREA), store_word("sw", TAG, 0, T1), store_word("sw", VALUE, 4, T1),
        immediate_word("addi", T1, T1, 8), store_word("sw", T1, Area.NEXT, AREA),
        load_word("lw", T1, Area.CHECKSUM, AREA), *mixed(TAG), *mixed(VALUE), store_word("sw", T1, Area.CHECKSUM, AREA),
        load_word("lw", T1, Area.NEXT, AREA), immediate_word("addi", T2, AREA, Area.END),
    )
    text.branch("bltu", T1, T2, "record.fits")
    text.put(immediate_word("addi", T1, AREA, Area.RECORDS), store_word("sw", T1, Area.NEXT, AREA))
    text.label("record.fits")
    text.put(BACK)


def put_flush(guest: Guest) -> None:
    """Writes the block to the descriptor in a0, and begins a new one."""
    text = guest.text
    text.label("flush")
    text.put(
        load_word("lw", T1, Area.NEXT, AREA), immediate_word("addi", 11, AREA, Area.BLOCK),
        register_word("sub", 12, T1, 11), store_word("sw", 12, Area.BLOCK + 4, AREA),
        load_word("lw", T1, Area.CHECKSUM, AREA), store_word("sw", T1, Area.BLOCK + 8, AREA),
        immediate_word("addi", A7, 0, 64), ECALL,
        immediate_word("addi", T1, AREA, Area.RECORDS), store_word("sw", T1, Area.NEXT, AREA), BACK,
    )


def put_mix_registers(guest: Guest) -> None:
    """Mixes all registers that random instructions write into the checksum."""
    guest.text.label("mix_registers")
    guest.text.put(load_word("lw", T1, Area.CHECKSUM, AREA))
    for register in FREE:
        guest.text.put(*mixed(register))
    guest.text.put(store_word("sw", T1, Area.CHECKSUM, AREA), BACK)


def put_mix_memory(guest: Guest) -> None:
    """Mixes the words at TAG, VALUE of them and at least one, into the checksum."""
    text = guest.text
    text.label("mix_memory")
    text.put(load_word("lw", T1, Area.CHECKSUM, AREA))
    text.label("mix_memory.word")
    text.put(shift_word("slli", T2, T1, 5), register_word("add", T1, T1, T2), load_word("lw", T2, 0, TAG))
    text.put(register_word("xor", T1, T1, T2), immediate_word("addi", TAG, TAG, 4))
    text.put(immediate_word("addi", VALUE, VALUE, -1))
    text.branch("bne", VALUE, 0, "mix_memory.word")
    text.put(store_word("sw", T1, Area.CHECKSUM, AREA), BACK)


def put_routines(guest: Guest) -> None:
    put_record(guest)
    put_flush(guest)
    put_mix_registers(guest)
    put_mix_memory(guest)


def mix_registers(guest: Guest) -> None:
    guest.text.jump("mix_registers", LINK)


def mix_memory(guest: Guest, address: int, words: int) -> None:
    """Mixes words of memory that can be read."""
    guest.text.number(TAG, address)
    guest.text.number(VALUE, words)
    guest.text.jump("mix_memory", LINK)


def mix_own(guest: Guest) -> None:
    """Mixes the 64 bytes of the thread's area that calls write."""
    guest.text.put(immediate_word("addi", TAG, AREA, Area.BYTES))
    guest.text.number(VALUE, 16)
    guest.text.jump("mix_memory", LINK)


__all__ = ["A0", "mix_memory", "mix_own", "mix_registers", "put_routines"]
