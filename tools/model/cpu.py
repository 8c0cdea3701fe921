"""A thread's instructions: a quantum, and where a thread stands (docs/MACHINE.md, "The state" and "Instructions")."""

from dataclasses import dataclass
from enum import Enum

from .decode import ECALL, KNOWN, Instruction, decode
from .memory import OFFSET_MASK, PAGE_SHIFT, WRITE, Foreseen, Memory
from .state import Thread
from .traps import Trap

QUANTUM = 4096
LAST_WORD = OFFSET_MASK - 3
"""The last place of a page at which a whole word begins."""


class StandsAt(Enum):
    """What comes next of a thread that waits on no word."""

    INSTRUCTION = "instruction"
    CALL = "call"
    TRAP = "trap"


@dataclass(frozen=True)
class Stand:
    """Where a thread stands, with the signal of a trap."""

    at: StandsAt
    signal: int = 0


def _fixed_pages(memory: Memory) -> set[int]:
    """The pages of which no instruction can change a byte."""
    return {number for number, page in memory.pages.items() if not page.rights & WRITE}


def run_quantum(thread: Thread, memory: Memory) -> int:
    """Runs up to 4,096 instructions, to the next call or trap, and gives how many."""
    regs, pc, count = thread.regs, thread.pc, 0
    fixed = _fixed_pages(memory)
    passed: dict[int, Instruction] = {}  # the instructions of fixed pages that were run
    try:
        while count < QUANTUM:
            instruction = passed.get(pc)
            if instruction is None:
                word = memory.fetch(pc)
                if word == ECALL:
                    break
                instruction = KNOWN.get(word) or decode(word)
                if pc >> PAGE_SHIFT in fixed and pc & OFFSET_MASK <= LAST_WORD:
                    passed[pc] = instruction
            pc = instruction(regs, memory, pc)
            count += 1
    except Trap:
        pass
    thread.pc = pc
    return count


def stands_at_call(thread: Thread, memory: Memory) -> bool:
    """Whether a thread stands at a call."""
    try:
        return memory.fetch(thread.pc) == ECALL
    except Trap:
        return False


def look(thread: Thread, memory: Memory) -> Stand:
    """Where a thread stands; it changes nothing."""
    try:
        word = memory.fetch(thread.pc)
        if word == ECALL:
            return Stand(StandsAt.CALL)
        instruction = KNOWN.get(word) or decode(word)
        instruction(list(thread.regs), Foreseen(memory), thread.pc)
    except Trap as trap:
        return Stand(StandsAt.TRAP, int(trap.signal))
    return Stand(StandsAt.INSTRUCTION)
