"""What an instruction can trap with (docs/MACHINE.md, "Instructions")."""

from enum import IntEnum


class TrapSignal(IntEnum):
    """The signal of each cause of a trap."""

    ILLEGAL = 4
    BREAKPOINT = 5
    MISALIGNED = 7
    FAULT = 11


class Trap(Exception):
    """An instruction that traps; it has changed nothing."""

    def __init__(self, signal: TrapSignal) -> None:
        super().__init__(signal)
        self.signal = signal
