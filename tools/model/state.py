"""A plain state: the kernel part and each live process's user part (docs/MACHINE.md, "The state", "Threads")."""

from dataclasses import dataclass, field

from .bits import WORD_MASK, signed
from .decode import DISCARD
from .memory import Memory
from .objects import Channel, ChannelName, Description, DescriptionName, File

RA, SP, TP, A0, A1, A2, A7 = 1, 2, 4, 10, 11, 12, 17
FIRST_NUMBER = 40000
NUMBER_END = 2**31 - 1
"""The first number that no process or thread has."""
NOBODY = 1
SIGNALS = range(1, 32)
ALL_SIGNALS = 0x7FFFFFFF


def signal_bit(signal: int) -> int:
    """The bit of a signal in a mask or in what is pending."""
    return 1 << (signal - 1)


@dataclass
class Context:
    """What a handler interrupted: registers x1 to x31, pc and mask."""

    regs: list[int]
    pc: int
    mask: int


@dataclass
class Thread:
    """A thread, with the signals that are pending for it."""

    number: int
    regs: list[int] = field(default_factory=lambda: [0] * (DISCARD + 1))
    pc: int = 0
    mask: int = 0
    clear_word: int = 0
    contexts: list[Context] = field(default_factory=list)
    pending: int = 0

    def argument(self, index: int) -> int:
        """`a0` to `a5`."""
        return self.regs[A0 + index]

    def signed_argument(self, index: int) -> int:
        """`a0` to `a5` as a signed number."""
        return signed(self.argument(index))

    def answer(self, value: int) -> None:
        """Puts a call's answer and goes on at the next instruction."""
        self.regs[A0] = value & WORD_MASK
        self.pc = (self.pc + 4) & WORD_MASK


@dataclass
class Action:
    """What a process does on a signal."""

    handler: int = 0
    flags: int = 0
    mask: int = 0


@dataclass
class Waiter:
    """A thread that waits on a word."""

    thread: int
    address: int


@dataclass
class Descriptor:
    """What a descriptor's number refers to."""

    name: DescriptionName
    close_on_exec: int = 0


@dataclass
class Process:
    """A live process: its entry in the kernel part, and its user part."""

    number: int
    memory: Memory
    parent: int = NOBODY
    host: int = 0
    made: int = 1
    pending: int = 0
    threads: dict[int, Thread] = field(default_factory=dict)
    descriptors: dict[int, Descriptor] = field(default_factory=dict)
    actions: dict[int, Action] = field(default_factory=lambda: {signal: Action() for signal in SIGNALS})
    waiters: list[Waiter] = field(default_factory=list)

    def waits(self, thread: Thread) -> bool:
        """Whether a thread waits on a word."""
        return any(waiter.thread == thread.number for waiter in self.waiters)

    def wait_no_more(self, thread: Thread) -> None:
        """Takes a thread off the list of waiters."""
        self.waiters = [waiter for waiter in self.waiters if waiter.thread != thread.number]

    def wake(self, address: int, count: int) -> int:
        """The first threads that wait at the address get the answer 0 and go on; gives how many."""
        woken = [waiter for waiter in self.waiters if waiter.address == address][:count]
        for waiter in woken:
            thread = self.threads[waiter.thread]
            self.wait_no_more(thread)
            thread.answer(0)
        return len(woken)


@dataclass
class Zombie:
    """A process that has ended and for which its parent has not waited yet."""

    number: int
    parent: int
    host: int
    made: int
    status: int


@dataclass
class Machine:
    """A plain state, and what the console was given since the call began.

    `processes` are those that live."""

    next_id: int
    next_file: int
    processes: dict[int, Process]
    descriptions: dict[DescriptionName, Description]
    files: dict[int, File] = field(default_factory=dict)
    channels: dict[ChannelName, Channel] = field(default_factory=dict)
    zombies: dict[int, Zombie] = field(default_factory=dict)
    console: bytearray = field(default_factory=bytearray)

    @property
    def process(self) -> Process | None:
        """The live process with the least number."""
        return self.processes[min(self.processes)] if self.processes else None
