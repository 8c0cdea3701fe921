"""Random rows of calls, arrivals and signals on a small state, each looked at before and after."""

import pickle
from collections import Counter, defaultdict
from dataclasses import dataclass, field
from random import Random

from ..calls import make_call
from ..local_calls import NEVER_HANDLED
from ..memory import READ
from ..numbers import Errno, Number
from ..objects import ChannelEnd, DirectionName
from ..rounds import arrivals
from ..signals import Cause, deliver, due_signal, waits_at_call
from ..state import A0, SIGNALS, Action, Process, Thread
from ..validity import broken
from .bench import CODE, DATA, TEXT, Bench
from .random_calls import Chooser

CALLS_UNTIL_ARRIVALS, CALLS_UNTIL_SIGNALS, CALLS_UNTIL_WATCHED = 4, 6, 3
"""After so many calls, on average, something else happens, or is looked at."""
ANSWERED, ENDED, WAITED = "answered", "ended", "waits"


def kernel_print(bench: Bench) -> bytes:
    """All that processes share, as bytes."""
    machine = bench.machine
    live = machine.processes.values()
    entries = [(one.number, one.parent, one.made, one.pending, one.descriptors) for one in live]
    pending = [thread.pending for one in live for thread in one.threads.values()]
    shared = (machine.descriptions, machine.channels, machine.files, machine.zombies, entries, pending)
    return pickle.dumps((machine.next_id, machine.next_file, bytes(machine.console), shared))


def user_print(process: Process) -> bytes:
    """A process's user part, as bytes; it has no instruction that changes more of its memory."""
    pages = [bytes(process.memory.pages[place >> 12].data) for place in (DATA, DATA + 4096, TEXT)]
    threads = [(one.regs, one.pc, one.mask, one.contexts, one.clear_word) for one in process.threads.values()]
    return pickle.dumps((pages, threads, process.actions, process.waiters))


@dataclass
class Walk:
    """A state, what was reached on the way to it, and what was wrong."""

    rng: Random
    bench: Bench = field(default_factory=lambda: Bench((0, 0, 1)))
    reached: Counter[tuple[Number, str]] = field(default_factory=Counter)
    wrong: list[str] = field(default_factory=list)
    chooser: Chooser = field(init=False)
    sent: dict[DirectionName, bytearray] = field(default_factory=lambda: defaultdict(bytearray))

    def __post_init__(self) -> None:
        self.chooser = Chooser(self.rng, self.bench)
        for process in self.bench.machine.processes.values():
            process.actions |= {signal: Action(CODE) for signal in SIGNALS if signal not in NEVER_HANDLED}

    def step(self) -> None:
        """One record of some kind, where somebody lives."""
        machine = self.bench.machine
        if not machine.processes:
            return
        self.rng.randrange(CALLS_UNTIL_ARRIVALS) or list(arrivals(machine))
        process = self.rng.choice(list(machine.processes.values()))
        thread = self.rng.choice(list(process.threads.values()))
        signal = due_signal(process, thread)
        if signal is not None and (process.waits(thread) or not self.rng.randrange(CALLS_UNTIL_SIGNALS)):
            deliver(machine, process, thread, signal, Cause.PENDING)
        elif not process.waits(thread):
            self.call(process, thread)
        self.wrong += broken(machine)

    def call(self, process: Process, thread: Thread) -> None:
        """A random call, which is made where it is ready."""
        number, arguments = self.chooser.next_call(process)
        others = [one for one in self.bench.machine.processes.values() if one is not process]
        watched = [] if self.rng.randrange(CALLS_UNTIL_WATCHED) else others
        shared, parts = kernel_print(self.bench) if watched else b"", [user_print(one) for one in watched]
        self.bench.ready_at(number, tuple(arguments), process.number, thread.number)
        came = self.made(number, arguments, process, thread)
        self.reached[number, came] += 1
        if watched and came not in (ANSWERED, ENDED, Errno.EPIPE.name):
            self.test(kernel_print(self.bench) == shared, f"{number.name} changes what is shared: {came}")
        self.test([user_print(one) for one in watched] == parts, f"{number.name} changes another process's part")

    def test(self, holds: bool, what: str) -> None:
        """Something that is to hold."""
        self.wrong += [] if holds else [what]

    def made(self, number: Number, arguments: list[int], process: Process, thread: Thread) -> str:
        """What a call comes to, which is made where it is ready."""
        if waits_at_call(self.bench.machine, process, thread):
            return WAITED
        data = self.data_of(number, process, arguments)
        make_call(self.bench.machine, process, thread)
        answer = (1 << 32) - thread.regs[A0]
        if thread.number not in process.threads or process.number not in self.bench.machine.processes:
            return ENDED
        self.follow(number, process, arguments, data, thread.regs[A0])
        if number is Number.RT_SIGRETURN or answer not in list(Errno):
            return ANSWERED
        return Errno(answer).name

    def data_of(self, number: Number, process: Process, arguments: list[int]) -> bytes:
        """What a write writes."""
        place, count = arguments[1:3] if number is Number.WRITE else (0, 0)
        return process.memory.peek(place, count) if process.memory.allows(place, count, READ) else b""

    def follow(self, number: Number, process: Process, arguments: list[int], data: bytes, answer: int) -> None:
        """What is read of a direction is what was written to it, in that order."""
        if number not in (Number.READ, Number.WRITE) or answer >> 31 or arguments[0] not in process.descriptors:
            return
        end = self.bench.object(arguments[0], process.number)
        if not isinstance(end, ChannelEnd):
            return
        if number is Number.WRITE:
            self.sent[DirectionName(end.channel, end.side)] += data[:answer]
            return
        sent = self.sent[DirectionName(end.channel, 1 - end.side)]
        self.test(process.memory.peek(DATA, answer) == sent[:answer], "bytes are read that were not written")
        del sent[:answer]
