"""Calls with small and edge arguments, chosen at random on a state."""

from collections.abc import Callable
from dataclasses import dataclass
from random import Random

from ..addresses import address_bytes
from ..bits import words_bytes
from ..numbers import Number
from ..objects import NONBLOCK, Address, ChannelEnd, Counter, DatagramEnd, Listener, OpenFile, Socket
from ..state import Process
from .bench import CODE, DATA, FIRST, HERE, LOCKED, NOWHERE, TEXT, Bench

MOST_PROCESSES, FEWEST_PROCESSES, MOST_THREADS = 6, 2, 5
CLOEXEC, CREAT, EXCL, TRUNC, APPEND = 0x80000, 0x40, 0x80, 0x200, 0x400
FORK, THREAD, NO_FORM, SETTLS = 17, 0x10F00, 16, 0x80000
SETOWN = 8
NAMES = [b"a", b"a", b"a", b"b", b"", b"c" * 255, b"d" * 300]
PORTS = [0, 80, 81, 32_768, 65_535]
HOSTS = [(0, 0, 0, 0), (127, 0, 0, 1), (10, 0, 0, 1), (10, 0, 0, 2), (10, 0, 0, 17), (8, 8, 8, 8)]
FAMILIES = [2, 2, 2, 2, 2, 1]
LENGTHS = [0, 1, 2, 15, 16, 17, 9000]
GREATEST, ALL_ONES = (2**64 - 2).to_bytes(8, "little"), b"\xff" * 8
"""What can be added to a counter that is 0, and what can't be to any."""
LENGTH_PLACE, WORD = DATA + 64, DATA + 4096


@dataclass
class Chooser:
    """Choices on a state."""

    rng: Random
    bench: Bench

    def next_call(self, process: Process) -> tuple[Number, list[int]]:
        """A call with its arguments: few end something, and the last two processes never end themselves."""
        number = self.rng.choices(list(ARGUMENTS), WEIGHTS)[0]
        ends = number is Number.EXIT_GROUP or (number is Number.EXIT and len(process.threads) == 1)
        if ends and len(self.bench.machine.processes) <= FEWEST_PROCESSES:
            number = Number.GETPID
        return number, [choose(self, process) for choose in ARGUMENTS[number]]


Choice = Callable[[Chooser, Process], int]


def one_of(*values: int) -> Choice:
    """One of these."""
    return lambda chooser, _: chooser.rng.choice(values)


def descriptor(*kinds: type) -> Choice:
    """A descriptor, mostly of an object of these kinds, and now and then one that is not there."""

    def choose(chooser: Chooser, process: Process) -> int:
        if chooser.rng.random() < 0.04:
            return chooser.rng.choice([255, 256, -1])
        known = {fd: chooser.bench.object(fd, process.number) for fd in process.descriptors}
        meant = [fd for fd, what in known.items() if isinstance(what, kinds)]
        found = meant if meant and chooser.rng.random() < 0.85 else list(known)
        return chooser.rng.choice(found) if found else 0

    return choose


def of_some_kind(*choices: Choice) -> Choice:
    """What one of these choices gives."""
    return lambda chooser, process: chooser.rng.choice(choices)(chooser, process)


def place(usual: int) -> Choice:
    """Where a buffer is, now and then where none can be."""
    wrong = one_of(LOCKED, NOWHERE, 0, 0xFFFFFFFF)
    return lambda chooser, process: wrong(chooser, process) if chooser.rng.random() < 0.05 else usual


def filled(usual: int, make: Callable[[Chooser], bytes]) -> Choice:
    """Where a buffer is, which has bytes that are made for it."""

    def choose(chooser: Chooser, process: Process) -> int:
        process.memory.poke(usual, make(chooser))
        return place(usual)(chooser, process)

    return choose


def _address(chooser: Chooser) -> bytes:
    """An address, mostly one at which somebody listens."""
    held = chooser.bench.machine.descriptions.values()
    listeners = [one.object.address for one in held if isinstance(one.object, Listener)]
    if listeners and chooser.rng.random() < 0.6:
        return address_bytes(chooser.rng.choice(listeners))
    found = address_bytes(Address(0, chooser.rng.choice(PORTS)))
    return bytes([chooser.rng.choice(FAMILIES), *found[1:4], *chooser.rng.choice(HOSTS), *found[8:]])


def _action(chooser: Chooser) -> bytes:
    """An action of a signal."""
    handler, flags = chooser.rng.choice([CODE, CODE, CODE, 1, 0]), chooser.rng.choice([0, 0x10000000, 0x40000000])
    return words_bytes([handler, flags, 0, 0])


def number_of_process(chooser: Chooser, _process: Process) -> int:
    """The number of a process, mostly of one that lives."""
    live = list(chooser.bench.machine.processes)
    return chooser.rng.choice([0, -1, 1, FIRST + 99, *live, *live])


def number_of_thread(chooser: Chooser, process: Process) -> int:
    """The number of a thread of the process, or of none."""
    return chooser.rng.choice([*process.threads, 7])


def form(chooser: Chooser, process: Process) -> int:
    """The flags of a fork or a thread, as far as there is room for them in a small state."""
    forks = [FORK] * 3 if len(chooser.bench.machine.processes) < MOST_PROCESSES else []
    threads = [THREAD] if len(process.threads) < MOST_THREADS else []
    options = chooser.rng.choice([0, 0, 0x100000, 0x1000000, 0x200000, SETTLS])
    return chooser.rng.choice([*forks, *threads] or [NO_FORM]) | options


def nothing(_chooser: Chooser, _process: Process) -> int:
    """0."""
    return 0


ANY = descriptor()
DATA_HOLDER = of_some_kind(
    *[descriptor(kind) for kind in (ChannelEnd, DatagramEnd, Counter, OpenFile)], descriptor(Socket, Listener), ANY)
SMALL = one_of(0, 1, 2, 3, 5, 255, 256, -1, 1 << 31, CLOEXEC, NONBLOCK, APPEND)
COUNT = one_of(0, 1, 2, 3, 8, 9, 100, 4096, 4097, 8192, 8193)
SIGNAL = one_of(0, 1, 10, 10, 13, 17, 17, 23, 9, 31, 18, 22, 32)
MADE = one_of(0, NONBLOCK, CLOEXEC, 1)
CODE_OF_END = one_of(0, 1, 255, 256)
PLACE = place(DATA)
PATH = filled(TEXT, lambda chooser: chooser.rng.choice(NAMES) + b"\0")
FOLDER = one_of(*[HERE] * 9, 3)
ADDRESS = filled(TEXT, _address)
LENGTH = filled(LENGTH_PLACE, lambda chooser: words_bytes([chooser.rng.choice(LENGTHS)]))
CONTENT = filled(DATA, lambda chooser: chooser.rng.choice([chooser.rng.randbytes(40), GREATEST, ALL_ONES]))
OPENING = one_of(0, 1, 2, 3, CREAT, CREAT | 2, CREAT | APPEND | 2, CREAT | EXCL, TRUNC | CREAT | 2, CLOEXEC | NONBLOCK)
CLOSED = of_some_kind(ANY, descriptor(DatagramEnd, Listener), descriptor(ChannelEnd))
NAMED = descriptor(Socket, Listener, ChannelEnd, DatagramEnd)
CHILD = of_some_kind(one_of(-1), number_of_process)
SIXTEEN = one_of(16, 16, 16, 16, 15, 200)
COMMAND = one_of(0, 1, 2, 3, 4, 4, SETOWN, SETOWN, 9, 1030, 7)

ARGUMENTS: dict[Number, tuple[Choice, ...]] = {
    Number.EVENTFD2: (one_of(0, 1, -1), MADE),
    Number.DUP: (ANY,),
    Number.DUP3: (ANY, one_of(0, 3, 9, 255, 256), one_of(0, CLOEXEC, 1)),
    Number.FCNTL: (ANY, COMMAND, of_some_kind(SMALL, number_of_process)),
    Number.CLOSE: (CLOSED,),
    Number.UNLINKAT: (FOLDER, PATH, one_of(0, 0, 1)),
    Number.OPENAT: (FOLDER, PATH, OPENING),
    Number.LSEEK: (descriptor(OpenFile), SMALL, one_of(0, 1, 2, 3)),
    Number.PIPE2: (PLACE, MADE),
    Number.READ: (DATA_HOLDER, PLACE, COUNT),
    Number.WRITE: (DATA_HOLDER, CONTENT, COUNT),
    Number.SOCKETPAIR: (one_of(*[1] * 8, 2, 3), one_of(1, 2, 0x801, 0x80002, 3), one_of(*[0] * 8, 1), PLACE),
    Number.SOCKET: (one_of(2, 2, 2, 1), one_of(1, 1, 0x801, 2), one_of(0, 6, 0, 17)),
    Number.BIND: (descriptor(Socket), ADDRESS, SIXTEEN),
    Number.LISTEN: (descriptor(Socket), one_of(0, 1, 1, -1)),
    Number.ACCEPT: (descriptor(Listener), PLACE, LENGTH),
    Number.CONNECT: (descriptor(Socket), ADDRESS, SIXTEEN),
    Number.GETSOCKNAME: (NAMED, PLACE, LENGTH),
    Number.GETPEERNAME: (NAMED, PLACE, LENGTH),
    Number.SETSOCKOPT: (NAMED,),
    Number.SHUTDOWN: (NAMED, one_of(0, 1, 2, 3)),
    Number.EXIT: (CODE_OF_END,),
    Number.EXIT_GROUP: (CODE_OF_END,),
    Number.KILL: (number_of_process, SIGNAL),
    Number.TGKILL: (number_of_process, number_of_thread, SIGNAL),
    Number.GETPID: (),
    Number.GETPPID: (),
    Number.CLONE: (form, nothing, place(DATA), nothing, place(DATA + 4)),
    Number.WAIT4: (CHILD, of_some_kind(nothing, PLACE), one_of(0, 1, 1, 2), nothing),
    Number.FUTEX: (one_of(WORD), one_of(0, 1, 1), nothing, nothing),
    Number.RT_SIGACTION: (one_of(1, 9, 10, 13, 31), filled(DATA, _action), nothing, one_of(8)),
    Number.RT_SIGRETURN: (),
}
OFTEN = {
    1: [Number.EXIT, Number.EXIT_GROUP, Number.GETPID, Number.GETPPID, Number.FUTEX],
    2: [Number.KILL, Number.TGKILL, Number.DUP, Number.RT_SIGACTION, Number.SETSOCKOPT],
    3: [Number.PIPE2, Number.EVENTFD2, Number.DUP3, Number.UNLINKAT],
    4: [Number.FCNTL, Number.CLOSE, Number.LSEEK, Number.GETSOCKNAME, Number.GETPEERNAME, Number.SHUTDOWN],
    5: [Number.SOCKETPAIR, Number.WAIT4, Number.CLONE, Number.RT_SIGRETURN, Number.OPENAT],
    7: [Number.BIND, Number.LISTEN, Number.SOCKET],
    12: [Number.ACCEPT, Number.CONNECT],
    16: [Number.READ, Number.WRITE],
}
"""How often each call is made."""
WEIGHTS = [weight for number in ARGUMENTS for weight, numbers in OFTEN.items() if number in numbers]
