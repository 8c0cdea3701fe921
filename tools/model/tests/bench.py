"""Small states, and calls that are made on them one by one."""

import unittest
from dataclasses import dataclass, field
from enum import Enum

from ..addresses import address_bytes
from ..bits import signed, words_bytes
from ..calls import is_ready, make_call
from ..memory import EXECUTE, PAGE_SIZE, READ, WRITE, Memory, Page, blank_page
from ..numbers import Number
from ..objects import READ_AND_WRITE, Address, Channel, ChannelEnd, Description, DescriptionName, Object
from ..rounds import arrivals
from ..start import RETURN_CODE, RETURN_PAGE, whole_page
from ..state import A0, A7, FIRST_NUMBER, Descriptor, Machine, Process, Thread
from ..trace import Record
from ..validity import broken
from .guests import ECALL

CODE, DATA, TEXT, LOCKED = 0x10000, 0x20000, 0x22000, 0x23000
"""A page of `ecall`, two pages to read and write, one for paths and addresses, and one that can only be read."""
NOWHERE = 0x90000
CALLS = words_bytes([ECALL]) * (PAGE_SIZE // 4)
FIRST, SECOND, THIRD = FIRST_NUMBER, FIRST_NUMBER + 1, FIRST_NUMBER + 2
HERE = -100
"""The directory of calls that name files."""


class Came(Enum):
    """What a call comes to beside an answer."""

    WAITS = "it waits"
    ENDS = "its thread is no more"


def small_memory() -> Memory:
    """The pages of a process of these tests."""
    memory = Memory(0x30000, 0x30000)
    memory.pages[CODE >> 12] = Page(bytearray(CALLS), READ | EXECUTE)
    for address in (DATA, DATA + PAGE_SIZE, TEXT):
        memory.pages[address >> 12] = blank_page(READ | WRITE)
    memory.pages[LOCKED >> 12] = blank_page(READ)
    memory.pages[RETURN_PAGE] = Page(bytearray(whole_page(RETURN_CODE)), READ | EXECUTE)
    return memory


def small_process(number: int, host: int) -> Process:
    """A process with one thread and the console on descriptors 0, 1 and 2."""
    descriptors = {place: Descriptor(DescriptionName(number, 0)) for place in range(3)}
    threads = {number: Thread(number, pc=CODE)}
    return Process(number, small_memory(), host=host, threads=threads, descriptors=descriptors)


def small_machine(hosts: tuple[int, ...]) -> Machine:
    """A process for each host, numbered from 40000 on."""
    processes = {number: small_process(number, host) for number, host in enumerate(hosts, start=FIRST)}
    consoles = {DescriptionName(number, 0): Description(READ_AND_WRITE) for number in processes}
    return Machine(FIRST + len(hosts), 1, processes, consoles)


@dataclass
class Bench:
    """A state, which after each call must be valid unless it was spoiled."""

    hosts: tuple[int, ...] = (0,)
    is_spoiled: bool = False
    machine: Machine = field(init=False)
    broken_rules: list[str] = field(default_factory=list)

    def __post_init__(self) -> None:
        self.machine = small_machine(self.hosts)

    def process(self, pid: int = FIRST) -> Process:
        """A live process."""
        return self.machine.processes[pid]

    def thread(self, pid: int = FIRST, tid: int | None = None) -> Thread:
        """A thread, else the first one of a process."""
        threads = self.process(pid).threads
        return threads[min(threads) if tid is None else tid]

    def ready_at(self, number: int, arguments: tuple[int, ...], pid: int = FIRST, tid: int | None = None) -> Thread:
        """Puts a thread at a call."""
        thread = self.thread(pid, tid)
        thread.pc = CODE
        thread.regs[A7] = number
        for place in range(6):
            value = arguments[place] if place < len(arguments) else 0
            thread.regs[A0 + place] = value & 0xFFFFFFFF
        return thread

    def call(self, number: Number, *arguments: int, by: int = FIRST, tid: int | None = None) -> int | Came:
        """What a call comes to; the state after it is looked at."""
        process, thread = self.process(by), self.ready_at(number, arguments, by, tid)
        if not is_ready(self.machine, process, thread):
            return Came.WAITS
        make_call(self.machine, process, thread)
        self.broken_rules += [] if self.is_spoiled else broken(self.machine)
        if process.threads.get(thread.number) is not thread or by not in self.machine.processes:
            return Came.ENDS
        return signed(thread.regs[A0])

    def put(self, data: bytes, at: int = TEXT, by: int = FIRST) -> int:
        """Puts bytes into a process's memory, and gives where."""
        self.process(by).memory.poke(at, data)
        return at

    def get(self, count: int, at: int = DATA, by: int = FIRST) -> bytes:
        """Bytes of a process's memory."""
        return self.process(by).memory.peek(at, count)

    def words(self, count: int, at: int = DATA, by: int = FIRST) -> list[int]:
        """Words of a process's memory."""
        data = self.get(4 * count, at, by)
        return [int.from_bytes(data[place : place + 4], "little") for place in range(0, len(data), 4)]

    def write(self, fd: int, data: bytes, by: int = FIRST) -> int | Came:
        """Writes bytes."""
        return self.call(Number.WRITE, fd, self.put(data, DATA, by), len(data), by=by)

    def read(self, fd: int, count: int, by: int = FIRST) -> bytes | int | Came:
        """What is read; an error is its negative number."""
        answer = self.call(Number.READ, fd, DATA, count, by=by)
        return answer if isinstance(answer, Came) or answer < 0 else self.get(answer, DATA, by)

    def open(self, name: bytes, flags: int, by: int = FIRST) -> int | Came:
        """Opens a file."""
        return self.call(Number.OPENAT, HERE, self.put(name + b"\0", by=by), flags, by=by)

    def pipe(self, flags: int = 0, by: int = FIRST) -> tuple[int, int]:
        """The reading and the writing descriptor of a new pipe."""
        self.call(Number.PIPE2, DATA, flags, by=by)
        reading, writing = self.words(2, by=by)
        return reading, writing

    def pair(self, kind: int = 1, by: int = FIRST) -> tuple[int, int]:
        """The descriptors of a new pair."""
        self.call(Number.SOCKETPAIR, 1, kind, 0, DATA, by=by)
        first, second = self.words(2, by=by)
        return first, second

    def address_call(self, number: Number, fd: int, host: int, port: int, by: int = FIRST) -> int | Came:
        """`bind` or `connect` with an address of a host."""
        return self.call(number, fd, self.put(address_bytes(Address(host, port)), by=by), 16, by=by)

    def listener(self, port: int, backlog: int = 1, by: int = FIRST) -> int:
        """The descriptor of a new listener."""
        fd = self.call(Number.SOCKET, 2, 1, 0, by=by)
        self.address_call(Number.BIND, fd, self.process(by).host, port, by)
        self.call(Number.LISTEN, fd, backlog, by=by)
        return fd

    def connected(self, host: int, port: int, by: int = FIRST) -> int:
        """The descriptor of a new connection to a listener."""
        fd = self.call(Number.SOCKET, 2, 1, 0, by=by)
        self.address_call(Number.CONNECT, fd, host, port, by)
        return fd

    def fork(self, by: int = FIRST) -> int:
        """A child."""
        return self.call(Number.CLONE, 17, by=by)

    def new_thread(self, by: int = FIRST) -> int:
        """A thread."""
        return self.call(Number.CLONE, 0x10F00, by=by)

    def arrive(self) -> list[Record]:
        """All that is on its way arrives."""
        return list(arrivals(self.machine))

    def described(self, fd: int, by: int = FIRST) -> Description:
        """The description of a descriptor."""
        return self.machine.descriptions[self.process(by).descriptors[fd].name]

    def object(self, fd: int, by: int = FIRST) -> Object:
        """What a descriptor's description refers to."""
        return self.described(fd, by).object

    def channel(self, fd: int, by: int = FIRST) -> Channel:
        """The channel of an end."""
        end = self.object(fd, by)
        assert isinstance(end, ChannelEnd)
        return self.machine.channels[end.channel]

    def fill_descriptors(self, but: int = 0, by: int = FIRST) -> None:
        """Lets the console have all descriptors that nothing has, but for the last so many of them."""
        descriptors = self.process(by).descriptors
        free = [number for number in range(256) if number not in descriptors]
        for number in free[: len(free) - but]:
            descriptors[number] = Descriptor(descriptors[0].name)


class BenchCase(unittest.TestCase):
    """Tests with a bench, whose states must all be valid."""

    hosts: tuple[int, ...] = (0,)

    def setUp(self) -> None:
        self.bench = Bench(self.hosts)

    def tearDown(self) -> None:
        self.assertEqual(self.bench.broken_rules, [])
