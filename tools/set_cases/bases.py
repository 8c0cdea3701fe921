"""The shared images that cases edit, and images of processes that make sets of them."""

from collections import deque

from model.images import process_image
from model.memory import Memory, Page, blank_page
from model.objects import (
    Address, Channel, ChannelEnd, ChannelKind, ChannelName, Description, DescriptionName, Direction, File,
    Listener, OpenFile,
)
from model.start import RETURN_CODE, RETURN_PAGE
from model.state import NOBODY, Action, Context, Descriptor, Machine, Process, Thread, Waiter, Zombie

FIRST = 40000
PROCESSES, THREADS, DESCRIPTORS, CHANNELS, FILES = 128, 64, 256, 256, 1024
LONGEST_DIRECTION, LONGEST_NAME = 65_536, 255
LISTENED = Address(15, 65_535)


def start() -> Machine:
    """One program's start."""
    console = DescriptionName(FIRST, 0)
    process = Process(FIRST, Memory(0, 0), threads={FIRST: Thread(FIRST)},
                      descriptors={place: Descriptor(console) for place in (0, 1, 2)})
    return Machine(FIRST + 1, 1, {FIRST: process}, {console: Description(2)})


def _row(machine: Machine) -> None:
    """A listener with a row of connections that is not in the order of their names, and the clients of these."""
    names = [ChannelName(FIRST, num) for num in range(1, 4)]
    for name in names:
        client = DescriptionName(FIRST, 100 + name.num)
        machine.channels[name] = Channel(ChannelKind.INTERNET, (Address(15, 40_000 + name.num), LISTENED),
                                         (Direction(bytearray(b"hello"), 5), Direction()))
        machine.descriptions[client] = Description(2, object=ChannelEnd(name, 0))
    waiting = deque([names[1], names[2], names[0]])
    machine.descriptions[DescriptionName(FIRST, 0)] = Description(2, FIRST + 1, Listener(LISTENED, 3, waiting))


def _pairs(machine: Machine) -> None:
    """As many channels as there may be, with full directions and without a byte."""
    for num in range(4, CHANNELS + 1):
        name = ChannelName(FIRST, num)
        data = bytearray(b"x" * LONGEST_DIRECTION) if num == CHANNELS else bytearray()
        is_pipe = num != CHANNELS
        directions = (Direction(data, len(data), unread=is_pipe), Direction(ended=is_pipe))
        machine.channels[name] = Channel(ChannelKind.PIPE if is_pipe else ChannelKind.PAIR, None, directions)
        end = Description(1 if is_pipe else 2, object=ChannelEnd(name, 0))
        machine.descriptions[DescriptionName(FIRST, 100 + num)] = end


def crowd() -> Machine:
    """As many processes, threads of one, descriptors of one, channels and files as there may be."""
    machine = Machine(FIRST + 300, FILES + 1, {}, {})
    _row(machine)
    _pairs(machine)
    other = DescriptionName(FIRST + 1, 0)
    machine.descriptions[other] = Description(2, object=ChannelEnd(ChannelName(FIRST, CHANNELS), 1))
    machine.files[1] = File(b"n" * LONGEST_NAME, bytearray(b"text"))
    machine.files[2] = File(None)
    for number in range(4, FILES + 1):
        machine.files[number] = File(b"%d" % number)
    machine.descriptions[DescriptionName(FIRST + 2, 0)] = Description(0x400, object=OpenFile(2, 5))
    machine.files[3] = File(None)
    machine.descriptions[DescriptionName(FIRST + 2, 1)] = Description(0, object=OpenFile(3))
    for number in range(FIRST, FIRST + PROCESSES - 1):
        machine.processes[number] = Process(number, Memory(0, 0), host=15, made=FIRST, threads={number: Thread(number)})
        machine.processes[number].parent = number - 1 if number > FIRST else NOBODY
    ended = FIRST + PROCESSES - 1
    machine.zombies[ended] = Zombie(ended, FIRST, 15, 0, 0xFFFFFFFF)
    first, second, third = (machine.processes[FIRST + place] for place in range(3))
    for tid in range(FIRST + 201, FIRST + 200 + THREADS):
        first.threads[tid] = Thread(tid, pending=0x7FFFFFFF)
    names = sorted(name for name in machine.descriptions if name.pid == FIRST)
    first.descriptors = {place: Descriptor(name) for place, name in enumerate(names[:DESCRIPTORS])}
    second.descriptors = {0: Descriptor(other), 1: Descriptor(names[-1], 1)}
    third.descriptors = {0: Descriptor(DescriptionName(FIRST + 2, 0)), 1: Descriptor(DescriptionName(FIRST + 2, 1))}
    return machine


def _return_page() -> Page:
    page = blank_page(5)
    page.data[: len(RETURN_CODE)] = RETURN_CODE
    return page


def with_user_parts(machine: Machine) -> list[bytes]:
    """Images of the live processes, of few pages, with what a process can have on its first and its last."""
    everyone = [machine.processes[number] for number in sorted(machine.processes)]
    for place, process in enumerate(everyone):
        process.memory = Memory(0, 0, {RETURN_PAGE: _return_page()})
        for at, thread in enumerate(process.threads.values()):
            thread.pc = 0x10000 * (place + 1) + 4 * at
            thread.mask = 1 << place % 32
    first, last = everyone[0], everyone[-1]
    first.memory.break_start, first.memory.break_now = 0x20000, 0x20001
    first.memory.pages[0x20] = blank_page(6)
    first.memory.pages[0x20].data[0] = 0xAB
    first.waiters = [Waiter(tid, 0x20000 + 4 * at) for at, tid in enumerate(sorted(first.threads, reverse=True))]
    last.actions[10] = Action(0x10010, 4, 0x200)
    last.threads[last.number].contexts = [Context([7] * 31, 0x10020, 5), Context([8] * 31, 0x10030, 0)]
    return [process_image(process) for process in everyone]
