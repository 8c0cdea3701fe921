"""Each condition on states can fail."""

import unittest
from typing import Callable

from ..objects import Address, Channel, ChannelName, Counter, DescriptionName, File, OpenFile, Socket
from ..state import Action, Context, Process, Waiter, Zombie
from ..validity import CONDITIONS, broken
from .bench import FIRST, SECOND, Bench
from .sample import (
    BOUND,
    CHILD,
    CONNECTED,
    COUNTER,
    DATAGRAM,
    ELSEWHERE,
    ENDED,
    FILE,
    LISTENER,
    READING,
    STREAM,
    THREAD,
    something_of_each,
)


def zombie(bench: Bench) -> Zombie:
    """The process that has ended."""
    return bench.machine.zombies[ENDED]


def give_files(bench: Bench, count: int, size: int) -> None:
    """So many further files, of so many bytes."""
    for number in range(1, count + 1):
        bench.machine.next_file += 1
        bench.machine.files[number + 1] = File(b"%d" % number, bytearray(size))


def give_descriptor(bench: Bench, pid: int, fd: int) -> None:
    """A process has a descriptor of the first one's description."""
    bench.process(pid).descriptors[99] = bench.process().descriptors[fd]


def rename(bench: Bench, fd: int, name: DescriptionName) -> None:
    """Another name for a description."""
    descriptor = bench.process().descriptors[fd]
    bench.machine.descriptions[name] = bench.machine.descriptions.pop(descriptor.name)
    descriptor.name = name


def give_processes(bench: Bench, count: int) -> None:
    """So many further processes that have ended, whose parent is the second one."""
    first, bench.machine.next_id = bench.machine.next_id, bench.machine.next_id + count
    made = {number: Zombie(number, SECOND, 0, 1, 0) for number in range(first, first + count)}
    bench.machine.zombies |= made


def put(owner: object, name: str, value: object) -> Callable[[], None]:
    """Another value of a part."""
    return lambda: setattr(owner, name, value)


def breaks(bench: Bench, process: Process) -> dict[str, Callable[[], None]]:
    """For each condition on processes, something that breaks it."""
    machine, thread = bench.machine, bench.thread()
    return {
        "numbers of processes and threads are below the next one": put(machine, "next_id", THREAD),
        "each process and each thread stands under its number": put(thread, "number", THREAD),
        "a number is one process's or one thread's, but for a process and a thread of its own": lambda: (
            process.threads.update({ENDED: bench.thread(CHILD)})),
        "a process's threads have its own number and greater ones": lambda: (
            bench.process(CHILD).threads.update({FIRST: thread})),
        "a live process has 1 to 64 threads": process.threads.clear,
        "there are at most 128 processes, those that have ended among them": lambda: give_processes(bench, 124),
        "hosts are 0 to 15": put(bench.process(SECOND), "host", 16),
        "a parent is nobody, or lives on the child's host with a lower number": put(process, "parent", SECOND),
        "a process that has ended has a parent that lives": put(zombie(bench), "parent", 1),
        "a status is that of an exit or of a signal": put(zombie(bench), "status", 32),
        "a process's next description or channel has a number from 1 to 2^32 - 2": put(process, "made", 2**32 - 1),
        "what is pending are signals that can be sent": put(process, "pending", 1 << 17),
        "masks have neither 9 nor 19, and nothing above 31": put(thread, "mask", 1 << 18),
        "signals 9 and 19 have no action": lambda: process.actions.update({9: Action(1)}),
        "who waits on a word is a thread of the process, once": put(process, "waiters", [Waiter(SECOND, 0)]),
        "a thread has at most 64 saved contexts": put(thread, "contexts", [Context([0] * 31, 0, 0)] * 65),
        "a process has at most 2,048 pages, and its break is from the break's start to 0x40000000": put(
            process.memory, "break_now", 0),
    }


def breaks_descriptions(bench: Bench, process: Process) -> dict[str, Callable[[], None]]:
    """The same of descriptors, descriptions and files."""
    machine, descriptors = bench.machine, process.descriptors
    return {
        "a descriptor has a number below 256 and refers to a description": lambda: (
            descriptors.update({256: descriptors[0]})),
        "each description is held by a descriptor": lambda: descriptors.pop(COUNTER),
        "those that hold a description are of one host": lambda: give_descriptor(bench, ELSEWHERE, COUNTER),
        "an owner lives on the host of those that hold the description": put(
            bench.described(COUNTER), "owner", ELSEWHERE),
        "status flags are known, with an access mode of the object": put(bench.described(READING), "flags", 1),
        "names of descriptions and channels were counted by their makers": put(process, "made", 5),
        "no description has the name of a channel": lambda: rename(bench, COUNTER, DescriptionName(FIRST, 2)),
        "numbers of files are below the next one": put(machine, "next_file", 1),
        "a file has a name or a description": lambda: machine.files.update({7: File(None)}),
        "a name is one file's, with 1 to 255 bytes and no zero": lambda: machine.files.update({7: File(b"a")}),
        "there are at most 1,024 files": lambda: give_files(bench, 1024, 0),
        "all files together have at most 67,108,864 bytes": lambda: give_files(bench, 1, 67_108_865),
        "an offset is to 2^31 - 1, in a file that is there": put(bench.described(FILE), "object", OpenFile(1, 2**31)),
        "the ends of a datagram pair know each other": put(
            bench.object(DATAGRAM), "other", DescriptionName(FIRST, 1)),
        "at most 64 messages of at most 4,096 bytes wait at a datagram end": lambda: (
            bench.object(DATAGRAM).messages.append(bytes(4097))),
        "a counter is at most 2^64 - 2": put(bench.described(COUNTER), "object", Counter(2**64 - 1)),
    }


def breaks_channels(bench: Bench, process: Process) -> dict[str, Callable[[], None]]:
    """The same of channels, sockets and listeners."""
    channels, pipe, pair = bench.machine.channels, bench.channel(READING), bench.channel(STREAM)
    connection, listener = bench.channel(CONNECTED), bench.object(LISTENER)
    kind = pipe.kind
    return {
        "there are at most 256 channels": lambda: (
            channels.update({ChannelName(FIRST, 1000 + place): Channel(kind) for place in range(256)})),
        "a channel has an open side": pair.open_sides.clear,
        "an open side is named once, by a description or a listener, and no other side is": listener.waiting.clear,
        "what a closed side sends is ended, and what it is sent is unread": lambda: pair.open_sides.discard(0),
        "an unread direction has no bytes": lambda: [put(one, "unread", one.data.extend(b"x") or True)()
                                                      for one in pair.directions],
        "a direction has at most 65,536 bytes, of which no more have arrived": put(pair.directions[0], "arrived", 1),
        "a pipe's directions end by closing alone, and its reading side sends nothing": put(
            pipe.directions[0], "ended", True),
        "sides of internet channels, and they alone, have addresses; ports are 1 to 65,535": put(
            pair, "addresses", connection.addresses),
        "an internet end is held on the host of its address, and other ends on one host": put(
            connection, "addresses", (Address(3, 5), Address(0, 80))),
        "a socket and a listener are held on their host": put(bench.described(BOUND), "object", Socket(3, 90)),
        "an address is used once, but for what a listener at it accepts": put(
            bench.described(BOUND), "object", Socket(0, 80)),
        "a backlog is 1 to 128, and no more connections wait": put(listener, "backlog", 0),
        "a connection that waits leads to its listener, which has not touched it": put(
            connection.directions[1], "ended", True),
    }


def close_in_part(bench: Bench, ended: bool) -> None:
    """A side is closed, and either only what it sends is ended or only what it is sent is unread."""
    channel = bench.channel(STREAM)
    channel.open_sides.discard(0)
    channel.sent_by(0).ended, channel.sent_to(0).unread = ended, not ended


def move_to_another_host(bench: Bench, fd: int) -> None:
    """A process of another host has a descriptor in place of the first one."""
    bench.process(ELSEWHERE).descriptors[99] = bench.process().descriptors.pop(fd)


def bind_the_listener(bench: Bench) -> None:
    """A socket is bound to the address to which a connection leads."""
    bench.described(LISTENER).object = Socket(0, 80)


CLOSED = "what a closed side sends is ended, and what it is sent is unread"
OF_ENDS = "an internet end is held on the host of its address, and other ends on one host"
OF_WAITING = "a connection that waits leads to its listener, which has not touched it"
OF_ADDRESSES = "an address is used once, but for what a listener at it accepts"
OF_DATAGRAMS = "the ends of a datagram pair know each other"
AGAIN: list[tuple[str, Callable[[Bench], object]]] = [
    (CLOSED, lambda bench: close_in_part(bench, True)),
    (CLOSED, lambda bench: close_in_part(bench, False)),
    (OF_ENDS, lambda bench: move_to_another_host(bench, STREAM)),
    (OF_ENDS, lambda bench: move_to_another_host(bench, CONNECTED)),
    (OF_DATAGRAMS, lambda bench: move_to_another_host(bench, DATAGRAM)),
    (OF_DATAGRAMS, lambda bench: rename(bench, DATAGRAM, DescriptionName(FIRST, 10))),
    ("a socket and a listener are held on their host", lambda bench: move_to_another_host(bench, LISTENER)),
    (OF_ADDRESSES, bind_the_listener),
    (OF_ADDRESSES, lambda bench: put(bench.channel(CONNECTED), "addresses", (Address(0, 90), Address(0, 80)))()),
    (OF_WAITING, lambda bench: put(bench.channel(CONNECTED), "addresses", (Address(0, 91), Address(0, 81)))()),
    (OF_WAITING, lambda bench: bench.channel(CONNECTED).directions[1].data.append(1)),
    (OF_WAITING, lambda bench: bench.channel(CONNECTED).directions[0].make_unread()),
    ("a backlog is 1 to 128, and no more connections wait", lambda bench: (
        bench.object(LISTENER).waiting.extend(list(bench.object(LISTENER).waiting) * 2))),
    ("sides of internet channels, and they alone, have addresses; ports are 1 to 65,535", lambda bench: (
        put(bench.described(BOUND), "object", Socket(16, 90))())),
]
"""Other ways to break some conditions."""


class Conditions(unittest.TestCase):
    """Each condition is broken by something that breaks it."""

    def test_again(self) -> None:
        for name, change in AGAIN:
            bench = something_of_each(is_spoiled=True)
            change(bench)
            self.assertIn(name, broken(bench.machine))

    def test_each(self) -> None:
        tried = set()
        for table in (breaks, breaks_descriptions, breaks_channels):
            bench = something_of_each(is_spoiled=True)
            for name in table(bench, bench.process()):
                again = something_of_each(is_spoiled=True)
                table(again, again.process())[name]()
                self.assertIn(name, broken(again.machine))
                tried.add(name)
        self.assertEqual(tried, set(CONDITIONS))

    def test_none(self) -> None:
        bench = something_of_each()
        self.assertEqual((bench.broken_rules, broken(bench.machine)), ([], []))
