"""Calls with their arguments, and records of many processes and of channels told by a replay."""

import unittest

from model.memory import READ, WRITE, Memory, Page
from model.numbers import Number
from model.objects import Channel, ChannelKind, ChannelName, Direction, DirectionName
from model.state import A0, A7, Machine, Process, Thread
from model.trace import Kind, moved
from show import end_lines
from showing.naming import call_text
from showing.replay import NoStep, Replay

BUFFER = 0x10000
CHANNEL = ChannelName(40000, 3)
TOLD = {
    (Number.OPENAT, -100, BUFFER, 0x41, 0o600): 'openat(-100, "notes", 0x41, 0x180)',
    (Number.OPENAT, -100, 0x20000, 0, 0): "openat(-100, 0x20000, 0x0, 0x0)",
    (Number.READ, 3, BUFFER, 16): "read(3, 0x10000, 16)",
    (Number.WRITE, 1, BUFFER, 5): 'write(1, "notes", 5)',
    (Number.KILL, -1, 15): "kill(-1, signal 15 (SIGTERM))",
    (Number.WAIT4, -1, BUFFER, 1, 0): "wait4(-1, 0x10000, 1, 0x0)",
    (Number.LISTEN, 4, 5): "listen(4, 5)",
    (Number.WRITE, 1, BUFFER + 6, 3): 'write(1, "\\x01\\xff\\0", 3)',
    (7, 1, 2): "call 7(0x1, 0x2, 0x0, 0x0, 0x0, 0x0)",
}


def memory() -> Memory:
    """A page that begins with a path."""
    pages = Memory(0, 0)
    pages.pages[BUFFER >> 12] = Page(bytearray(b"notes\0\x01\xff".ljust(4096, b"\0")), READ | WRITE)
    return pages


def machine(on_their_way: int) -> Machine:
    """Two processes, and a channel with bytes that have not arrived."""
    sent = Direction(bytearray(on_their_way))
    processes = {
        number: Process(number, memory(), threads={number: Thread(number)}) for number in (40000, 40001)
    }
    channel = Channel(ChannelKind.PIPE, None, (sent, Direction()))
    return Machine(40002, 1, processes, {}, channels={CHANNEL: channel})


class Calls(unittest.TestCase):
    """The call at which a thread stands."""

    def test_arguments(self) -> None:
        for (number, *arguments), text in TOLD.items():
            thread = Thread(40000)
            thread.regs[A7] = number
            for index, argument in enumerate(arguments):
                thread.regs[A0 + index] = argument & 0xFFFFFFFF
            self.assertEqual(call_text(thread, memory()), text)


class Replays(unittest.TestCase):
    """What is more than a process and its threads."""

    def test_bytes_arrive(self) -> None:
        replay, some = Replay(machine(5)), moved(Kind.ARRIVE, DirectionName(CHANNEL, 0), 3)
        self.assertEqual(replay.step(some), "channel 40000/3 side 0: 3 bytes arrived")
        with self.assertRaisesRegex(NoStep, "2 bytes are on their way there"):
            replay.step(some)

    def test_no_such_direction(self) -> None:
        with self.assertRaisesRegex(NoStep, "there is no such direction"):
            Replay(machine(5)).step(moved(Kind.ARRIVE, DirectionName(CHANNEL, 2), 1))

    def test_how_each_process_ended(self) -> None:
        replay = Replay(machine(0))
        del replay.machine.processes[40001]
        replay.endings[40001] = "by exit_group(3)"
        self.assertEqual(end_lines(replay), ["process 40001 ended by exit_group(3)", "process 40000 lives"])
        del replay.machine.processes[40000]
        replay.endings = {40000: "by exit_group(0)"}
        self.assertEqual(end_lines(replay), ["the process ended by exit_group(0)"])


if __name__ == "__main__":
    unittest.main()
