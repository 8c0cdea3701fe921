"""Whose turn it is (docs/MACHINE.md, "Rounds" and "Signals")."""

from collections.abc import Iterator

from .calls import is_ready, make_call
from .cpu import StandsAt, look, run_quantum
from .objects import DirectionName
from .signals import Cause, deliver, due_signal, waits_at_call
from .state import Machine, Process, Thread
from .trace import Kind, Record, call, delivery, moved, user


def arrivals(machine: Machine) -> Iterator[Record]:
    """All that is on its way arrives, direction by direction in rising order."""
    for name in sorted(machine.channels):
        for side, direction in enumerate(machine.channels[name].directions):
            count = direction.on_their_way()
            if count:
                direction.arrived = len(direction.data)
                yield moved(Kind.ARRIVE, DirectionName(name, side), count)


def has_turn(machine: Machine, process: Process, thread: Thread) -> bool:
    """A signal is due to the thread, or it can go on."""
    return due_signal(process, thread) is not None or not waits_at_call(machine, process, thread)


def _cause(process: Process, thread: Thread, signal: int) -> Cause:
    """A thread that stands at a trap with the signal that is due has it delivered for the trap; it stays pending."""
    stand = None if process.waits(thread) else look(thread, process.memory)
    traps = stand is not None and stand.at is StandsAt.TRAP and stand.signal == signal
    return Cause.TRAP if traps else Cause.PENDING


def _lives(machine: Machine, process: Process, thread: Thread) -> bool:
    return process.number in machine.processes and thread.number in process.threads


def _signal(machine: Machine, process: Process, thread: Thread) -> Iterator[Record]:
    """The first part of a turn: the signal that is due, if one is."""
    signal = due_signal(process, thread)
    if signal is not None:
        deliver(machine, process, thread, signal, _cause(process, thread, signal))
        yield delivery(process.number, thread.number, signal)


def _stand(machine: Machine, process: Process, thread: Thread) -> Iterator[Record]:
    """The last part of a turn: the call or the trap at which the thread then stands."""
    stand = look(thread, process.memory)
    if stand.at is StandsAt.CALL and is_ready(machine, process, thread):
        make_call(machine, process, thread)
        yield call(process.number, thread.number)
    elif stand.at is StandsAt.TRAP:
        deliver(machine, process, thread, stand.signal, Cause.TRAP)
        yield delivery(process.number, thread.number, stand.signal)


def _turn(machine: Machine, process: Process, thread: Thread) -> Iterator[Record]:
    """A turn's parts, until the thread can't go on."""
    yield from _signal(machine, process, thread)
    if not _lives(machine, process, thread) or process.waits(thread):
        return
    count = run_quantum(thread, process.memory)
    if count:
        yield user(process.number, thread.number, count)
    yield from _stand(machine, process, thread)


def _threads(machine: Machine) -> list[tuple[Process, Thread]]:
    """The threads of a round, by the numbers of their processes and then by their own."""
    processes = [machine.processes[number] for number in sorted(machine.processes)]
    return [(process, process.threads[number]) for process in processes for number in sorted(process.threads)]


def rounds(machine: Machine) -> Iterator[Record]:
    """The records of a run, one after the other, until nobody can go on."""
    has_gone_on = True
    while has_gone_on:
        yield from arrivals(machine)
        has_gone_on = False
        for process, thread in _threads(machine):
            if _lives(machine, process, thread) and has_turn(machine, process, thread):
                has_gone_on = True
                yield from _turn(machine, process, thread)
