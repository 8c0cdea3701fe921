"""Closing, and the end of a process (docs/CALLS.md, "Closing" and "When a process ends")."""

from .objects import ChannelEnd, ChannelName, DescriptionName, Listener, OpenFile
from .state import NOBODY, Machine, Process, Zombie, signal_bit

CHILD_ENDED = 17
ACCEPTING_SIDE = 1
"""The side of a connection that waits at a listener."""


def _is_held(machine: Machine, name: DescriptionName) -> bool:
    """Whether a descriptor refers to a description."""
    processes = machine.processes.values()
    return any(descriptor.name == name for process in processes for descriptor in process.descriptors.values())


def forget_file(machine: Machine, number: int) -> None:
    """A file is gone where it has no name and no description."""
    descriptions = machine.descriptions.values()
    opened = (what.object for what in descriptions if isinstance(what.object, OpenFile))
    if machine.files[number].name is None and all(one.file != number for one in opened):
        del machine.files[number]


def _close_side(machine: Machine, name: ChannelName, side: int) -> None:
    """A side of a channel is closed; with both sides closed the channel is gone."""
    channel = machine.channels[name]
    channel.close(side)
    if not channel.open_sides:
        del machine.channels[name]


def _forget(machine: Machine, name: DescriptionName) -> None:
    """A description is gone, and what goes with it."""
    gone = machine.descriptions.pop(name).object
    if isinstance(gone, OpenFile):
        forget_file(machine, gone.file)
    elif isinstance(gone, ChannelEnd):
        _close_side(machine, gone.channel, gone.side)
    elif isinstance(gone, Listener):
        for connection in gone.waiting:
            _close_side(machine, connection, ACCEPTING_SIDE)


def close_descriptor(machine: Machine, process: Process, number: int) -> None:
    """Takes a descriptor away, and its description where no other one refers to it."""
    name = process.descriptors.pop(number).name
    if not _is_held(machine, name):
        _forget(machine, name)


def _leave_children(machine: Machine, parent: int) -> None:
    """The children of a process that ends get parent 1, and those that have ended are gone."""
    for process in machine.processes.values():
        if process.parent == parent:
            process.parent = NOBODY
    machine.zombies = {number: one for number, one in machine.zombies.items() if one.parent != parent}


def end_process(machine: Machine, process: Process, status: int) -> None:
    """A process ends, with a status; it stays as a zombie where its parent lives."""
    for number in sorted(process.descriptors):
        close_descriptor(machine, process, number)
    del machine.processes[process.number]
    for description in machine.descriptions.values():
        if description.owner == process.number:
            description.owner = 0
    _leave_children(machine, process.number)
    parent = machine.processes.get(process.parent)
    if parent is not None:
        parent.pending |= signal_bit(CHILD_ENDED)
        zombie = Zombie(process.number, process.parent, process.host, process.made, status)
        machine.zombies[process.number] = zombie
