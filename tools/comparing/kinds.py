"""What kinds of things a state holds that a set must keep, each by its name."""

from collections import Counter
from collections.abc import Iterator

from model.objects import Channel, ChannelEnd, ChannelKind, Console, Listener, OpenFile, Socket
from model.state import NOBODY, Machine, Process

NONBLOCK = 0x800
NAMES_OF_CHANNELS = {ChannelKind.PIPE: "pipe", ChannelKind.PAIR: "pair", ChannelKind.INTERNET: "connection"}


def _of_files(machine: Machine) -> Iterator[str]:
    for file in machine.files.values():
        yield "file without a name" if file.name is None else "file"
        if file.data:
            yield "file with bytes"
    if any(isinstance(one.object, OpenFile) and one.object.offset for one in machine.descriptions.values()):
        yield "offset in a file"


def _of_channel(channel: Channel) -> Iterator[str]:
    name = NAMES_OF_CHANNELS[channel.kind]
    yield name
    both = len(channel.open_sides) == 2
    for direction in channel.directions:
        if direction.data:
            yield f"{name} with bytes"
        if direction.ended and both and channel.kind is not ChannelKind.PIPE:
            yield "side that is shut down"
    if not both:
        yield f"{name} with a closed side"
    if channel.addresses and channel.addresses[0].host != channel.addresses[1].host:
        yield "connection between hosts"


def _of_sockets(machine: Machine) -> Iterator[str]:
    for one in machine.descriptions.values():
        match one.object:
            case Listener(waiting=waiting):
                yield "listener"
                if waiting:
                    yield "connection that waits at a listener"
            case Socket(port=port):
                yield "socket" if port is None else "bound socket"
        if one.owner:
            yield "owner of a description"
        if one.flags & NONBLOCK:
            yield "description that does not wait"


def _of_descriptors(machine: Machine) -> Iterator[str]:
    held = Counter((one.name, number) for number, process in machine.processes.items()
                   for one in process.descriptors.values()
                   if not isinstance(machine.descriptions[one.name].object, Console))
    if max(held.values(), default=0) > 1:
        yield "description of several descriptors"
    processes = Counter(name for name, _ in held)
    for name in (name for name, count in processes.items() if count > 1):
        is_end = isinstance(machine.descriptions[name].object, ChannelEnd)
        yield "channel's end of several processes" if is_end else "description of several processes"


def _of_process(process: Process) -> Iterator[str]:
    if process.parent != NOBODY:
        yield "child"
    if len(process.threads) > 1:
        yield "several threads"
    if any(one.close_on_exec for one in process.descriptors.values()):
        yield "close-on-exec"
    if process.waiters:
        yield "thread that waits on a word"
    if process.pending:
        yield "signal for a process"
    if any(action.handler > 1 for action in process.actions.values()):
        yield "handler"
    for thread in process.threads.values():
        if thread.pending:
            yield "signal for a thread"
        if thread.mask:
            yield "masked signal"
        if thread.contexts:
            yield "thread in a handler"


def _all(machine: Machine) -> Iterator[str]:
    yield from _of_files(machine)
    for channel in machine.channels.values():
        yield from _of_channel(channel)
    yield from _of_sockets(machine)
    yield from _of_descriptors(machine)
    for process in machine.processes.values():
        yield from _of_process(process)
    if machine.zombies:
        yield "zombie"


KINDS = {
    "file", "file without a name", "file with bytes", "offset in a file", "pipe", "pipe with bytes",
    "pipe with a closed side", "pair", "pair with bytes", "side that is shut down", "connection",
    "connection with bytes", "connection between hosts", "listener", "connection that waits at a listener",
    "socket", "bound socket", "owner of a description", "description that does not wait",
    "channel's end of several processes", "description of several processes",
    "description of several descriptors", "close-on-exec", "child", "zombie", "several threads",
    "thread that waits on a word", "signal for a process", "signal for a thread", "masked signal", "handler",
    "thread in a handler",
}
"""All that a set can hold, but for what a channel may have beside this."""


def kinds_in(machine: Machine) -> set[str]:
    """The kinds that a state has."""
    return set(_all(machine))
