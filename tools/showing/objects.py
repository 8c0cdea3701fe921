"""What processes share, in lines: files, channels with the bytes that wait there, open descriptions of each kind,
and processes that have ended (docs/FORMATS.md, "Shared image")."""

from model.objects import (
    Address,
    Channel,
    ChannelEnd,
    ChannelName,
    Counter,
    DatagramEnd,
    Description,
    DescriptionName,
    Direction,
    File,
    Listener,
    Object,
    OpenFile,
    Socket,
)
from model.state import Zombie
from showing.naming import count_text, description_flags, quoted


def pair_text(name: ChannelName | DescriptionName) -> str:
    """A name of two numbers."""
    return f"({name.pid}, {name.num})"


def file_line(number: int, file: File) -> str:
    """A file, with its first bytes."""
    name = repr(file.name.decode("utf-8", "backslashreplace")) if file.name else "without a name"
    return f"file {number} {name}: {_bytes_text(bytes(file.data))}"


def _bytes_text(content: bytes) -> str:
    """How many bytes there are, and the first of them."""
    return count_text(len(content), "byte") + (f", {quoted(content)}" if content else "")


def _side_line(side: int, address: Address | None, sent: Direction) -> str:
    """A side of a channel, with what it sent and nobody has read."""
    where = f" at host {address.host} port {address.port}" if address else ""
    notes = [note for note, holds in (("sends no more", sent.ended), ("is read no more", sent.unread)) if holds]
    waiting = f"{_bytes_text(bytes(sent.data))}, wait to be read" if sent.data else "nothing waits to be read"
    return "; ".join([f"  sent by side {side}{where}: {waiting}", *notes])


def channel_lines(name: ChannelName, channel: Channel) -> list[str]:
    """A channel, with a line for each of its sides."""
    addresses = channel.addresses or (None, None)
    sides = zip((0, 1), addresses, channel.directions)
    return [f"channel {pair_text(name)}, {channel.kind.name.lower()}", *(_side_line(*side) for side in sides)]


def _listener_text(listener: Listener) -> str:
    at, waiting = listener.address, ", ".join(pair_text(name) for name in listener.waiting)
    queue = f"waiting to be accepted: {waiting}" if waiting else "nobody waits to be accepted"
    return f"listener at host {at.host} port {at.port}, backlog {listener.backlog}, {queue}"


def _object_text(one: Object) -> str:
    """What a description is open on."""
    match one:
        case OpenFile(file, offset):
            return f"file {file} at offset {offset}"
        case ChannelEnd(channel, side):
            return f"side {side} of channel {pair_text(channel)}"
        case Socket(host, port):
            return f"socket of host {host}, {f'bound to port {port}' if port else 'not bound'}"
        case Listener():
            return _listener_text(one)
        case DatagramEnd(other, messages):
            return f"end of a datagram pair with {pair_text(other)}, {count_text(len(messages), 'message')}"
        case Counter(value):
            return f"event counter at {value}"
        case _:
            return "console"


def description_line(name: DescriptionName, description: Description) -> str:
    """An open description."""
    owner = f", owner {description.owner}" if description.owner else ""
    what = f"{_object_text(description.object)}, {description_flags(description.flags)}"
    return f"description {pair_text(name)}: {what}{owner}"


def zombie_line(zombie: Zombie) -> str:
    """A process that has ended and for which its parent has not waited yet."""
    how = f"exited with {zombie.status >> 8}" if zombie.status & 0x7F == 0 else f"ended by signal {zombie.status & 0x7F}"
    whose = f"process {zombie.number} of host {zombie.host}, parent {zombie.parent}"
    return f"{whose}: zombie with status {zombie.status}, {how}"
