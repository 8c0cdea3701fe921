"""A shared image read by its layout alone, whatever its fields hold: also what no state has (docs/FORMATS.md, "Shared
image")."""

from collections import deque
from dataclasses import dataclass, field

from comparing.set_fields import Field
from model.images import READ_NO_MORE, SENDS_NO_MORE, STATE_LIVES, ObjectKind
from model.memory import Memory
from model.objects import (
    Address,
    Channel,
    ChannelEnd,
    ChannelKind,
    ChannelName,
    Console,
    Description,
    DescriptionName,
    Direction,
    File,
    Listener,
    Object,
    OpenFile,
    Socket,
)
from model.reader import Damage, Reader
from model.state import Descriptor, Process, Thread, Zombie
from showing.naming import count_text
from showing.objects import channel_lines, description_line, file_line, zombie_line

MAGIC_BYTES = 8


@dataclass
class NamedReader(Reader):
    """A reader that keeps the name and the place of each field."""

    fields: list[Field] = field(default_factory=list)

    def take(self, name: str, size: int = 4) -> int:
        """A number."""
        self.fields.append(Field(name, self.place, size))
        return self.number(size)

    def take_bytes(self, name: str, size: int) -> bytes:
        """So many bytes."""
        self.fields.append(Field(name, self.place, size))
        return self.field(size)

    def take_kind(self, name: str, known: int) -> int:
        """A number of one byte below this one. What follows another can't be read."""
        kind = self.take(name, 1)
        if kind >= known:
            raise Damage(self.place - 1)
        return kind


@dataclass
class Listed:
    """What the four lists hold in lines, the processes that live, all fields, and in `stopped` where the reading
    could not go on."""

    lines: list[str] = field(default_factory=list)
    processes: list[Process] = field(default_factory=list)
    fields: list[Field] = field(default_factory=list)
    stopped: str = ""


def _read_file(reader: NamedReader) -> list[str]:
    number, length = reader.take("file.number"), reader.take("file.name length", 2)
    name = reader.take_bytes("file.name", length)
    content = reader.take_bytes("file.bytes", reader.take("file.size"))
    return [file_line(number, File(name or None, bytearray(content)))]


def _read_side(reader: NamedReader) -> tuple[Direction, Address]:
    flags, length = reader.take("side.flags", 1), reader.take("side.length")
    waiting = bytearray(reader.take_bytes("side.bytes", length))
    sent = Direction(waiting, length, bool(flags & SENDS_NO_MORE), bool(flags & READ_NO_MORE))
    return sent, Address(reader.take("side.host"), reader.take("side.port"))


def _read_channel(reader: NamedReader) -> list[str]:
    name = ChannelName(reader.take("channel.pid"), reader.take("channel.num"))
    kind = ChannelKind(reader.take_kind("channel.kind", len(ChannelKind)))
    (first, one), (second, other) = _read_side(reader), _read_side(reader)
    addresses = (one, other) if kind is ChannelKind.INTERNET else None
    return channel_lines(name, Channel(kind, addresses, (first, second)))


def _read_address(reader: NamedReader) -> Address:
    return Address(reader.take("description.host"), reader.take("description.port"))


def _read_listener(reader: NamedReader) -> Listener:
    listener = Listener(_read_address(reader), reader.take("description.backlog"))
    waiting = [_read_waiting(reader) for _ in range(reader.take("waiting.count"))]
    listener.waiting = deque(waiting)
    return listener


def _read_waiting(reader: NamedReader) -> ChannelName:
    return ChannelName(reader.take("waiting.pid"), reader.take("waiting.num"))


def _read_object(reader: NamedReader, kind: int) -> Object:
    """What a description of this kind is open on."""
    if kind == ObjectKind.FILE:
        return OpenFile(reader.take("description.file"), reader.take("description.offset"))
    if kind == ObjectKind.STREAM:
        channel = ChannelName(reader.take("description.channel pid"), reader.take("description.channel num"))
        return ChannelEnd(channel, reader.take("description.side", 1))
    if kind == ObjectKind.SOCKET:
        address = _read_address(reader)
        return Socket(address.host, address.port or None)
    return _read_listener(reader) if kind == ObjectKind.LISTENER else Console()


def _read_description(reader: NamedReader) -> list[str]:
    name = DescriptionName(reader.take("description.pid"), reader.take("description.num"))
    kind = reader.take_kind("description.kind", len(ObjectKind))
    flags, owner = reader.take("description.flags"), reader.take("description.owner")
    return [description_line(name, Description(flags, owner, _read_object(reader, kind)))]


def _read_members(reader: NamedReader, process: Process) -> None:
    """The threads and the descriptors of a process."""
    for _ in range(reader.take("threads.count")):
        thread = Thread(reader.take("thread.tid"), pending=reader.take("thread.pending"))
        process.threads[thread.number] = thread
    for _ in range(reader.take("descriptors.count")):
        place = reader.take("descriptor.number")
        name = DescriptionName(reader.take("descriptor.pid"), reader.take("descriptor.num"))
        process.descriptors[place] = Descriptor(name, reader.take("descriptor.close-on-exec", 1))


def _read_process(reader: NamedReader) -> tuple[str, Process | None]:
    """A process's line, and itself where it lives."""
    number, parent, host, made = (reader.take(f"process.{name}") for name in ("pid", "parent", "host", "made"))
    state, status = reader.take("process.state", 1), reader.take("process.status")
    pending = reader.take("process.pending")
    process = Process(number, Memory(0, 0), parent=parent, host=host, made=made, pending=pending)
    _read_members(reader, process)
    if state != STATE_LIVES:
        return zombie_line(Zombie(number, parent, host, made, status)), None
    threads = count_text(len(process.threads), "thread")
    return f"process {number} of host {host}, parent {parent}: {threads}", process


def _read_lists(reader: NamedReader, listed: Listed) -> None:
    reader.take_bytes("magic", MAGIC_BYTES)
    listed.lines.append(f"next number {reader.take('next_id')}, next file {reader.take('next_file')}")
    lists = {"files": _read_file, "channels": _read_channel, "descriptions": _read_description}
    for name, read in lists.items():
        for _ in range(reader.take(f"{name}.count")):
            listed.lines += read(reader)
    for _ in range(reader.take("processes.count")):
        line, process = _read_process(reader)
        listed.lines.append(line)
        listed.processes += [process] if process else []


def read_listed(data: bytes) -> Listed:
    """All that can be read of a shared image."""
    reader, listed = NamedReader(data), Listed()
    try:
        _read_lists(reader, listed)
    except Damage as damage:
        listed.stopped = f"no more can be read from {damage.offset} on"
    listed.fields = reader.fields
    return listed
