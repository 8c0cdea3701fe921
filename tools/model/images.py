"""The images of a state: what a checkpoint writes (docs/FORMATS.md, "Shared image" and "Process image")."""

from enum import IntEnum

from .bits import word_bytes, words_bytes
from .objects import (
    Address,
    Channel,
    ChannelEnd,
    ChannelName,
    Console,
    Description,
    DescriptionName,
    Direction,
    File,
    Listener,
    Object,
    OpenFile,
    Socket,
)
from .state import Context, Descriptor, Machine, Process, Thread, Zombie

SHARED_MAGIC = b"DMTSHR01"
PROCESS_MAGIC = b"DMTPRC01"
SENDS_NO_MORE, READ_NO_MORE = 1, 2
"""The flags of a side of a channel."""
NO_HOST, NO_PORT = 0xFFFFFFFF, 0
"""The address of a side that has none, and the port of a socket that is not bound."""
STATE_LIVES, STATE_ZOMBIE = 0, 1


class ObjectKind(IntEnum):
    """What a description is open on."""

    CONSOLE = 0
    FILE = 1
    STREAM = 2
    SOCKET = 3
    LISTENER = 4


def _byte(value: int) -> bytes:
    return value.to_bytes(1, "little")


def _counted(items: list[bytes]) -> bytes:
    """A list: its length, and its items."""
    return word_bytes(len(items)) + b"".join(items)


def _file(number: int, file: File) -> bytes:
    name = file.name or b""
    return word_bytes(number) + len(name).to_bytes(2, "little") + name + word_bytes(len(file.data)) + bytes(file.data)


def _side(sent: Direction, address: Address) -> bytes:
    flags = sent.ended * SENDS_NO_MORE | sent.unread * READ_NO_MORE
    return _byte(flags) + word_bytes(len(sent.data)) + bytes(sent.data) + words_bytes([address.host, address.port])


def _channel(name: ChannelName, channel: Channel) -> bytes:
    none = Address(NO_HOST, NO_PORT)
    sides = zip(channel.directions, channel.addresses or (none, none))
    return words_bytes([name.pid, name.num]) + _byte(channel.kind) + b"".join(_side(*side) for side in sides)


def _listener(listener: Listener) -> bytes:
    waiting = [words_bytes([name.pid, name.num]) for name in listener.waiting]
    return words_bytes([listener.address.host, listener.address.port, listener.backlog]) + _counted(waiting)


def _object(one: Object) -> tuple[ObjectKind, bytes]:
    """The kind of what a description is open on, and the fields of its kind."""
    match one:
        case Console():
            return ObjectKind.CONSOLE, b""
        case OpenFile(file, offset):
            return ObjectKind.FILE, words_bytes([file, offset])
        case ChannelEnd(channel, side):
            return ObjectKind.STREAM, words_bytes([channel.pid, channel.num]) + _byte(side)
        case Socket(host, port):
            return ObjectKind.SOCKET, words_bytes([host, NO_PORT if port is None else port])
        case Listener():
            return ObjectKind.LISTENER, _listener(one)
    raise ValueError("no image holds this")


def _description(name: DescriptionName, description: Description) -> bytes:
    kind, fields = _object(description.object)
    out = words_bytes([name.pid, name.num]) + _byte(kind)
    return out + words_bytes([description.flags, description.owner]) + fields


def _descriptor(number: int, descriptor: Descriptor) -> bytes:
    return words_bytes([number, descriptor.name.pid, descriptor.name.num]) + _byte(descriptor.close_on_exec)


def _live(process: Process) -> bytes:
    """A live process as the shared image has it."""
    out = words_bytes([process.number, process.parent, process.host, process.made])
    out += _byte(STATE_LIVES) + words_bytes([0, process.pending])
    out += _counted([words_bytes([number, thread.pending]) for number, thread in sorted(process.threads.items())])
    return out + _counted([_descriptor(*one) for one in sorted(process.descriptors.items())])


def _zombie(zombie: Zombie) -> bytes:
    """A process that has ended: nothing is pending, and it has no thread and no descriptor."""
    out = words_bytes([zombie.number, zombie.parent, zombie.host, zombie.made])
    return out + _byte(STATE_ZOMBIE) + words_bytes([zombie.status, 0, 0, 0])


def _processes(machine: Machine) -> list[bytes]:
    """Those that live and those that have ended, in one row."""
    entries = {number: _live(process) for number, process in machine.processes.items()}
    entries |= {number: _zombie(zombie) for number, zombie in machine.zombies.items()}
    return [entries[number] for number in sorted(entries)]


def shared_image(machine: Machine) -> bytes:
    """The kernel part. All bytes have arrived, and no datagram end and no event counter is open."""
    out = SHARED_MAGIC + words_bytes([machine.next_id, machine.next_file])
    out += _counted([_file(number, machine.files[number]) for number in sorted(machine.files)])
    out += _counted([_channel(name, machine.channels[name]) for name in sorted(machine.channels)])
    out += _counted([_description(name, machine.descriptions[name]) for name in sorted(machine.descriptions)])
    return out + _counted(_processes(machine))


def _context(context: Context) -> bytes:
    return words_bytes([*context.regs, context.pc, context.mask])


def _thread(thread: Thread) -> bytes:
    """A thread's registers, then its saved contexts, the oldest first."""
    out = words_bytes([thread.number, *thread.regs[1:32], thread.pc, thread.mask, thread.clear_word])
    out += word_bytes(len(thread.contexts))
    return out + b"".join(_context(context) for context in thread.contexts)


def _pages(process: Process) -> bytes:
    """The list of pages."""
    pages = process.memory.pages
    pieces = [word_bytes(len(pages))]
    for number in sorted(pages):
        pieces.append(word_bytes(number) + _byte(pages[number].rights) + bytes(pages[number].data))
    return b"".join(pieces)


def process_image(process: Process) -> bytes:
    """The user part of a process."""
    memory = process.memory
    out = PROCESS_MAGIC + words_bytes([process.number, memory.break_start, memory.break_now])
    out += _pages(process)
    for signal in sorted(process.actions):
        action = process.actions[signal]
        out += words_bytes([action.handler, action.flags, action.mask])
    out += word_bytes(len(process.waiters))
    for waiter in process.waiters:
        out += words_bytes([waiter.thread, waiter.address])
    out += word_bytes(len(process.threads))
    return out + b"".join(_thread(process.threads[number]) for number in sorted(process.threads))


def images(machine: Machine) -> list[bytes]:
    """The files of a set behind its manifest: the shared image, and that of each live process."""
    return [shared_image(machine), *(process_image(machine.processes[number]) for number in sorted(machine.processes))]
