"""What is told of a shared image and of a set: the texts that crates/worked_sets prints."""

from dataclasses import dataclass

from model.images import shared_image
from model.objects import (
    Address, Channel, ChannelEnd, Console, Direction, Listener, Object, OpenFile, Socket,
)
from model.read_shared import read_shared
from model.reader import Damage
from model.state import Machine, Process, Zombie
from model.store import SetDamaged, Store, write_manifest

SLOT = 0
KINDS = ("pair", "internet", "pipe")


@dataclass(frozen=True)
class Run:
    """A run of cases of which the same comes, by what the first of them is called."""

    first: int
    verdict: str


def verdict(data: bytes) -> str:
    """Whether a shared image comes back, or where it is damaged."""
    try:
        machine = read_shared(data)
    except Damage as damage:
        return f"damaged: file 1 at {damage.offset}"
    return "comes back" if shared_image(machine) == data else "comes back as other bytes"


def runs(verdicts: list[tuple[int, str]]) -> list[Run]:
    """The runs of these cases."""
    found: list[Run] = []
    for first, said in verdicts:
        if not found or found[-1].verdict != said:
            found.append(Run(first, said))
    return found


def runs_text(verdicts: list[tuple[int, str]]) -> str:
    """How many cases there are, and their runs, a line each."""
    return f"{len(verdicts)} cases" + "".join(f"\n  from {run.first}: {run.verdict}" for run in runs(verdicts))


def _end(channel: Channel, side: int) -> str:
    state = "open" if side in channel.open_sides else "closed"
    address = channel.addresses[side] if channel.addresses else None
    return state if address is None else f"{state} at {address.host}:{address.port}"


def _direction(sent: Direction) -> str:
    marks = ", ended" * sent.ended + ", unread" * sent.unread
    return f"{sent.data.hex().upper()}, {sent.arrived} arrived{marks}"


def _object(one: Object) -> str:
    match one:
        case Console():
            return "console"
        case OpenFile(file, offset):
            return f"file {file} at {offset}"
        case ChannelEnd(channel, side):
            return f"side {side} of {channel.pid} {channel.num}"
        case Socket(host, port):
            return f"socket {host}:{port or 0}"
        case Listener(Address(host, port)):
            return f"listener {host}:{port}"
    raise ValueError("no image holds this")


def _files(machine: Machine) -> list[str]:
    names = sorted((file.name, number) for number, file in machine.files.items() if file.name is not None)
    lines = [f"name {name.hex().upper()}: file {number}" for name, number in names]
    return lines + [f"file {number}: {file.data.hex().upper()}" for number, file in sorted(machine.files.items())]


def _channels(machine: Machine) -> list[str]:
    lines, directions = [], []
    for name, channel in sorted(machine.channels.items()):
        of = f"{name.pid} {name.num}"
        lines.append(f"channel {of}: {KINDS[channel.kind]}, {_end(channel, 0)}, {_end(channel, 1)}")
        for side in (0, 1):
            directions.append(f"direction {of} from {side}: {_direction(channel.directions[side])}")
    listeners = {}
    for one in machine.descriptions.values():
        if isinstance(one.object, Listener):
            waiting = "".join(f", {name.pid} {name.num} waits" for name in one.object.waiting)
            listeners[one.object.address] = f"backlog {one.object.backlog}{waiting}"
    found = [f"listener {address.host}:{address.port}: {said}" for address, said in sorted(listeners.items())]
    return lines + directions + found


def _descriptions(machine: Machine) -> list[str]:
    return [f"description {name.pid} {name.num}: {_object(one.object)}, flags {one.flags:X}, owner {one.owner}"
            for name, one in sorted(machine.descriptions.items())]


def _process(one: Process | Zombie) -> list[str]:
    if isinstance(one, Zombie):
        return [f"process {one.number}: parent {one.parent}, ended with {one.status}, pending 0"]
    threads = [f"thread {number} of {one.number}: pending {thread.pending:X}"
               for number, thread in sorted(one.threads.items())]
    return [f"process {one.number}: parent {one.parent}, lives, pending {one.pending:X}", *threads]


def _processes(machine: Machine) -> list[str]:
    everyone: dict[int, Process | Zombie] = {**machine.processes, **machine.zombies}
    lines = [line for number in sorted(everyone) for line in _process(everyone[number])]
    makers = [f"maker {number}: host {everyone[number].host}, made {everyone[number].made}"
              for number in sorted(everyone)]
    descriptors = []
    for number, process in sorted(machine.processes.items()):
        for place, held in sorted(process.descriptors.items()):
            closing = ", closed on exec" if held.close_on_exec else ""
            descriptors.append(
                f"descriptor {place} of {number}: description {held.name.pid} {held.name.num}{closing}")
    return lines + makers + descriptors


def kernel_text(data: bytes) -> str:
    """The kernel part for which a shared image stands, a line for each entry of its maps."""
    machine = read_shared(data)
    lines = [f"next process {machine.next_id}, next file {machine.next_file}, 0 inboxes", *_files(machine),
             *_channels(machine), *_descriptions(machine), *_processes(machine)]
    return "\n  ".join(lines)


def _user_part(process: Process) -> list[str]:
    memory = process.memory
    line = (f"process {process.number}: break {memory.break_start} to {memory.break_now}, {len(memory.pages)} pages, "
            f"{len(process.waiters)} waiters")
    return [line, *(f"thread {number}: pc {thread.pc:X}, mask {thread.mask:X}, {len(thread.contexts)} contexts"
                    for number, thread in sorted(process.threads.items()))]


def set_text(files: list[bytes]) -> str:
    """What a set of these files spells, or where it is damaged."""
    names = {f"s{SLOT}_{index}.img": file for index, file in enumerate(files, start=1)}
    names[f"s{SLOT}_0.img"] = write_manifest(1, [len(file) for file in files])
    try:
        machine = Store(names).get_machine(SLOT)
    except SetDamaged as damage:
        return f"damaged: file {damage.file} at {damage.offset}"
    lines = [line for _, process in sorted(machine.processes.items()) for line in _user_part(process)]
    head = f"{len(machine.processes) + len(machine.zombies)} processes, {len(machine.processes)} live"
    return head + "".join(f"\n  {line}" for line in lines)
