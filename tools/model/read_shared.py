"""The reading of a shared image (docs/FORMATS.md, "Shared image"): its head, the processes, and the whole of it."""

from dataclasses import dataclass, field

from .closing import ACCEPTING_SIDE
from .clones import PROCESSES_LIMIT, THREADS_LIMIT
from .images import SHARED_MAGIC, STATE_LIVES, STATE_ZOMBIE
from .memory import Memory
from .objects import Address, Channel, ChannelEnd, Description, DescriptionName, Listener, Object, OpenFile, Socket
from .read_objects import Shared, read_channels, read_descriptions, read_files
from .reader import Reader
from .rows import DESCRIPTORS_LIMIT
from .state import FIRST_NUMBER, NOBODY, NUMBER_END, Descriptor, Machine, Process, Thread, Zombie
from .view import View

SIGNALS_END = 1 << 31
SIDES = (0, 1)


@dataclass
class Numbers:
    """The numbers of the processes so far, and of their threads."""

    processes: set[int] = field(default_factory=set)
    threads: set[int] = field(default_factory=set)


def _read_threads(shared: Shared, lives: bool, numbers: Numbers) -> dict[int, Thread]:
    """The threads of a process, in rising order; a zombie has none."""
    reader, next_id, last = shared.reader, shared.machine.next_id, FIRST_NUMBER - 1
    used = numbers.processes | numbers.threads
    found: dict[int, Thread] = {}
    for _ in range(reader.word(lambda count: 1 <= count <= THREADS_LIMIT if lives else count == 0)):
        last = reader.word(lambda value: last < value < next_id and value not in used)
        found[last] = Thread(last, pending=reader.word(lambda value: value < SIGNALS_END))
    return found


def _read_descriptors(shared: Shared, lives: bool) -> dict[int, Descriptor]:
    """The descriptors of a process, in rising order; a zombie has none."""
    reader, descriptions, last = shared.reader, shared.machine.descriptions, -1
    found: dict[int, Descriptor] = {}
    for _ in range(reader.word(lambda count: count <= (DESCRIPTORS_LIMIT if lives else 0))):
        last = reader.word(lambda value: last < value < DESCRIPTORS_LIMIT)
        pid = reader.word()
        name = DescriptionName(pid, reader.word(lambda value: DescriptionName(pid, value) in descriptions))
        found[last] = Descriptor(name, reader.byte(lambda value: value <= 1))
    return found


def _state_allowed(machine: Machine, state: int, process: Process) -> bool:
    """One that lives has made what has its number; one that has ended has a parent."""
    if state != STATE_LIVES:
        return state == STATE_ZOMBIE and process.parent != NOBODY
    made = [name.num for name in [*machine.descriptions, *machine.channels] if name.pid == process.number]
    return all(number < process.made for number in made)


def _read_process(shared: Shared, last: int, numbers: Numbers) -> int:
    """A process above the last one, and gives its number; what a live one has of its own is in its own image."""
    reader, machine = shared.reader, shared.machine
    first = max(FIRST_NUMBER, last + 1)
    number = reader.word(lambda value: first <= value < machine.next_id and value not in numbers.threads)
    parent = reader.word(lambda value: value == NOBODY or value in machine.processes)
    process = Process(number, Memory(0, 0), parent=parent, host=shared.host(), made=reader.word())
    state = reader.byte(lambda value: _state_allowed(machine, value, process))
    lives = state == STATE_LIVES
    status = reader.word(lambda value: not lives or value == 0)
    process.pending = reader.word(lambda value: value < (SIGNALS_END if lives else 1))
    process.threads = _read_threads(shared, lives, numbers)
    process.descriptors = _read_descriptors(shared, lives)
    if lives:
        machine.processes[number] = process
    else:
        machine.zombies[number] = Zombie(number, parent, process.host, process.made, status)
    numbers.processes.add(number)
    numbers.threads.update(process.threads)
    return number


def _read_processes(shared: Shared) -> None:
    """The list of processes, in rising order, those that have ended among them."""
    numbers, last = Numbers(), 0
    for _ in range(shared.reader.word(lambda count: count <= PROCESSES_LIMIT)):
        last = _read_process(shared, last, numbers)


def _files_are_used(machine: Machine) -> bool:
    """Each file has a name or a description."""
    opened = {one.object.file for one in machine.descriptions.values() if isinstance(one.object, OpenFile)}
    return all(file.name is not None or number in opened for number, file in machine.files.items())


def _sides_fit(channel: Channel) -> bool:
    """A side is open, and one that is not sends no more, and what it is sent is read no more."""
    closed = [side for side in SIDES if side not in channel.open_sides]
    done = all(channel.sent_by(side).ended and channel.sent_to(side).unread for side in closed)
    return done and bool(channel.open_sides)


def _hosts_of(machine: Machine, what: Object) -> set[int]:
    """The hosts that an object is of, beside those that hold it."""
    if isinstance(what, Socket):
        return {what.host}
    if isinstance(what, Listener):
        sides = [(name, ACCEPTING_SIDE) for name in what.waiting]
        own = [what.address]
    else:
        sides = [(what.channel, what.side)] if isinstance(what, ChannelEnd) else []
        own = []
    addresses: list[Address | None] = [(machine.channels[name].addresses or (None, None))[side] for name, side in sides]
    return {address.host for address in [*own, *addresses] if address is not None}


def _is_held(view: View, name: DescriptionName, description: Description) -> bool:
    """Its holders are of one host, of which its owner and its object are too."""
    hosts = view.hosts[name]
    owner = view.machine.processes.get(description.owner)
    is_owned = description.owner == 0 or (owner is not None and hosts == {owner.host})
    return len(hosts) == 1 and is_owned and _hosts_of(view.machine, description.object) <= hosts


def _parents_fit(machine: Machine) -> bool:
    """A parent is of its child's host."""
    children = [one for one in [*machine.processes.values(), *machine.zombies.values()] if one.parent != NOBODY]
    return all(machine.processes[one.parent].host == one.host for one in children)


def _is_whole(machine: Machine) -> bool:
    """What is tested at the end of the file."""
    view = View(machine)
    held = all(_is_held(view, name, description) for name, description in view.descriptions())
    sides = all(_sides_fit(channel) for channel in machine.channels.values())
    return _files_are_used(machine) and sides and held and _parents_fit(machine)


def read_shared(data: bytes) -> Machine:
    """The kernel part that a shared image spells; raises its first damage."""
    reader = Reader(data)
    reader.magic(SHARED_MAGIC)
    next_id = reader.word(lambda value: FIRST_NUMBER <= value <= NUMBER_END)
    shared = Shared(reader, Machine(next_id, reader.word(lambda value: value >= 1), {}, {}))
    read_files(shared)
    read_channels(shared)
    read_descriptions(shared)
    _read_processes(shared)
    reader.end()
    reader.whole(_is_whole(shared.machine))
    return shared.machine
