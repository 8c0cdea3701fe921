"""What holds of the descriptors, descriptions, files, datagram pairs and counters of every state (docs/CALLS.md)."""

from .files import FILE_NUMBER_LIMIT, FILES_LIMIT, OFFSET_LIMIT
from .objects import (
    ACCESS_MODE,
    BOTH_MODES,
    READ_AND_WRITE,
    READ_ONLY,
    SETTABLE_FLAGS,
    WRITE_ONLY,
    ChannelEnd,
    ChannelKind,
    Console,
    Counter,
    DatagramEnd,
    Description,
    DescriptionName,
    OpenFile,
)
from .pairs import READING_SIDE
from .rows import DESCRIPTORS_LIMIT, LONGEST_PATH
from .state import FIRST_NUMBER
from .transfers import ALL_FILES_LIMIT, COUNTER_LIMIT, LONGEST_MESSAGE, MESSAGES_LIMIT
from .view import Condition, View


def _descriptors(view: View) -> bool:
    held = [(number, one) for process in view.live() for number, one in process.descriptors.items()]
    numbers = all(0 <= number < DESCRIPTORS_LIMIT and one.close_on_exec in (0, 1) for number, one in held)
    return numbers and all(one.name in view.machine.descriptions for _, one in held)


def _held(view: View) -> bool:
    return all(view.hosts[name] for name in view.machine.descriptions)


def _one_host(view: View) -> bool:
    return all(len(hosts) == 1 for hosts in view.hosts.values())


def _owners(view: View) -> bool:
    owned = [(name, one.owner) for name, one in view.descriptions() if one.owner]
    owners = [(name, view.machine.processes.get(number)) for name, number in owned]
    return all(owner is not None and view.is_held_on(name, owner.host) for name, owner in owners)


def _mode_fits(view: View, description: Description) -> bool:
    """The access mode is one that the object's call gives."""
    mode, what = description.flags & ACCESS_MODE, description.object
    if isinstance(what, Console | OpenFile):
        return mode != BOTH_MODES
    channel = view.machine.channels.get(what.channel) if isinstance(what, ChannelEnd) else None
    if channel is not None and channel.kind is ChannelKind.PIPE:
        return mode == (READ_ONLY if what.side == READING_SIDE else WRITE_ONLY)
    return mode == READ_AND_WRITE


def _flags(view: View) -> bool:
    known = all(not one.flags & ~(ACCESS_MODE | SETTABLE_FLAGS) for _, one in view.descriptions())
    return known and all(_mode_fits(view, one) for _, one in view.descriptions())


def _made(view: View) -> bool:
    """A description's or channel's maker had its number, and has counted past it if it is still there."""
    counts = {process.number: process.made for process in view.present()}
    consoles = {name for name, _ in view.objects(Console)}
    for name in [*view.machine.descriptions, *view.machine.channels]:
        known = FIRST_NUMBER <= name.pid < view.machine.next_id
        counted = name.num < counts.get(name.pid, name.num + 1)
        if not known or not counted or (name.num < 1 and name not in consoles):
            return False
    return True


def _own_numbers(view: View) -> bool:
    """A description and a channel never have the same name."""
    channels = {(name.pid, name.num) for name in view.machine.channels}
    return all((name.pid, name.num) not in channels for name in view.machine.descriptions)


def _file_numbers(view: View) -> bool:
    below = all(1 <= number < view.machine.next_file for number in view.machine.files)
    return below and 1 <= view.machine.next_file <= FILE_NUMBER_LIMIT


def _files_used(view: View) -> bool:
    opened = {what.file for _, what in view.objects(OpenFile)}
    return all(file.name is not None or number in opened for number, file in view.machine.files.items())


def _file_names(view: View) -> bool:
    names = [file.name for file in view.machine.files.values() if file.name is not None]
    spelled = all(1 <= len(name) < LONGEST_PATH and 0 not in name for name in names)
    return spelled and len(names) == len(set(names))


def _offsets(view: View) -> bool:
    opened = [what for _, what in view.objects(OpenFile)]
    return all(0 <= one.offset <= OFFSET_LIMIT and one.file in view.machine.files for one in opened)


def _know_each_other(view: View, name: DescriptionName, other: DescriptionName) -> bool:
    """Two names that one call gave; where the other end is not closed it knows this one, on the same host."""
    if name.pid != other.pid or abs(name.num - other.num) != 1:
        return False
    found = view.machine.descriptions.get(other)
    if found is None:
        return True
    knows = isinstance(found.object, DatagramEnd) and found.object.other == name
    return knows and view.hosts[name] == view.hosts[other]


def _datagram_pairs(view: View) -> bool:
    return all(_know_each_other(view, name, end.other) for name, end in view.objects(DatagramEnd))


def _messages(view: View) -> bool:
    rows = [end.messages for _, end in view.objects(DatagramEnd)]
    return all(len(row) <= MESSAGES_LIMIT and all(len(one) <= LONGEST_MESSAGE for one in row) for row in rows)


DESCRIPTION_CONDITIONS: dict[str, Condition] = {
    "a descriptor has a number below 256 and refers to a description": _descriptors,
    "each description is held by a descriptor": _held,
    "those that hold a description are of one host": _one_host,
    "an owner lives on the host of those that hold the description": _owners,
    "status flags are known, with an access mode of the object": _flags,
    "names of descriptions and channels were counted by their makers": _made,
    "no description has the name of a channel": _own_numbers,
    "numbers of files are below the next one": _file_numbers,
    "a file has a name or a description": _files_used,
    "a name is one file's, with 1 to 255 bytes and no zero": _file_names,
    "there are at most 1,024 files": lambda view: len(view.machine.files) <= FILES_LIMIT,
    "all files together have at most 67,108,864 bytes": lambda view: (
        sum(len(file.data) for file in view.machine.files.values()) <= ALL_FILES_LIMIT),
    "an offset is to 2^31 - 1, in a file that is there": _offsets,
    "the ends of a datagram pair know each other": _datagram_pairs,
    "at most 64 messages of at most 4,096 bytes wait at a datagram end": _messages,
    "a counter is at most 2^64 - 2": lambda view: all(
        0 <= counter.value <= COUNTER_LIMIT for _, counter in view.objects(Counter)),
}
