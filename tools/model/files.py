"""Rows of files (docs/CALLS.md, "Files")."""

from .closing import forget_file
from .numbers import Errno, Number, OpenFlag
from .objects import ACCESS_MODE, BOTH_MODES, SETTABLE_FLAGS, File, OpenFile
from .rows import Caller, Effect, Row, test
from .state import Machine

CURRENT_FOLDER = -100
FILES_LIMIT = 1024
FILE_NUMBER_LIMIT = 2**32 - 1
"""Where the next file has this number none is made any more."""
OFFSET_LIMIT = 2**31 - 1
FROM_START, FROM_OFFSET, FROM_END = 0, 1, 2


def _file_named(machine: Machine, name: bytes) -> int | None:
    """The number of the file that has a name."""
    return next((number for number, file in machine.files.items() if file.name == name), None)


def _unlinkat(caller: Caller) -> Effect:
    """Call 35."""
    test(caller.signed_argument(0) == CURRENT_FOLDER, Errno.EBADF)
    test(caller.argument(2) == 0, Errno.EINVAL)
    number = _file_named(caller.machine, caller.path(1))
    test(number is not None, Errno.ENOENT)

    def effect() -> int:
        caller.machine.files[number].name = None
        forget_file(caller.machine, number)
        return 0

    return effect


def _make_file(machine: Machine, name: bytes) -> int:
    """An empty file with the next number of files."""
    number = machine.next_file
    machine.next_file += 1
    machine.files[number] = File(name)
    return number


def _test_file(machine: Machine, number: int | None, flags: int) -> None:
    """The errors of `openat` about the file that has the name, or about the one that is to be made."""
    if number is not None:
        test(not (flags & OpenFlag.CREAT and flags & OpenFlag.EXCL), Errno.EEXIST)
        return
    test(bool(flags & OpenFlag.CREAT), Errno.ENOENT)
    has_room = len(machine.files) < FILES_LIMIT and machine.next_file < FILE_NUMBER_LIMIT
    test(has_room, Errno.ENOSPC)


def _openat(caller: Caller) -> Effect:
    """Call 56."""
    machine, flags = caller.machine, caller.argument(2)
    test(caller.signed_argument(0) == CURRENT_FOLDER, Errno.EBADF)
    name = caller.path(1)
    test(name != b"", Errno.ENOENT)
    test(flags & ACCESS_MODE != BOTH_MODES, Errno.EINVAL)
    caller.test_can_make()
    descriptor = caller.free_descriptor()
    found = _file_named(machine, name)
    _test_file(machine, found, flags)

    def effect() -> int:
        number = _make_file(machine, name) if found is None else found
        if flags & OpenFlag.TRUNC:
            machine.files[number].data.clear()
        made = caller.make_description(flags & (ACCESS_MODE | SETTABLE_FLAGS), OpenFile(number))
        return caller.refer(descriptor, made, bool(flags & OpenFlag.CLOEXEC))

    return effect


def _place_of(caller: Caller, opened: OpenFile) -> int:
    """The place from which `lseek` counts; EINVAL."""
    whence, size = caller.argument(2), len(caller.machine.files[opened.file].data)
    places = {FROM_START: 0, FROM_OFFSET: opened.offset, FROM_END: size}
    test(whence in places, Errno.EINVAL)
    return places[whence]


def _lseek(caller: Caller) -> Effect:
    """Call 62."""
    opened = caller.description().object
    test(isinstance(opened, OpenFile), Errno.ESPIPE)
    place = _place_of(caller, opened) + caller.signed_argument(1)
    test(0 <= place <= OFFSET_LIMIT, Errno.EINVAL)

    def effect() -> int:
        opened.offset = place
        return place

    return effect


FILE_ROWS: dict[int, Row] = {
    Number.UNLINKAT: _unlinkat,
    Number.OPENAT: _openat,
    Number.LSEEK: _lseek,
}
