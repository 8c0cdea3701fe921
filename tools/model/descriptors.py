"""Rows of descriptors (docs/CALLS.md, "Descriptors")."""

from functools import partial

from .closing import close_descriptor
from .numbers import Command, Errno, Number, OpenFlag
from .objects import SETTABLE_FLAGS, Description
from .rows import DESCRIPTORS_LIMIT, Caller, Effect, Failed, Row, test
from .state import Descriptor

CLOSE_ON_EXEC = 1
"""The bit of a descriptor's flags."""


def _dup(caller: Caller) -> Effect:
    """Call 23."""
    name = caller.descriptor().name
    return partial(caller.refer, caller.free_descriptor(), name, False)


def _dup3(caller: Caller) -> Effect:
    """Call 24."""
    name, to, flags = caller.descriptor().name, caller.argument(1), caller.argument(2)
    test(to != caller.argument(0) and not flags & ~OpenFlag.CLOEXEC, Errno.EINVAL)
    test(to < DESCRIPTORS_LIMIT, Errno.EBADF)

    def effect() -> int:
        if to in caller.process.descriptors:
            close_descriptor(caller.machine, caller.process, to)
        return caller.refer(to, name, bool(flags & OpenFlag.CLOEXEC))

    return effect


def _close(caller: Caller) -> Effect:
    """Call 57."""
    caller.descriptor()

    def effect() -> int:
        close_descriptor(caller.machine, caller.process, caller.argument(0))
        return 0

    return effect


def _copy_from(caller: Caller, descriptor: Descriptor, close_on_exec: bool) -> Effect:
    """`fcntl` 0 and 1030: as `dup`, with the free descriptor from the argument on."""
    start = caller.argument(2)
    test(start < DESCRIPTORS_LIMIT, Errno.EINVAL)
    return partial(caller.refer, caller.free_descriptor(start), descriptor.name, close_on_exec)


def _set_close_on_exec(descriptor: Descriptor, argument: int) -> int:
    descriptor.close_on_exec = argument & CLOSE_ON_EXEC
    return 0


def _set_flags(description: Description, argument: int) -> int:
    description.flags = description.flags & ~SETTABLE_FLAGS | argument & SETTABLE_FLAGS
    return 0


def _owner_set(caller: Caller, description: Description) -> Effect:
    """`fcntl` 8."""
    owner = caller.argument(2)
    found = caller.machine.processes.get(owner)
    test(owner == 0 or (found is not None and found.host == caller.process.host), Errno.ESRCH)

    def effect() -> int:
        description.owner = owner
        return 0

    return effect


def _fcntl(caller: Caller) -> Effect:
    """Call 25."""
    descriptor, description = caller.descriptor(), caller.description()
    command, argument = caller.argument(1), caller.argument(2)
    if command in (Command.DUPFD, Command.DUPFD_CLOEXEC):
        return _copy_from(caller, descriptor, command == Command.DUPFD_CLOEXEC)
    if command == Command.SETOWN:
        return _owner_set(caller, description)
    effects: dict[int, Effect] = {
        Command.GETFD: lambda: descriptor.close_on_exec,
        Command.SETFD: partial(_set_close_on_exec, descriptor, argument),
        Command.GETFL: lambda: description.flags,
        Command.SETFL: partial(_set_flags, description, argument),
        Command.GETOWN: lambda: description.owner,
    }
    if command not in effects:
        raise Failed(Errno.EINVAL)
    return effects[command]


DESCRIPTOR_ROWS: dict[int, Row] = {
    Number.DUP: _dup,
    Number.DUP3: _dup3,
    Number.FCNTL: _fcntl,
    Number.CLOSE: _close,
}
