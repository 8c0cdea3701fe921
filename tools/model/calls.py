"""Calls: buffers, errors in order, effects and answers (docs/MACHINE.md, "Calls"; docs/CALLS.md)."""

from functools import partial

from .buffers import all_fit
from .clones import CLONE_ROWS
from .descriptors import DESCRIPTOR_ROWS
from .files import FILE_ROWS
from .local_calls import LOCAL_CALLS
from .numbers import Errno
from .pairs import PAIR_ROWS
from .processes import PROCESS_ROWS
from .rows import Caller, Effect, Failed, Row, Waits
from .sockets import SOCKET_ROWS
from .state import A7, Machine, Process, Thread
from .transfers import TRANSFER_ROWS

KERNEL_ROWS: dict[int, Row] = {
    **DESCRIPTOR_ROWS,
    **FILE_ROWS,
    **TRANSFER_ROWS,
    **PAIR_ROWS,
    **SOCKET_ROWS,
    **PROCESS_ROWS,
    **CLONE_ROWS,
}


def _effect_of(machine: Machine, process: Process, thread: Thread) -> Effect:
    """Buffers first, then the errors of the call's row; raises `Failed` or `Waits`."""
    number = thread.regs[A7]
    if not all_fit(thread, process.memory):
        raise Failed(Errno.EFAULT)
    if number in LOCAL_CALLS:
        return partial(LOCAL_CALLS[number], process, thread)
    if number not in KERNEL_ROWS:
        raise Failed(Errno.ENOSYS)
    return KERNEL_ROWS[number](Caller(machine, process, thread))


def is_ready(machine: Machine, process: Process, thread: Thread) -> bool:
    """Whether the call at which a thread stands can be made: it does not wait."""
    try:
        _effect_of(machine, process, thread)
    except Failed:
        return True
    except Waits:
        return False
    return True


def make_call(machine: Machine, process: Process, thread: Thread) -> None:
    """One `Call` record: the call at which the thread stands, which is ready, is served and answered."""
    try:
        answer = _effect_of(machine, process, thread)()
    except Failed as failed:
        answer = -failed.error
    if answer is not None:
        thread.answer(answer)
