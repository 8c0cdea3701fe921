"""Calls that a process answers alone (docs/MACHINE.md, "Calls", the second table).

Each gives the answer, or None where it puts none (a thread that waits, a return from a handler).
"""

from typing import Callable

from .bits import word_bytes
from .memory import EXECUTE, MAPPINGS_END, MAPPINGS_START, OFFSET_MASK, READ, WRITE, page_up
from .numbers import FUTEX_WAIT, FUTEX_WAKE, Errno, Number, futex_operation
from .state import ALL_SIGNALS, SIGNALS, Action, Process, Thread, Waiter, signal_bit

LocalCall = Callable[[Process, Thread], "int | None"]

SET_SIZE = 8
NEVER_MASKED = signal_bit(9) | signal_bit(19)
NEVER_HANDLED = (9, 19)
BLOCK, UNBLOCK, SET = 0, 1, 2
PRIVATE_ANONYMOUS = 0x22
PROTECTION_LIMIT = 8
PROTECT_READ, PROTECT_WRITE, PROTECT_EXECUTE = 1, 2, 4


def _word(process: Process, address: int) -> int:
    return int.from_bytes(process.memory.peek(address, 4), "little")


def _set_at(process: Process, address: int) -> int:
    """A set of signals in memory, of which 9, 19 and those above 31 are dropped."""
    return _word(process, address) & ALL_SIGNALS & ~NEVER_MASKED


def _set_tid_address(_process: Process, thread: Thread) -> int:
    """Call 96."""
    thread.clear_word = thread.argument(0)
    return thread.number


def _futex(process: Process, thread: Thread) -> int | None:
    """Call 98."""
    address, value, timeout = thread.argument(0), thread.argument(2), thread.argument(3)
    operation = futex_operation(thread.argument(1))
    if operation not in (FUTEX_WAIT, FUTEX_WAKE):
        return -Errno.ENOSYS
    if address & 3 or (operation == FUTEX_WAIT and timeout != 0):
        return -Errno.EINVAL
    if operation == FUTEX_WAKE:
        return process.wake(address, value)
    if _word(process, address) != value:
        return -Errno.EAGAIN
    process.waiters.append(Waiter(thread.number, address))
    return None


def _sched_yield(_process: Process, _thread: Thread) -> int:
    """Call 124."""
    return 0


def _rt_sigaction(process: Process, thread: Thread) -> int:
    """Call 134."""
    signal, new, old, size = (thread.argument(index) for index in range(4))
    if size != SET_SIZE or signal not in SIGNALS or (new != 0 and signal in NEVER_HANDLED):
        return -Errno.EINVAL
    before = process.actions[signal]
    if new:
        process.actions[signal] = Action(_word(process, new), _word(process, new + 4), _set_at(process, new + 8))
    if old:
        # The last 4 bytes of the old action are 0, and those of the new one are not looked at.
        fields = [before.handler, before.flags, before.mask, 0]
        process.memory.poke(old, b"".join(word_bytes(word) for word in fields))
    return 0


def _rt_sigprocmask(process: Process, thread: Thread) -> int:
    """Call 135."""
    how, place, old, size = (thread.argument(index) for index in range(4))
    if size != SET_SIZE or how not in (BLOCK, UNBLOCK, SET):
        return -Errno.EINVAL
    before = thread.mask
    if place:
        chosen = _set_at(process, place)
        after = {BLOCK: before | chosen, UNBLOCK: before & ~chosen, SET: chosen}
        thread.mask = after[how]
    if old:
        process.memory.poke(old, word_bytes(before) + word_bytes(0))
    return 0


def _rt_sigreturn(_process: Process, thread: Thread) -> int | None:
    """Call 139: the context that was saved last, which has its own `a0` and `pc`."""
    if not thread.contexts:
        return -Errno.EINVAL
    context = thread.contexts.pop()
    thread.regs[1:32] = context.regs
    thread.pc = context.pc
    thread.mask = context.mask
    return None


def _gettid(_process: Process, thread: Thread) -> int:
    """Call 178."""
    return thread.number


def _brk(process: Process, thread: Thread) -> int:
    """Call 214."""
    return process.memory.move_break(thread.argument(0))


def _munmap(process: Process, thread: Thread) -> int:
    """Call 215."""
    address, length = thread.argument(0), thread.argument(1)
    within = MAPPINGS_START <= address and address + length <= MAPPINGS_END
    if address & OFFSET_MASK or length == 0 or not within:
        return -Errno.EINVAL
    process.memory.unmap(address, length)
    return 0


def _rights_of(protection: int) -> int:
    """The rights of a mapping's protection."""
    rights = READ if protection & PROTECT_READ else 0
    rights |= WRITE if protection & PROTECT_WRITE else 0
    rights |= EXECUTE if protection & PROTECT_EXECUTE else 0
    return rights


def _mmap(process: Process, thread: Thread) -> int:
    """Call 222."""
    length, protection, flags = thread.argument(1), thread.argument(2), thread.argument(3)
    if flags != PRIVATE_ANONYMOUS or length == 0 or protection >= PROTECTION_LIMIT:
        return -Errno.EINVAL
    start = process.memory.map_lowest(page_up(length), _rights_of(protection))
    return -Errno.ENOMEM if start is None else start


LOCAL_CALLS: dict[int, LocalCall] = {
    Number.SET_TID_ADDRESS: _set_tid_address,
    Number.FUTEX: _futex,
    Number.SCHED_YIELD: _sched_yield,
    Number.RT_SIGACTION: _rt_sigaction,
    Number.RT_SIGPROCMASK: _rt_sigprocmask,
    Number.RT_SIGRETURN: _rt_sigreturn,
    Number.GETTID: _gettid,
    Number.BRK: _brk,
    Number.MUNMAP: _munmap,
    Number.MMAP: _mmap,
}
