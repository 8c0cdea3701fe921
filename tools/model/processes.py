"""Rows of processes and signals, but for `clone` (docs/CALLS.md, "Processes and signals")."""

from .closing import end_process
from .memory import WRITE
from .numbers import Errno, Number
from .rows import Caller, Effect, Failed, Row, Waits, test
from .state import Process, Thread, Zombie, signal_bit

WORD_SIZE = 4
STATUS_LIMIT = 256
SIGNALS_SENT = frozenset(range(32)) - frozenset(range(18, 23))
"""The signals that can be sent, and 0, which only asks."""
ANY_CHILD = -1
NO_HANG = 1
"""The option of `wait4` to answer at once."""


def _status(caller: Caller) -> int:
    """The status of a process that ends with the first argument as its code."""
    return caller.argument(0) % STATUS_LIMIT * STATUS_LIMIT


def _clear_word(process: Process, thread: Thread) -> None:
    """The word that a thread's end clears becomes 0, if it can, and the first thread that waits there goes on."""
    place = thread.clear_word
    if place == 0:
        return
    if process.memory.allows(place, WORD_SIZE, WRITE):
        process.memory.poke(place, bytes(WORD_SIZE))
    process.wake(place, 1)


def _exit(caller: Caller) -> Effect:
    """Call 93: the thread ends, and with the last one the process."""
    process, thread = caller.process, caller.thread

    def effect() -> None:
        del process.threads[thread.number]
        if process.threads:
            _clear_word(process, thread)
        else:
            end_process(caller.machine, process, _status(caller))

    return effect


def _exit_group(caller: Caller) -> Effect:
    """Call 94."""
    return lambda: end_process(caller.machine, caller.process, _status(caller))


def _addressee(caller: Caller, signal: int) -> Process:
    """The process to which a signal is sent; EINVAL, ESRCH."""
    pid = caller.signed_argument(0)
    test(pid > 0 and signal in SIGNALS_SENT, Errno.EINVAL)
    found = caller.machine.processes.get(pid)
    if found is None or found.host != caller.process.host:
        raise Failed(Errno.ESRCH)
    return found


def _send(to: Process | Thread, signal: int) -> int:
    """A signal is pending; 0 only asks."""
    if signal:
        to.pending |= signal_bit(signal)
    return 0


def _kill(caller: Caller) -> Effect:
    """Call 129."""
    signal = caller.argument(1)
    process = _addressee(caller, signal)
    return lambda: _send(process, signal)


def _tgkill(caller: Caller) -> Effect:
    """Call 131."""
    signal = caller.argument(2)
    thread = _addressee(caller, signal).threads.get(caller.argument(1))
    if thread is None:
        raise Failed(Errno.ESRCH)
    return lambda: _send(thread, signal)


def _getpid(caller: Caller) -> Effect:
    """Call 172."""
    return lambda: caller.process.number


def _getppid(caller: Caller) -> Effect:
    """Call 173."""
    return lambda: caller.process.parent


def _is_meant(child: Process | Zombie, parent: int, pid: int) -> bool:
    """Whether `wait4` of a parent speaks of a child."""
    return child.parent == parent and pid in (ANY_CHILD, child.number)


def _wait4(caller: Caller) -> Effect:
    """Call 260."""
    machine, own = caller.machine, caller.process.number
    pid, place, options = caller.signed_argument(0), caller.argument(1), caller.argument(2)
    known = caller.argument(3) == 0 and options in (0, NO_HANG) and (pid == ANY_CHILD or pid > 0)
    test(known, Errno.EINVAL)
    ended = [child for child in machine.zombies.values() if _is_meant(child, own, pid)]
    live = [child for child in machine.processes.values() if _is_meant(child, own, pid)]
    test(bool(ended or live), Errno.ECHILD)
    if not ended and options != NO_HANG:
        raise Waits

    def effect() -> int:
        if not ended:
            return 0
        child = machine.zombies.pop(min(child.number for child in ended))
        if place:
            caller.put_word(place, child.status)
        return child.number

    return effect


PROCESS_ROWS: dict[int, Row] = {
    Number.EXIT: _exit,
    Number.EXIT_GROUP: _exit_group,
    Number.KILL: _kill,
    Number.TGKILL: _tgkill,
    Number.GETPID: _getpid,
    Number.GETPPID: _getppid,
    Number.WAIT4: _wait4,
}
