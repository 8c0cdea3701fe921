"""Signals: which one is due, and what a delivery comes to (docs/MACHINE.md, "Signals")."""

from enum import Enum

from .bits import WORD_MASK
from .calls import is_ready
from .closing import end_process
from .cpu import stands_at_call
from .numbers import Errno
from .start import RETURN_ADDRESS
from .state import A0, A1, A2, RA, SIGNALS, SP, Action, Context, Machine, Process, Thread, signal_bit

KILL, NO_ROOM = 9, 11
"""The signal that no handler has, and the one by which a process ends where no context can be saved."""
IGNORED_BY_DEFAULT = (17, 23, 28)
DEFAULT, IGNORE = 0, 1
NOT_MASKED_ITSELF = 0x40000000
CALL_AGAIN = 0x10000000
CONTEXTS_LIMIT = 64


class Cause(Enum):
    """Why a signal is delivered."""

    TRAP = "trap"
    PENDING = "pending"


class Effect(Enum):
    """What a delivery comes to."""

    ENDS = "the process ends"
    ENDS_WITHOUT_ROOM = "the process ends as by signal 11"
    NOTHING = "nothing else happens"
    HANDLED = "the handler is entered"


def due_signal(process: Process, thread: Thread) -> int | None:
    """The least signal that is pending for the thread or its process and that its mask lets through."""
    found = (thread.pending | process.pending) & ~thread.mask
    return next((signal for signal in SIGNALS if found & signal_bit(signal)), None)


def _is_ignored(action: Action, signal: int) -> bool:
    return action.handler == IGNORE or (action.handler == DEFAULT and signal in IGNORED_BY_DEFAULT)


def _effect(process: Process, thread: Thread, signal: int, cause: Cause) -> Effect:
    """Rules 1 to 4, in order."""
    action = process.actions[signal]
    ignored = _is_ignored(action, signal)
    masked = bool(thread.mask & signal_bit(signal))
    if signal == KILL or (cause is Cause.TRAP and (masked or ignored)):
        return Effect.ENDS
    if ignored:
        return Effect.NOTHING
    if action.handler == DEFAULT:
        return Effect.ENDS
    return Effect.HANDLED if len(thread.contexts) < CONTEXTS_LIMIT else Effect.ENDS_WITHOUT_ROOM


def _take_pending(process: Process, thread: Thread, signal: int) -> None:
    """A delivery takes what is pending for the thread first."""
    if thread.pending & signal_bit(signal):
        thread.pending &= ~signal_bit(signal)
    else:
        process.pending &= ~signal_bit(signal)


def waits_at_call(machine: Machine, process: Process, thread: Thread) -> bool:
    """Whether a thread waits on a word, or stands at a call that isn't ready."""
    if process.waits(thread):
        return True
    return stands_at_call(thread, process.memory) and not is_ready(machine, process, thread)


def _interrupted(machine: Machine, process: Process, thread: Thread, action: Action) -> Context:
    """The context that a handler saves; a thread that waited waits no more (rule 5)."""
    context = Context(thread.regs[1:32], thread.pc, thread.mask)
    if waits_at_call(machine, process, thread):
        process.wait_no_more(thread)
        if not action.flags & CALL_AGAIN:
            context.regs[A0 - 1] = -Errno.EINTR & WORD_MASK
            context.pc = (thread.pc + 4) & WORD_MASK
    return context


def _enter_handler(machine: Machine, process: Process, thread: Thread, signal: int) -> None:
    """Rules 4 and 5."""
    action = process.actions[signal]
    thread.contexts.append(_interrupted(machine, process, thread, action))
    thread.mask |= action.mask
    if not action.flags & NOT_MASKED_ITSELF:
        thread.mask |= signal_bit(signal)
    thread.regs[A0], thread.regs[A1], thread.regs[A2] = signal, 0, 0
    thread.regs[RA] = RETURN_ADDRESS
    thread.regs[SP] &= ~15
    thread.pc = action.handler


def deliver(machine: Machine, process: Process, thread: Thread, signal: int, cause: Cause) -> None:
    """One `Deliver` record."""
    effect = _effect(process, thread, signal, cause)
    if cause is Cause.PENDING:
        _take_pending(process, thread, signal)
    if effect is Effect.ENDS:
        end_process(machine, process, signal)
    elif effect is Effect.ENDS_WITHOUT_ROOM:
        end_process(machine, process, NO_ROOM)
    elif effect is Effect.HANDLED:
        _enter_handler(machine, process, thread, signal)
