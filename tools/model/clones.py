"""The row of `clone`: new threads and processes (docs/CALLS.md, "Processes and signals"; docs/MACHINE.md, "Calls")."""

from dataclasses import replace
from enum import Enum

from .numbers import CloneFlag, Errno, Number
from .rows import Caller, Effect, Row, test
from .state import NUMBER_END, SP, TP, Action, Context, Descriptor, Process, Thread

THREADS_LIMIT = 64
PROCESSES_LIMIT = 128
PROCESS_FLAGS = 17
THREAD_FLAGS = CloneFlag.VM | CloneFlag.FS | CloneFlag.FILES | CloneFlag.SIGHAND | CloneFlag.THREAD
PLACES = CloneFlag.PARENT_SETTID | CloneFlag.CHILD_SETTID | CloneFlag.CHILD_CLEARTID
THREAD_OPTIONS = PLACES | CloneFlag.SETTLS | CloneFlag.SYSVSEM


class CloneForm(Enum):
    """What `clone` can make."""

    THREAD = "a thread"
    PROCESS = "a process"


def _form_of(flags: int) -> CloneForm:
    """What the flags ask for; EINVAL where they have no form."""
    if flags & ~PLACES == PROCESS_FLAGS:
        return CloneForm.PROCESS
    test(flags & ~THREAD_OPTIONS == THREAD_FLAGS, Errno.EINVAL)
    return CloneForm.THREAD


def _next_number(caller: Caller) -> int:
    number = caller.machine.next_id
    caller.machine.next_id += 1
    return number


def _first_thread(caller: Caller, number: int) -> Thread:
    """A thread that goes on behind the call, with the answer 0: what the two forms have in common."""
    flags, stack, child_word = caller.argument(0), caller.argument(1), caller.argument(4)
    made = Thread(number, regs=list(caller.thread.regs), pc=caller.thread.pc, mask=caller.thread.mask)
    made.answer(0)
    if stack:
        made.regs[SP] = stack
    if flags & CloneFlag.CHILD_CLEARTID:
        made.clear_word = child_word
    return made


def _make_thread(caller: Caller) -> int:
    """A thread of the caller's process; gives its number."""
    flags, tls = caller.argument(0), caller.argument(3)
    number = _next_number(caller)
    made = _first_thread(caller, number)
    if flags & CloneFlag.SETTLS:
        made.regs[TP] = tls
    if flags & CloneFlag.PARENT_SETTID:
        caller.put_word(caller.argument(2), number)
    if flags & CloneFlag.CHILD_SETTID:
        caller.put_word(caller.argument(4), number)
    caller.process.threads[number] = made
    return number


def _copied(context: Context) -> Context:
    return replace(context, regs=list(context.regs))


def _child(caller: Caller, number: int) -> Process:
    """A process like the caller's, which has made nothing and for which nothing is pending."""
    parent = caller.process
    thread = _first_thread(caller, number)
    thread.contexts = [_copied(context) for context in caller.thread.contexts]
    actions: dict[int, Action] = {signal: replace(action) for signal, action in parent.actions.items()}
    descriptors: dict[int, Descriptor] = {place: replace(one) for place, one in parent.descriptors.items()}
    return Process(
        number,
        parent.memory.copy(),
        parent=parent.number,
        host=parent.host,
        threads={number: thread},
        descriptors=descriptors,
        actions=actions,
    )


def _make_process(caller: Caller) -> int:
    """A child of the caller's process; gives its number."""
    flags = caller.argument(0)
    number = _next_number(caller)
    child = _child(caller, number)
    caller.machine.processes[number] = child
    if flags & CloneFlag.PARENT_SETTID:
        caller.put_word(caller.argument(2), number)
    if flags & CloneFlag.CHILD_SETTID:
        child.memory.poke(caller.argument(4), number.to_bytes(4, "little"))
    return number


def _clone(caller: Caller) -> Effect:
    """Call 220."""
    machine, form = caller.machine, _form_of(caller.argument(0))
    if form is CloneForm.THREAD:
        has_room = len(caller.process.threads) < THREADS_LIMIT
    else:
        has_room = len(machine.processes) + len(machine.zombies) < PROCESSES_LIMIT
    test(has_room and machine.next_id < NUMBER_END, Errno.EAGAIN)
    return lambda: _make_thread(caller) if form is CloneForm.THREAD else _make_process(caller)


CLONE_ROWS: dict[int, Row] = {Number.CLONE: _clone}
