"""What holds of the processes and threads of every state (docs/MACHINE.md, "The start", "Threads", "Signals", "Limits";
docs/CALLS.md, "Processes and signals"; docs/FORMATS.md, "Shared image")."""

from .clones import PROCESSES_LIMIT, THREADS_LIMIT
from .local_calls import NEVER_HANDLED, NEVER_MASKED
from .memory import BREAK_LIMIT, PAGE_LIMIT
from .processes import SIGNALS_SENT
from .rows import MADE_LIMIT
from .signals import CONTEXTS_LIMIT
from .state import ALL_SIGNALS, FIRST_NUMBER, NOBODY, NUMBER_END, Action, Process, signal_bit
from .view import Condition, View

HOSTS = 16
MADE_AT_ONCE = 3
"""The channel and the two descriptions of a pipe."""
CAN_BE_MASKED = ALL_SIGNALS & ~NEVER_MASKED
CAN_BE_PENDING = sum(signal_bit(signal) for signal in SIGNALS_SENT if signal)


def _numbers(view: View) -> bool:
    threads = [number for process in view.live() for number in process.threads]
    numbers = [process.number for process in view.present()]
    below = all(FIRST_NUMBER <= number < view.machine.next_id for number in threads + numbers)
    return below and FIRST_NUMBER <= view.machine.next_id <= NUMBER_END


def _keys(view: View) -> bool:
    tables = [view.machine.processes, view.machine.zombies, *(process.threads for process in view.live())]
    return all(one.number == key for table in tables for key, one in table.items())


def _one_use(view: View) -> bool:
    used = {number for process in view.live() for number in {process.number, *process.threads}}
    count = sum(len({process.number, *process.threads}) for process in view.live())
    return len(used) == count and not used & set(view.machine.zombies)


def _made_later(view: View) -> bool:
    return all(number >= process.number for process in view.live() for number in process.threads)


def _is_parent(view: View, number: int, child: int, host: int) -> bool:
    parent = view.machine.processes.get(number)
    return parent is not None and parent.host == host and parent.number < child


def _parents(view: View) -> bool:
    children = [child for child in view.live() if child.parent != NOBODY]
    return all(_is_parent(view, child.parent, child.number, child.host) for child in children)


def _zombies(view: View) -> bool:
    zombies = view.machine.zombies.values()
    return all(_is_parent(view, zombie.parent, zombie.number, zombie.host) for zombie in zombies)


def _statuses(view: View) -> bool:
    """(`code` modulo 256) * 256, or a signal's number."""
    by_exit, by_signal = range(0, 256 * 256, 256), range(1, 32)
    return all(zombie.status in by_exit or zombie.status in by_signal for zombie in view.machine.zombies.values())


def _made(view: View) -> bool:
    return all(1 <= process.made < MADE_LIMIT + MADE_AT_ONCE for process in view.present())


def _pending(view: View) -> bool:
    masks = [owner.pending for process in view.live() for owner in (process, *process.threads.values())]
    return all(not mask & ~CAN_BE_PENDING for mask in masks)


def _masks_of(process: Process) -> list[int]:
    threads = process.threads.values()
    saved = [context.mask for thread in threads for context in thread.contexts]
    return [*(thread.mask for thread in threads), *saved, *(action.mask for action in process.actions.values())]


def _masks(view: View) -> bool:
    found = {mask for process in view.live() for mask in _masks_of(process)}
    return all(not mask & ~CAN_BE_MASKED for mask in found)


def _actions(view: View) -> bool:
    return all(process.actions[signal] == Action() for process in view.live() for signal in NEVER_HANDLED)


def _waiters(view: View) -> bool:
    waiting = [[waiter.thread for waiter in process.waiters] for process in view.live()]
    once = all(len(threads) == len(set(threads)) for threads in waiting)
    return once and all(set(threads) <= set(one.threads) for one, threads in zip(view.live(), waiting))


def _contexts(view: View) -> bool:
    threads = [thread for process in view.live() for thread in process.threads.values()]
    return all(len(thread.contexts) <= CONTEXTS_LIMIT for thread in threads)


def _memory(view: View) -> bool:
    memories = [process.memory for process in view.live()]
    breaks = all(one.break_start <= one.break_now <= BREAK_LIMIT for one in memories)
    return breaks and all(len(one.pages) <= PAGE_LIMIT for one in memories)


PROCESS_CONDITIONS: dict[str, Condition] = {
    "numbers of processes and threads are below the next one": _numbers,
    "each process and each thread stands under its number": _keys,
    "a number is one process's or one thread's, but for a process and a thread of its own": _one_use,
    "a process's threads have its own number and greater ones": _made_later,
    "a live process has 1 to 64 threads": lambda view: all(
        1 <= len(process.threads) <= THREADS_LIMIT for process in view.live()),
    "there are at most 128 processes, those that have ended among them": lambda view: (
        len(view.present()) <= PROCESSES_LIMIT),
    "hosts are 0 to 15": lambda view: all(0 <= process.host < HOSTS for process in view.present()),
    "a parent is nobody, or lives on the child's host with a lower number": _parents,
    "a process that has ended has a parent that lives": _zombies,
    "a status is that of an exit or of a signal": _statuses,
    "a process's next description or channel has a number from 1 to 2^32 - 2": _made,
    "what is pending are signals that can be sent": _pending,
    "masks have neither 9 nor 19, and nothing above 31": _masks,
    "signals 9 and 19 have no action": _actions,
    "who waits on a word is a thread of the process, once": _waiters,
    "a thread has at most 64 saved contexts": _contexts,
    "a process has at most 2,048 pages, and its break is from the break's start to 0x40000000": _memory,
}
