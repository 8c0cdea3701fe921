"""A plain state in lines: what processes share, and each process's memory, signals and threads."""

from itertools import groupby
from operator import itemgetter

from model.cpu import StandsAt, look
from model.memory import PAGE_SHIFT, PAGE_SIZE, Memory
from model.state import NOBODY, Action, Machine, Process, Thread
from showing.naming import call_text, count_text, rights_text, signal_list, signal_name
from showing.objects import channel_lines, description_line, file_line, zombie_line

REGISTERS_A_LINE = 4


def _shared_lines(machine: Machine) -> list[str]:
    none = "" if machine.files or machine.channels else "; no file, no channel"
    lines = [f"next number {machine.next_id}, next file {machine.next_file}{none}"]
    lines += [file_line(number, file) for number, file in sorted(machine.files.items())]
    for name, channel in sorted(machine.channels.items(), key=itemgetter(0)):
        lines += channel_lines(name, channel)
    named = sorted(machine.descriptions.items(), key=itemgetter(0))
    return lines + [description_line(name, description) for name, description in named]


def _page_ranges(memory: Memory) -> list[str]:
    """Pages in a row with the same rights, a line each."""
    numbers = sorted(memory.pages)
    keys = {number: (number - index, memory.pages[number].rights) for index, number in enumerate(numbers)}
    lines = []
    for (_, rights), group in groupby(numbers, keys.__getitem__):
        row = list(group)
        blank = sum(not any(memory.pages[number].data) for number in row)
        zeros = f", {blank:,} of zeros" if blank else ""
        first, last = row[0] << PAGE_SHIFT, (row[-1] << PAGE_SHIFT) + PAGE_SIZE - 1
        size = f"{count_text(len(row), 'page')}{zeros}"
        lines.append(f"  {first:#010x} to {last:#010x}  {rights_text(rights)}  {size}")
    return lines


def _memory_lines(memory: Memory) -> list[str]:
    heap = memory.break_now - memory.break_start
    pages, size = count_text(len(memory.pages), "page"), count_text(heap, "byte")
    return [f"memory: {pages}; heap of {size} from {memory.break_start:#x}", *_page_ranges(memory)]


def _action_text(action: Action) -> str:
    handler = {0: "default", 1: "ignored"}.get(action.handler, f"handler {action.handler:#x}")
    return f"{handler}, flags {action.flags:#x}, mask: {signal_list(action.mask)}"


def _action_lines(process: Process) -> list[str]:
    """The signals on which the process does something else than at its start."""
    changed = {number: action for number, action in process.actions.items() if action != Action()}
    return [f"{signal_name(number)}: {_action_text(action)}" for number, action in changed.items()]


def standing_text(process: Process, thread: Thread) -> str:
    """What a thread is about to do."""
    for place, waiter in enumerate(process.waiters, start=1):
        if waiter.thread == thread.number:
            row = f"number {place} of {len(process.waiters)} in the row"
            return f"waits on the word at {waiter.address:#x}, {row}"
    stand = look(thread, process.memory)
    if stand.at is StandsAt.CALL:
        return f"about to call {call_text(thread, process.memory)}"
    return f"stands at a trap, {signal_name(stand.signal)}" if stand.at is StandsAt.TRAP else "runs"


def _register_lines(registers: list[int]) -> list[str]:
    texts = [f"x{number:<2} {registers[number]:08x}" for number in range(1, 32)]
    starts = range(0, len(texts), REGISTERS_A_LINE)
    return ["    " + "  ".join(texts[at : at + REGISTERS_A_LINE]) for at in starts]


def _thread_lines(process: Process, thread: Thread, registers: bool) -> list[str]:
    lines = [f"thread {thread.number}: pc {thread.pc:#x}, {standing_text(process, thread)}"]
    signals = [("masked", thread.mask), ("pending", thread.pending)]
    lines += [f"  {what}: {signal_list(mask)}" for what, mask in signals if mask]
    if thread.clear_word:
        lines.append(f"  its end clears the word at {thread.clear_word:#x}")
    for place, context in enumerate(thread.contexts, start=1):
        masked = f", masked: {signal_list(context.mask)}" if context.mask else ""
        lines.append(f"  inside a signal handler: context {place} returns to pc {context.pc:#x}{masked}")
        lines += _register_lines([0, *context.regs]) if registers else []
    return lines + (_register_lines(thread.regs) if registers else [])


def process_lines(process: Process, registers: bool) -> list[str]:
    """A process, with all of its threads."""
    parent = "" if process.parent == NOBODY else f", parent {process.parent}"
    threads = count_text(len(process.threads), "thread")
    lines = [f"process {process.number} of host {process.host}{parent}: {threads}"]
    for number, descriptor in sorted(process.descriptors.items()):
        name, close = descriptor.name, ", closed by exec" if descriptor.close_on_exec else ""
        lines.append(f"  descriptor {number}: description ({name.pid}, {name.num}){close}")
    if process.pending:
        lines.append(f"  pending: {signal_list(process.pending)}")
    lines += [f"  {line}" for line in _memory_lines(process.memory) + _action_lines(process)]
    for number in sorted(process.threads):
        lines += [f"  {line}" for line in _thread_lines(process, process.threads[number], registers)]
    return lines


def state_lines(machine: Machine, registers: bool) -> list[str]:
    """A whole state; `registers` has those of each thread and each saved context."""
    lines = _shared_lines(machine)
    lines += [zombie_line(machine.zombies[number]) for number in sorted(machine.zombies)]
    for number in sorted(machine.processes):
        lines += process_lines(machine.processes[number], registers)
    return lines if machine.processes else [*lines, "no process lives"]
