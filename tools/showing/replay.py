"""A trace told with the state that it began at: calls with arguments and answers, and how each process ended."""

from dataclasses import dataclass, field
from pathlib import Path

from model import session
from model.calls import make_call
from model.cpu import Stand, StandsAt, look, run_quantum
from model.elf import BadProgram, read_elf
from model.numbers import Number
from model.objects import ChannelName, File
from model.signals import Cause, deliver
from model.start import Word, start_job
from model.state import A0, A7, Machine, Process, Thread
from model.trace import Kind, Record
from model.words import HOSTS, Usage, read_words
from showing.naming import answer_text, call_text, count_text, signal_name
from showing.sets import read_folder, spelled
from showing.traces import record_text


class NoStart(Exception):
    """The state that a trace is to begin at can't be had."""


class NoStep(Exception):
    """A record that is no step of the state before it."""


def _word(word: str) -> Word:
    """A program's file, perhaps behind its host and a colon, with its arguments behind it, a comma before each."""
    host, colon, rest = word.partition(":")
    number = HOSTS.get(host) if colon else None
    path, *arguments = (word if number is None else rest).split(",")
    program = Path(path)
    try:
        loaded = read_elf(program.read_bytes())
    except BadProgram as bad:
        raise NoStart(f"{program} is no program: {bad.reason} at {bad.place}") from bad
    return Word(loaded, tuple(one.encode() for one in (program.name, *arguments)), number or 0)


def launched(programs: list[str], files: list[Path]) -> Machine:
    """The start of programs, with files that are there for them."""
    named = tuple(File(path.name.encode(), bytearray(path.read_bytes())) for path in files)
    return start_job([_word(word) for word in programs], named)


def launched_by(words: list[str]) -> Machine:
    """The start of a launch by its words, of which the files lie in the current folder."""
    try:
        return session.launched(read_words(["launch", *words]), lambda name: Path(name).read_bytes())
    except Usage as bad:
        raise NoStart("these are no words of a launch") from bad
    except session.Ended as ended:
        raise NoStart(ended.line) from ended


def restarted(folder: Path) -> Machine:
    """The state of the set that counts in a folder."""
    store = read_folder(folder)
    counting = store.counting()
    if counting is None:
        raise NoStart(f"no set counts in {folder}")
    found = spelled(store, counting.slot)
    if isinstance(found, str):
        raise NoStart(f"slot {counting.slot} of {folder} is damaged: {found}")
    return found


@dataclass
class Replay:
    """The state after the records so far."""

    machine: Machine
    endings: dict[int, str] = field(default_factory=dict)
    """How each process ended that has."""

    def step(self, record: Record) -> str:
        """Makes one step, and tells it."""
        if record.kind is Kind.USER:
            return self._run(record)
        if record.kind is Kind.CALL:
            return self._call(record)
        if record.kind is Kind.DELIVER:
            return self._deliver(record)
        if record.kind is Kind.ARRIVE:
            return self._arrive(record)
        return record_text(record)

    def _arrive(self, record: Record) -> str:
        channel = self.machine.channels.get(ChannelName(record.a, record.b))
        if channel is None or record.x >= len(channel.directions):
            raise NoStep("there is no such direction")
        direction = channel.directions[record.x]
        if record.n > direction.on_their_way():
            raise NoStep(f"{count_text(direction.on_their_way(), 'byte')} are on their way there")
        direction.arrived += record.n
        return record_text(record)

    def _thread(self, record: Record) -> tuple[Process, Thread]:
        process = self.machine.processes.get(record.a)
        if process is None or record.b not in process.threads:
            raise NoStep("there is no such thread")
        return process, process.threads[record.b]

    def _has_ended(self, process: Process) -> bool:
        return process.number not in self.machine.processes

    def _stand(self, process: Process, thread: Thread) -> Stand:
        return Stand(StandsAt.INSTRUCTION) if process.waits(thread) else look(thread, process.memory)

    def _run(self, record: Record) -> str:
        process, thread = self._thread(record)
        count = 0 if process.waits(thread) else run_quantum(thread, process.memory)
        if count != record.n:
            raise NoStep(f"the thread runs {count:,} instructions there")
        return record_text(record)

    def _call(self, record: Record) -> str:
        process, thread = self._thread(record)
        if self._stand(process, thread).at is not StandsAt.CALL:
            raise NoStep("the thread stands at no call there")
        number, text = thread.regs[A7], call_text(thread, process.memory)
        make_call(self.machine, process, thread)
        self._note_end(process, f"by {text}")
        return f"{record.a}/{record.b} {text}{self._outcome(process, thread, number)}"

    def _outcome(self, process: Process, thread: Thread, number: int) -> str:
        """What a call came to, as far as it came to anything at once."""
        if self._has_ended(process):
            return ": the process ends"
        if thread.number not in process.threads:
            return ": the thread ends"
        if process.waits(thread):
            return ": waits"
        if number == Number.RT_SIGRETURN:
            return f": goes on at {thread.pc:#x}"
        return f" = {answer_text(number, thread.regs[A0])}"

    def _deliver(self, record: Record) -> str:
        process, thread = self._thread(record)
        stand, contexts = self._stand(process, thread), len(thread.contexts)
        if stand.at is StandsAt.TRAP and stand.signal == record.x:
            cause = Cause.TRAP
        elif (thread.pending | process.pending) & ~thread.mask & 1 << (record.x - 1):
            cause = Cause.PENDING
        else:
            raise NoStep(f"{signal_name(record.x)} is not due there")
        deliver(self.machine, process, thread, record.x, cause)
        self._note_end(process, f"by {signal_name(record.x)}")
        trap = " of a trap" if cause is Cause.TRAP else ""
        return f"{record_text(record)}{trap}{self._effect(process, thread, contexts)}"

    def _effect(self, process: Process, thread: Thread, contexts: int) -> str:
        if self._has_ended(process):
            return ": the process ends"
        return f": the handler at {thread.pc:#x} begins" if len(thread.contexts) > contexts else ": ignored"

    def _note_end(self, process: Process, how: str) -> None:
        if self._has_ended(process):
            self.endings[process.number] = how
