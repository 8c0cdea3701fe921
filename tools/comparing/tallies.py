"""What the trial reached: answers of calls, outcomes of signals, ends of runs, each counted by its name."""

from collections import Counter

from model import Outcome
from comparing.traces import Record, records_of
from guests.events import Death, Futex, Mark, Tag, Told, told_on
from guests.numbers import TRAPS, Call, Errno
from model.trace import WORK, Kind

ANSWERED, WHOLE_QUANTUM = "answered", "a whole quantum"
QUANTUM = 4096
DONE, BUDGET, STUCK, FILES_TOO_LARGE = 0, 18, 19, 21
BAD_PROGRAM, NO_SET, DAMAGED = 13, 16, 17

ANSWERS: dict[str, list[str]] = {
    "set_tid_address": [ANSWERED],
    "futex wait": [ANSWERED, "EFAULT", "EINVAL", "EAGAIN", "EINTR"], "futex wake": [ANSWERED, "woken", "EINVAL"],
    "futex other": ["ENOSYS"], "sched_yield": [ANSWERED],
    "rt_sigaction": [ANSWERED, "EFAULT", "EINVAL"], "rt_sigprocmask": [ANSWERED, "EFAULT", "EINVAL"],
    "rt_sigreturn": ["EINVAL"], "gettid": [ANSWERED], "brk": ["moved", "kept"], "munmap": [ANSWERED, "EINVAL"],
    "mmap": [ANSWERED, "EINVAL", "ENOMEM"], "call of no number": ["ENOSYS"],
    "eventfd2": [ANSWERED, "EINVAL"], "dup": [ANSWERED, "EBADF"], "dup3": [ANSWERED, "EBADF", "EINVAL"],
    "fcntl": [ANSWERED, "EBADF", "EINVAL", "EMFILE", "ESRCH"], "close": [ANSWERED, "EBADF"],
    "unlinkat": [ANSWERED, "EFAULT", "EBADF", "EINVAL", "ENOENT"],
    "openat": [ANSWERED, "EFAULT", "EBADF", "EINVAL", "ENOENT", "EEXIST", "EMFILE", "ENFILE", "ENOSPC"],
    "lseek": [ANSWERED, "EBADF", "ESPIPE", "EINVAL"],
    "read": [ANSWERED, "EFAULT", "EBADF", "EINVAL", "ENOTCONN", "EAGAIN", "EINTR"],
    "write": [ANSWERED, "EFAULT", "EBADF", "EINVAL", "EFBIG", "ENOSPC", "EPIPE", "EAGAIN", "EMSGSIZE", "ECONNREFUSED"],
    "pipe2": [ANSWERED, "EFAULT", "EINVAL", "EMFILE", "ENFILE"],
    "socketpair": [ANSWERED, "EFAULT", "EOPNOTSUPP", "EAFNOSUPPORT", "EINVAL", "EMFILE", "ENFILE"],
    "socket": [ANSWERED, "EAFNOSUPPORT", "EINVAL", "EMFILE", "ENFILE"],
    "bind": [ANSWERED, "EFAULT", "EBADF", "ENOTSOCK", "EINVAL", "EAFNOSUPPORT", "EADDRNOTAVAIL", "EADDRINUSE"],
    "listen": [ANSWERED, "EBADF", "ENOTSOCK", "EOPNOTSUPP", "EINVAL"],
    "accept": [ANSWERED, "EFAULT", "EBADF", "ENOTSOCK", "EINVAL", "EAGAIN", "EMFILE"],
    "connect": [ANSWERED, "EFAULT", "EBADF", "ENOTSOCK", "EISCONN", "ECONNREFUSED"],
    "getsockname": [ANSWERED, "EFAULT", "EBADF", "ENOTSOCK"],
    "getpeername": [ANSWERED, "EFAULT", "EBADF", "ENOTSOCK", "ENOTCONN"], "setsockopt": [ANSWERED, "EBADF", "ENOTSOCK"],
    "shutdown": [ANSWERED, "EBADF", "ENOTSOCK", "EOPNOTSUPP", "EINVAL", "ENOTCONN"],
    "kill": [ANSWERED, "EINVAL", "ESRCH"], "tgkill": [ANSWERED, "EINVAL", "ESRCH"], "getpid": [ANSWERED],
    "getppid": [ANSWERED], "clone": [ANSWERED, "EFAULT", "EINVAL", "EAGAIN"],
    "wait4": [ANSWERED, "EFAULT", "EINVAL", "ECHILD"],
}
REASONS = ["short", "magic", "class", "machine", "filetype", "flags", "segment", "dynamic", "overlap", "toolarge"]
MARKS_EXPECTED = [mark for mark in Mark if mark not in (Mark.ASKED_BREAK, Mark.DEADLY)]


def expected() -> list[str]:
    """All that a run of full size is to reach."""
    names = [f"{call}: {answer}" for call, answers in ANSWERS.items() for answer in answers]
    names += [f"passed: {mark.name.lower()}" for mark in MARKS_EXPECTED]
    names += [f"signal {signal} delivered" for signal in range(1, 32) if not 18 <= signal <= 22]
    names += [f"handler of trap {signal}" for signal in TRAPS]
    names += [f"ended by a signal: {death.name.lower()}" for death in Death]
    names += ["end: done", "end: budget", "end: stuck", "end: no set", "end: files too large", "a restart that runs"]
    names += [WHOLE_QUANTUM, "bytes drained", "refused: a datagram pair", "refused: an event counter"]
    names += [f"bad program: {reason}" for reason in REASONS]
    return names + [f"damage in file {index}" for index in range(3)]


class Tallies:
    """Counts of all that was reached."""

    def __init__(self) -> None:
        self.counts: Counter[str] = Counter()

    def missing(self) -> list[str]:
        return [name for name in expected() if not self.counts[name]]

    def add(self, outcome: Outcome, is_restart: bool) -> None:
        """Counts what is told on the console, in the trace and on the log of a run."""
        told = told_on(outcome.console)
        for before, one in zip([None, *told], told):
            self._add_told(before, one)
        records = records_of(outcome.trace or b"")
        work = [record for record in records if record.kind in WORK]
        for record in work:
            if record.kind == Kind.DELIVER:
                self.counts[f"signal {record.x} delivered"] += 1
            elif record.n == QUANTUM:
                self.counts[WHOLE_QUANTUM] += 1
        self._add_end(outcome, work, told)
        if is_restart and records:
            self.counts["a restart that runs"] += 1

    def _add_told(self, before: Told | None, one: Told) -> None:
        if one.kind == Tag.CALL:
            self.counts[answer_of(before, one)] += 1
        elif one.kind == Tag.MARK and one.number in list(Mark):
            self.counts[f"passed: {Mark(one.number).name.lower()}"] += 1
            if one.number == Mark.HANDLED and one.value & 31 in TRAPS:
                self.counts[f"handler of trap {one.value & 31}"] += 1

    def _add_end(self, outcome: Outcome, work: list[Record], told: list[Told]) -> None:
        names = {DONE: "done", BUDGET: "budget", STUCK: "stuck", NO_SET: "no set", FILES_TOO_LARGE: "files too large"}
        if outcome.status in names:
            self.counts[f"end: {names[outcome.status]}"] += 1
        if outcome.status == DONE and work and work[-1].kind == Kind.DELIVER:
            marks = [one for one in told if one.kind == Tag.MARK]
            is_told = bool(marks) and marks[-1].number == Mark.DEADLY and marks[-1].value in list(Death)
            death = Death(marks[-1].value).name.lower() if is_told else "not told"
            self.counts[f"ended by a signal: {death}"] += 1
        lines = outcome.log.decode("utf-8", "replace").splitlines()
        self._add_checkpoints(lines)
        words = lines[-1].split(" ") if lines else []
        if outcome.status == BAD_PROGRAM:
            self.counts[f"bad program: {words[-3]}"] += 1
        elif outcome.status == DAMAGED:
            self.counts[f"damage in file {words[4]}"] += 1

    def _add_checkpoints(self, lines: list[str]) -> None:
        for line in lines:
            if " complete: generation " in line and not line.endswith("drained 0"):
                self.counts["bytes drained"] += 1
            for what in ("a datagram pair", "an event counter"):
                if line.startswith("checkpoint ") and line.endswith(f" is {what}"):
                    self.counts[f"refused: {what}"] += 1


def answer_of(before: Told | None, one: Told) -> str:
    """The name of a call's answer."""
    if one.number not in list(Call):
        return f"call of no number: {named(one.value)}"
    call = Call(one.number)
    if call is Call.FUTEX and one.variant in list(Futex):
        variant = Futex(one.variant)
        is_woken = variant is Futex.WAKE and 0 < one.value < 1000
        return f"futex {variant.name.lower()}: {'woken' if is_woken else named(one.value)}"
    if call is Call.BRK:
        asked = before is not None and before.number == Mark.ASKED_BREAK and before.value == one.value
        return f"brk: {'moved' if asked else 'kept'}"
    return f"{call.name.lower()}: {named(one.value)}"


def named(value: int) -> str:
    """An error's name, or that there was an answer."""
    error = (1 << 32) - value
    return Errno(error).name if error in list(Errno) else ANSWERED
