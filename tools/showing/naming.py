"""Numbers of calls, errors, signals and rights by their names."""

import errno
import signal

from model.bits import WORD_LIMIT
from model.memory import EXECUTE, READ, WRITE, Memory
from model.numbers import FUTEX_WAIT, FUTEX_WAKE, Number, futex_operation
from model.objects import ACCESS_MODE
from model.state import A7, Thread

LAST_ERROR = 4095
TEXT_SHOWN = 40
PATH_LIMIT = 256
ESCAPES = {0: "\\0", 9: "\\t", 10: "\\n", 13: "\\r", 34: '\\"', 92: "\\\\"}
SHOWN = [ESCAPES.get(code, chr(code) if 32 <= code < 127 else f"\\x{code:02x}") for code in range(256)]

# Of each call that there is, its arguments: d decimal, i decimal with a sign, x hexadecimal, s a signal, o what a
# futex is to do, t a text whose length is the next argument, p a path with a zero byte behind it.
ARGUMENTS = {
    Number.EVENTFD2: "dx",
    Number.DUP: "d",
    Number.DUP3: "ddx",
    Number.FCNTL: "ddx",
    Number.UNLINKAT: "ipx",
    Number.OPENAT: "ipxx",
    Number.CLOSE: "d",
    Number.PIPE2: "xx",
    Number.LSEEK: "did",
    Number.READ: "dxd",
    Number.WRITE: "dtd",
    Number.EXIT: "d",
    Number.EXIT_GROUP: "d",
    Number.SET_TID_ADDRESS: "x",
    Number.FUTEX: "xodx",
    Number.SCHED_YIELD: "",
    Number.KILL: "is",
    Number.TGKILL: "dds",
    Number.RT_SIGACTION: "sxxd",
    Number.RT_SIGPROCMASK: "dxxd",
    Number.RT_SIGRETURN: "",
    Number.GETPID: "",
    Number.GETPPID: "",
    Number.GETTID: "",
    Number.SOCKET: "ddd",
    Number.SOCKETPAIR: "dddx",
    Number.BIND: "dxd",
    Number.LISTEN: "dd",
    Number.ACCEPT: "dxx",
    Number.CONNECT: "dxd",
    Number.GETSOCKNAME: "dxx",
    Number.GETPEERNAME: "dxx",
    Number.SETSOCKOPT: "dddxd",
    Number.SHUTDOWN: "dd",
    Number.BRK: "x",
    Number.MUNMAP: "xd",
    Number.CLONE: "xxxxx",
    Number.MMAP: "xddxdx",
    Number.WAIT4: "ixdx",
}
ADDRESS_ANSWERS = (Number.BRK, Number.MMAP)
ALL_ARGUMENTS = "xxxxxx"


def count_text(number: int, what: str) -> str:
    """So many things."""
    return f"{number:,} {what}" if number == 1 else f"{number:,} {what}s"


def signal_name(number: int) -> str:
    """A signal with its name."""
    try:
        return f"signal {number} ({signal.Signals(number).name})"
    except ValueError:
        return f"signal {number}"


def signal_list(mask: int) -> str:
    """The signals of a mask."""
    found = [str(number) for number in range(1, 33) if mask & 1 << (number - 1)]
    return ", ".join(found) or "none"


def rights_text(rights: int) -> str:
    """Rights as `ls` writes them."""
    letters = (("r", READ), ("w", WRITE), ("x", EXECUTE))
    return "".join(letter if rights & bit else "-" for letter, bit in letters)


def description_flags(flags: int) -> str:
    """The status flags of an open description."""
    mode = ("read", "write", "read and write", "no access mode")[flags & ACCESS_MODE]
    more = [name for name, bit in (("append", 0x400), ("does not block", 0x800)) if flags & bit]
    return ", ".join([mode, *more])


def call_name(number: int) -> str:
    """A call by its number in `a7`."""
    return Number(number).name.lower() if number in list(Number) else f"call {number}"


def quoted(content: bytes) -> str:
    """The first bytes in quotes, with two dots behind them where there are more."""
    text = "".join(SHOWN[byte] for byte in content[:TEXT_SHOWN])
    return f'"{text}"' + (".." if len(content) > TEXT_SHOWN else "")


def _text_at(memory: Memory, address: int, length: int) -> str:
    """The first bytes of a buffer, in quotes; its address where it can't be read."""
    shown = min(length, TEXT_SHOWN + 1)
    return quoted(memory.peek(address, shown)) if memory.allows(address, shown, READ) else f"{address:#x}"


def _path_at(memory: Memory, address: int) -> str:
    """The bytes up to a zero byte, in quotes; the address where none is found."""
    for length in range(PATH_LIMIT):
        if not memory.allows(address, length + 1, READ):
            break
        if memory.peek(address + length, 1) == b"\0":
            return quoted(memory.peek(address, length))
    return f"{address:#x}"


def _argument_text(thread: Thread, memory: Memory, index: int, form: str) -> str:
    value = thread.argument(index)
    if form == "t":
        return _text_at(memory, value, thread.argument(index + 1))
    if form == "p":
        return _path_at(memory, value)
    if form == "o":
        names = {FUTEX_WAIT: "WAIT", FUTEX_WAKE: "WAKE"}
        return names.get(futex_operation(value), str(value))
    if form == "s":
        return signal_name(value)
    if form == "i":
        return str(thread.signed_argument(index))
    return str(value) if form == "d" else f"{value:#x}"


def call_text(thread: Thread, memory: Memory) -> str:
    """The call at which a thread stands, with its arguments."""
    number = thread.regs[A7]
    forms = ARGUMENTS.get(number, ALL_ARGUMENTS)
    arguments = [_argument_text(thread, memory, index, form) for index, form in enumerate(forms)]
    return f"{call_name(number)}({', '.join(arguments)})"


def answer_text(number: int, answer: int) -> str:
    """What a call answered: an error by its name."""
    below = WORD_LIMIT - answer
    if 1 <= below <= LAST_ERROR:
        return errno.errorcode.get(below, f"-{below}")
    return f"{answer:#x}" if number in ADDRESS_ANSWERS else str(answer)
