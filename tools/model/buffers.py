"""The buffers of each call, which come before every other error (docs/MACHINE.md, "Calls", the first table)."""

from dataclasses import dataclass

from .memory import READ, WRITE, Memory
from .numbers import FUTEX_WAIT, CloneFlag, Number, futex_operation
from .state import A7, Thread

LARGEST = 65536
LONGEST_PATH = 256
ACTION_SIZE = 16
SET_SIZE = 8
PAIR_SIZE = 8
WORD_SIZE = 4


@dataclass(frozen=True)
class Buffer:
    """Bytes that a call reads or writes."""

    address: int
    length: int
    right: int

    def fits(self, memory: Memory) -> bool:
        """Whether it can be read or written over its length, cut to 65,536."""
        return memory.allows(self.address, min(self.length, LARGEST), self.right)


def _unless_zero(address: int, length: int, right: int) -> list[Buffer]:
    return [Buffer(address, length, right)] if address else []


def _clone_buffers(thread: Thread) -> list[Buffer]:
    flags, found = thread.argument(0), []
    if flags & CloneFlag.PARENT_SETTID:
        found.append(Buffer(thread.argument(2), WORD_SIZE, WRITE))
    if flags & CloneFlag.CHILD_SETTID:
        found.append(Buffer(thread.argument(4), WORD_SIZE, WRITE))
    return found


def _plain_buffers(thread: Thread, number: int) -> list[Buffer]:
    """The buffers that the registers alone tell."""
    argument = thread.argument
    if number == Number.FUTEX and futex_operation(argument(1)) == FUTEX_WAIT:
        return [Buffer(argument(0), WORD_SIZE, READ)]
    if number == Number.RT_SIGACTION:
        return _unless_zero(argument(1), ACTION_SIZE, READ) + _unless_zero(argument(2), ACTION_SIZE, WRITE)
    if number == Number.RT_SIGPROCMASK:
        return _unless_zero(argument(1), SET_SIZE, READ) + _unless_zero(argument(2), SET_SIZE, WRITE)
    if number == Number.PIPE2:
        return [Buffer(argument(0), PAIR_SIZE, WRITE)]
    if number == Number.SOCKETPAIR:
        return [Buffer(argument(3), PAIR_SIZE, WRITE)]
    if number == Number.READ:
        return [Buffer(argument(1), argument(2), WRITE)]
    if number in (Number.WRITE, Number.BIND, Number.CONNECT):
        return [Buffer(argument(1), argument(2), READ)]
    if number == Number.CLONE:
        return _clone_buffers(thread)
    if number == Number.WAIT4:
        return _unless_zero(argument(1), WORD_SIZE, WRITE)
    return []


def _path_fits(memory: Memory, address: int) -> bool:
    """A path: readable up to its first zero byte, within 256 bytes."""
    for place in range(address, address + LONGEST_PATH):
        if not memory.allows(place, 1, READ):
            return False
        if memory.peek(place, 1) == b"\0":
            return True
    return True


def _address_fits(memory: Memory, address: int, length_place: int) -> bool:
    """The length's word can be read, then so many bytes at the address and the word itself can be written."""
    if not memory.allows(length_place, WORD_SIZE, READ):
        return False
    length = int.from_bytes(memory.peek(length_place, WORD_SIZE), "little")
    buffers = [Buffer(address, length, WRITE), Buffer(length_place, WORD_SIZE, WRITE)]
    return all(buffer.fits(memory) for buffer in buffers)


def all_fit(thread: Thread, memory: Memory) -> bool:
    """Whether no buffer of the call at which the thread stands is bad."""
    number = thread.regs[A7]
    if number in (Number.UNLINKAT, Number.OPENAT):
        return _path_fits(memory, thread.argument(1))
    if number == Number.ACCEPT and thread.argument(1) == 0:
        return True
    if number in (Number.ACCEPT, Number.GETSOCKNAME, Number.GETPEERNAME):
        return _address_fits(memory, thread.argument(1), thread.argument(2))
    return all(buffer.fits(memory) for buffer in _plain_buffers(thread, number))
