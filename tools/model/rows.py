"""What the rows of calls are made of (docs/CALLS.md).

A row tries its errors in order and gives its effect, or raises `Failed` or `Waits`. It changes nothing: the effect
does, and gives the answer, or None where it puts none itself.
"""

from dataclasses import dataclass
from typing import Callable, NoReturn

from .bits import word_bytes
from .numbers import Errno
from .objects import NONBLOCK, Channel, ChannelName, Description, DescriptionName, Object
from .state import Descriptor, Machine, Process, Thread

DESCRIPTORS_LIMIT = 256
CHANNELS_LIMIT = 256
MADE_LIMIT = 2**32 - 4
"""A process whose next description or channel has this number makes none any more."""
LONGEST_PATH = 256


class Failed(Exception):
    """A call's error."""

    def __init__(self, error: Errno) -> None:
        super().__init__(error)
        self.error = error


class Waits(Exception):
    """A call that is not ready."""


def test(holds: bool, error: Errno) -> None:
    """The error unless a condition holds."""
    if not holds:
        raise Failed(error)


def wait_on(description: Description) -> NoReturn:
    """The call is not ready, which is an error where the description does not block."""
    if description.flags & NONBLOCK:
        raise Failed(Errno.EAGAIN)
    raise Waits


@dataclass(frozen=True)
class Caller:
    """The thread that stands at a call, its process, and the state."""

    machine: Machine
    process: Process
    thread: Thread

    def argument(self, index: int) -> int:
        """`a0` to `a5`."""
        return self.thread.argument(index)

    def signed_argument(self, index: int) -> int:
        """`a0` to `a5` as a signed number."""
        return self.thread.signed_argument(index)

    def descriptor(self) -> Descriptor:
        """The descriptor that the first argument names; EBADF."""
        found = self.process.descriptors.get(self.argument(0))
        if found is None:
            raise Failed(Errno.EBADF)
        return found

    def description(self) -> Description:
        """The description to which the first argument refers; EBADF."""
        return self.machine.descriptions[self.descriptor().name]

    def free_descriptor(self, start: int = 0) -> int:
        """The least number from the start on that refers to nothing; EMFILE."""
        for number in range(start, DESCRIPTORS_LIMIT):
            if number not in self.process.descriptors:
                return number
        raise Failed(Errno.EMFILE)

    def two_free_descriptors(self) -> tuple[int, int]:
        """The free descriptor and the next one; EMFILE unless two are free."""
        first = self.free_descriptor()
        return first, self.free_descriptor(first + 1)

    def test_can_make(self) -> None:
        """ENFILE where the process has no numbers left for descriptions and channels."""
        test(self.process.made < MADE_LIMIT, Errno.ENFILE)

    def test_can_make_channel(self) -> None:
        """ENFILE also with 256 channels."""
        self.test_can_make()
        test(len(self.machine.channels) < CHANNELS_LIMIT, Errno.ENFILE)

    def _next_made(self) -> int:
        number = self.process.made
        self.process.made += 1
        return number

    def make_description(self, flags: int, what: Object) -> DescriptionName:
        """A description with the process's next number and without an owner."""
        name = DescriptionName(self.process.number, self._next_made())
        self.machine.descriptions[name] = Description(flags, object=what)
        return name

    def make_channel(self, channel: Channel) -> ChannelName:
        """A channel with the process's next number."""
        name = ChannelName(self.process.number, self._next_made())
        self.machine.channels[name] = channel
        return name

    def refer(self, number: int, name: DescriptionName, close_on_exec: bool) -> int:
        """A descriptor refers to a description; gives its number."""
        self.process.descriptors[number] = Descriptor(name, int(close_on_exec))
        return number

    def word_at(self, address: int) -> int:
        """A word of the process's memory."""
        return int.from_bytes(self.process.memory.peek(address, 4), "little")

    def put_word(self, address: int, value: int) -> None:
        """Writes a word into the process's memory."""
        self.process.memory.poke(address, word_bytes(value))

    def path(self, index: int) -> bytes:
        """The bytes before the first zero byte of a path; ENAMETOOLONG where none stands within 256 bytes."""
        found, address = bytearray(), self.argument(index)
        for place in range(address, address + LONGEST_PATH):
            byte = self.process.memory.peek(place, 1)
            if byte == b"\0":
                return bytes(found)
            found += byte
        raise Failed(Errno.ENAMETOOLONG)


Effect = Callable[[], "int | None"]
Row = Callable[[Caller], Effect]
