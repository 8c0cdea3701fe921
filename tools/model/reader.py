"""Fields of a file, one after the other (docs/FORMATS.md, "Files of a set")."""

from dataclasses import dataclass
from typing import Callable

Allowed = Callable[[int], bool]


class Damage(Exception):
    """The first place at which a file spells no value."""

    def __init__(self, offset: int) -> None:
        super().__init__(offset)
        self.offset = offset


def anything(_value: int) -> bool:
    """Any value is allowed."""
    return True


@dataclass
class Reader:
    """A file that is read field by field."""

    data: bytes
    place: int = 0

    def field(self, size: int) -> bytes:
        """So many bytes; a file that ends before or within them is damaged at its length."""
        end = self.place + size
        if end > len(self.data):
            raise Damage(len(self.data))
        found = self.data[self.place : end]
        self.place = end
        return found

    def number(self, size: int, allowed: Allowed = anything) -> int:
        """A number with its least significant byte first; damaged at its first byte where it is not allowed."""
        first = self.place
        value = int.from_bytes(self.field(size), "little")
        if not allowed(value):
            raise Damage(first)
        return value

    def word(self, allowed: Allowed = anything) -> int:
        """A number of four bytes."""
        return self.number(4, allowed)

    def byte(self, allowed: Allowed = anything) -> int:
        """A number of one byte."""
        return self.number(1, allowed)

    def text(self, size: int, allowed: Callable[[bytes], bool]) -> bytes:
        """So many bytes; damaged at the first of them where they are not allowed."""
        first = self.place
        found = self.field(size)
        if not allowed(found):
            raise Damage(first)
        return found

    def magic(self, text: bytes) -> None:
        """Bytes that must be these."""
        self.text(len(text), lambda found: found == text)

    def end(self) -> None:
        """Nothing may follow."""
        if self.place < len(self.data):
            raise Damage(self.place)

    def whole(self, holds: bool) -> None:
        """A condition on the file as a whole, damaged at its length."""
        if not holds:
            raise Damage(len(self.data))
