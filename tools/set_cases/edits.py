"""Edits of a shared image that is laid out field by field: other numbers in fields, and lists that lack an item or have
one twice."""

import re
from dataclasses import dataclass

from model.tests.shared_bytes import Laid

SHORTEST_REPEAT = 16  # bytes, below which a repetition has no word of its own


@dataclass(frozen=True)
class Edit:
    """Bytes in the place of so many others."""

    place: int
    count: int
    data: bytes

    def text(self) -> str:
        """The edit as a word of a case."""
        return f"{self.place}:{self.count}:{self.data.hex().upper()}"


@dataclass(frozen=True)
class Items:
    """A list of an image: the field of its count, and where each item begins and ends."""

    name: str
    count: str
    bounds: list[tuple[int, int]]


def edited(data: bytes, edits: list[Edit]) -> bytes:
    """The bytes after one edit and the next."""
    for edit in edits:
        data = data[: edit.place] + edit.data + data[edit.place + edit.count :]
    return data


def words(data: bytes) -> str:
    """Bytes as words: hex digits, and `COUNT*DIGITS` for long repetitions of a byte."""
    pieces, start = [], 0
    for found in re.finditer(rb"(.)\1{%d,}" % (SHORTEST_REPEAT - 1), data, re.DOTALL):
        pieces += [data[start : found.start()].hex().upper(), f"{len(found[0])}*{found[1].hex().upper()}"]
        start = found.end()
    return " ".join(piece for piece in [*pieces, data[start:].hex().upper()] if piece)


def number(laid: Laid, name: str) -> int:
    """The number in a field."""
    place, size = laid.places[name]
    return int.from_bytes(laid.content[place : place + size], "little")


def put(laid: Laid, name: str, value: int) -> Edit:
    """Another number in a field."""
    place, size = laid.places[name]
    return Edit(place, size, value.to_bytes(size, "little"))


def _items(laid: Laid, name: str, count: str, item: str, behind: str) -> Items:
    """The list whose items begin with such fields and end before a field, or with the image."""
    starts = [place for field, (place, _) in laid.places.items() if re.fullmatch(item, field)]
    end = laid.places[behind][0] if behind else len(laid.content)
    return Items(name, count, list(zip(starts, [*starts[1:], end])))


def _behind(laid: Laid, field: str) -> str:
    """The field behind one, or nothing at the end."""
    names = list(laid.places)
    place = names.index(field) + 1
    return names[place] if place < len(names) else ""


def lists(laid: Laid) -> list[Items]:
    """All lists that have an item."""
    found = [_items(laid, "file", "files", r"file \d+", "channels"),
             _items(laid, "channel", "channels", r"channel \d+ pid", "descriptions"),
             _items(laid, "description", "descriptions", r"description \d+ \d+ pid", "processes"),
             _items(laid, "process", "processes", r"process \d+", "")]
    for field in laid.places:
        if re.fullmatch(r"description \d+ \d+ waiting", field):
            of = field.removesuffix(" waiting")
            found.append(_items(laid, f"{of} connection", field, f"{of} waits pid", _behind(laid, f"{of} waits num")))
        elif re.fullmatch(r"process \d+ threads", field):
            of = field.removesuffix(" threads")
            found.append(_items(laid, f"{of} thread", field, rf"{of} thread \d+", f"{of} descriptors"))
        elif re.fullmatch(r"process \d+ descriptors", field):
            of = field.removesuffix(" descriptors")
            held = [name for name in laid.places if re.fullmatch(rf"{of} fd \d+ closes", name)]
            if held:
                found.append(_items(laid, f"{of} descriptor", field, rf"{of} fd \d+", _behind(laid, held[-1])))
    return [items for items in found if items.bounds]


def without(laid: Laid, items: Items, place: int) -> list[Edit]:
    """An item less."""
    start, end = items.bounds[place]
    return [Edit(start, end - start, b""), put(laid, items.count, len(items.bounds) - 1)]


def doubled(laid: Laid, items: Items, place: int) -> list[Edit]:
    """An item twice."""
    start, end = items.bounds[place]
    return [Edit(end, 0, bytes(laid.content[start:end])), put(laid, items.count, len(items.bounds) + 1)]


def swapped(laid: Laid, items: Items, place: int) -> list[Edit]:
    """An item and the next one in each other's place."""
    (start, middle), (_, end) = items.bounds[place : place + 2]
    return [Edit(start, end - start, bytes(laid.content[middle:end] + laid.content[start:middle]))]
