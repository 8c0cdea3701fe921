"""The changes that are made to a file of a set: another number in one field, the file cut short or made
longer, an item of a list left out, doubled or swapped with the next one. """

from collections import defaultdict
from collections.abc import Iterator
from dataclasses import dataclass
from typing import TypeVar

from comparing.damage import put
from comparing.set_fields import LIMITS, PAGE_CONTENT, Field, fields_of
from model.start import RETURN_PAGE

NUMBERED = ("x", "length ")
"""Fields that have a number behind their name."""
BYTES = {"magic", "file.name", "file.bytes", "side.bytes", "page.content"}
MOST_ALIKE = 24
"""Fields of one name in a file that are changed; of more than that so many, evenly."""
FEW_ALIKE = 6
"""The same in the image of a process, which has thousands of pages and registers."""
NEIGHBOURS = 4
"""Values of other fields of the name that are put into a field."""
PROCESS_INDEX = 2
T = TypeVar("T")


@dataclass(frozen=True)
class Change:
    """A file with another number in one field."""

    name: str
    field: Field
    value: int
    content: bytes


def name_of(field: Field) -> str:
    """What the field's rule is called."""
    for word in NUMBERED:
        head, found, number = field.name.rpartition(word)
        if found and number.isdigit():
            return f"{head}{word.strip()}"
    return field.name


def number_in(content: bytes, field: Field) -> int:
    """What a field holds."""
    return int.from_bytes(content[field.at : field.at + field.size], "little")


def whole_fields(index: int, content: bytes) -> list[Field]:
    """The fields of a file, of which a page's content is one of all its bytes."""
    found = fields_of(index, content).fields
    return [Field(one.name, one.at, PAGE_CONTENT) if one.name == "page.content" else one for one in found]


def evenly(all_of: list[T], most: int) -> list[T]:
    """At most so many of them, from the first to the last."""
    if len(all_of) <= most:
        return list(all_of)
    return [all_of[place * (len(all_of) - 1) // (most - 1)] for place in range(most)]


def _is_of_return_page(content: bytes, field: Field) -> bool:
    """Whether it belongs to the page to which handlers return."""
    behind = {"page.number": 0, "page.rights": 4, "page.content": 5}
    return number_in(content, Field("", field.at - behind.get(field.name, 0), 4)) == RETURN_PAGE


def chosen_fields(index: int, content: bytes) -> Iterator[tuple[Field, list[int]]]:
    """The fields that are changed, each with what others of its name hold."""
    alike: dict[str, list[Field]] = defaultdict(list)
    for one in whole_fields(index, content):
        alike[name_of(one)].append(one)
    for name, fields in alike.items():
        chosen = evenly(fields, FEW_ALIKE if index >= PROCESS_INDEX else MOST_ALIKE)
        if name.startswith("page."):
            chosen += [one for one in fields if _is_of_return_page(content, one) and one not in chosen]
        for one in chosen:
            yield one, sorted({number_in(content, other) for other in fields if other.size == one.size})


def _flipped(old: int, size: int) -> set[int]:
    """Other bytes: the first one, the last and one between turned, and the first one 0."""
    bits = {0, 7, 8 * size - 1, 8 * (size // 2)}
    return {old & ~0xFF, *(old ^ 1 << bit for bit in bits)}


def _near(old: int, others: list[int]) -> list[int]:
    """The values nearest to one."""
    return sorted(others, key=lambda value: abs(value - old))[: NEIGHBOURS + 1]


def values_for(name: str, old: int, size: int, others: list[int], is_free: bool) -> list[int]:
    """The numbers that are put into a field: its edges and those beside them, bits turned, and what others
    hold."""
    top = 1 << 8 * size
    if name in BYTES:
        found = {*_flipped(old, size), *others[:NEIGHBOURS]}
    elif is_free:
        found = {0, old ^ 1, top - 1}
    else:
        turned = {old ^ 1 << bit for bit in (0, 3, 4 * size, 8 * size - 1)}
        found = {0, 1, 2, old - 1, old + 1, top // 2 - 1, top // 2, top - 1, *turned, *_near(old, others)}
        found |= {edge + beside for edge in LIMITS.get(name, []) for beside in (-1, 0, 1)}
    return sorted(value for value in found if 0 <= value < top and value != old)


def changes_of(index: int, content: bytes, free: set[str]) -> Iterator[Change]:
    """Each field of a file with each of its other numbers. Of fields that are free any number is allowed."""
    for one, others in chosen_fields(index, content):
        name = name_of(one)
        old = number_in(content, one)
        for value in values_for(name, old, one.size, others, name in free):
            new = value.to_bytes(one.size, "little")
            yield Change(name, one, value, put(content, one.at, new))


def fronts_of(index: int, content: bytes) -> Iterator[bytes]:
    """The file cut short at each of its fields, and within it."""
    places = {0, len(content) - 1}
    for one, _ in chosen_fields(index, content):
        places |= {one.at, one.at + one.size // 2}
    yield from (content[:place] for place in sorted(places))


def changed_lists(index: int, content: bytes) -> Iterator[tuple[str, bytes]]:
    """Each item of a list left out, twice, and swapped with the next one; the count follows."""
    for listed in fields_of(index, content).lists:
        pieces = [content[start:end] for start, end in listed.entries]
        behind = content[listed.entries[-1][1] :] if pieces else b""
        for at in evenly(list(range(len(pieces))), FEW_ALIKE):
            kinds = {"left out": pieces[:at] + pieces[at + 1 :], "twice": pieces[: at + 1] + pieces[at:]}
            if at + 1 < len(pieces):
                kinds["swapped"] = [*pieces[:at], pieces[at + 1], pieces[at], *pieces[at + 2 :]]
            for kind, items in kinds.items():
                count = len(items).to_bytes(4, "little")
                yield f"{listed.name} {kind}", content[: listed.count_at] + count + b"".join(items) + behind
