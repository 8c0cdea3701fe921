"""The worked cases of crates/worked_sets: each a line of its standard input, and what it must print."""

from dataclasses import dataclass, replace

from bases import crowd, start, with_user_parts
from edits import Edit, Items, doubled, edited, lists, number, put, swapped, without, words
from model.images import shared_image
from model.read_shared import read_shared
from model.tests.shared_bytes import QUEUED, Laid, laid_out
from texts import kernel_text, runs, runs_text, set_text, verdict

TURNS = (0x01, 0x80, 0xFF)
EDGES = [*range(9), 15, 16, 63, 64, 65, 80, 127, 128, 129, 255, 256, 257, 0x400, 0x401, 0x403, 0x800, 0xC00, 0xC02, 0x1000,
         32_768, *range(39_998, 40_009), 65_535, 65_536, 65_537, 67_108_860, 67_108_861, 67_108_862, 67_108_864, 67_108_865,
         2**31 - 2, 2**31 - 1, 2**31, 2**31 + 1, 2**32 - 2, 2**32 - 1]
"""Numbers at and beside what some field may have."""


@dataclass(frozen=True)
class Case:
    """A case, how it is made, and what is told of it."""

    name: str
    how: str
    answer: str


def _base(name: str, data: bytes) -> Case:
    return Case(name, f"bytes {words(data)}", verdict(data))


def _edit(name: str, data: bytes, edits: list[Edit]) -> Case:
    return Case(name, "with " + " ".join(edit.text() for edit in edits), verdict(edited(data, edits)))


def _turns(data: bytes, bits: int) -> Case:
    turned = [edited(data, [Edit(at, 1, bytes([data[at] ^ bits]))]) for at in range(len(data))]
    return Case(f"each byte turned by {bits:02X}", f"turn {bits:02X}", runs_text(list(enumerate(map(verdict, turned)))))


def _fronts(data: bytes) -> Case:
    fronts = [verdict(data[:length]) for length in range(len(data))]
    assert fronts == [f"damaged: file 1 at {length}" for length in range(len(data))]
    return Case("each shorter front", "fronts", f"{len(data)} of {len(data)} are damaged at their end")


def _field(laid: Laid, name: str) -> Case:
    """The edges of a field: of each run of numbers with one answer the first and the last that was tried."""
    (place, size), old = laid.places[name], number(laid, name)
    tried = sorted(value for value in {*EDGES, old - 1, old, old + 1} if 0 <= value < 256**size)
    said = [(value, verdict(laid.with_field(name, value))) for value in tried]
    firsts = [run.first for run in runs(said)]
    ends = [value for value, after in zip(tried, tried[1:]) if after in firsts] + [tried[-1]]
    kept = sorted({*firsts, *ends})
    answer = runs_text([(value, answer) for value, answer in said if value in kept])
    return Case(name, f"field {place}:{size} {' '.join(map(str, kept))}", answer)


def _fields(laid: Laid) -> list[Case]:
    """Each number of one, two or four bytes."""
    return [_field(laid, name) for name, (_, size) in laid.places.items() if size in (1, 2, 4)]


def _changed_list(laid: Laid, items: Items) -> list[Case]:
    data, count = bytes(laid.content), len(items.bounds)
    cases = [_edit(f"{items.name}, item {at} left out", data, without(laid, items, at)) for at in range(count)]
    cases += [_edit(f"{items.name}, item {at} twice", data, doubled(laid, items, at)) for at in range(count)]
    return cases + [_edit(f"{items.name}, items {at} and {at + 1} swapped", data, swapped(laid, items, at))
                    for at in range(count - 1)]


def _with_fields(laid: Laid, name: str, fields: dict[str, int]) -> Case:
    return _edit(name, bytes(laid.content), [put(laid, field, value) for field, value in fields.items()])


CHANGED: list[tuple[str, dict[str, int]]] = [
    ("an end named by two streams", {"description 40000 6 side": 0}),
    ("a connection accepted while it waits", {"description 40003 2 of num": 8}),
    ("a connection that waits after it was accepted", {"description 40003 1 waits num": 7}),
    ("a pair waits", {"description 40003 1 waits num": 4}),
    ("more wait than the backlog", {"description 40003 1 backlog": 0}),
    ("a pipe of which the writer is closed", {"channel 1 flags 0": 1, "channel 1 flags 1": 2,
                                              "description 40000 3 flags": 0, "description 40000 3 side": 1}),
    ("a pipe written by a reader", {"description 40000 3 flags": 0}),
    ("a pipe written by a reader and writer", {"description 40000 3 flags": 2}),
    ("two pipes' ends of one side", {"channel 4 kind": 2, "channel 4 length 1": 0}),
    ("a side that nobody has and that sends", {"channel 1 flags 1": 0}),
    ("a side that nobody has and that is sent to", {"channel 1 flags 0": 0}),
    ("a side that nobody has, and the other ended", {"channel 1 flags 0": 3}),
    ("a file without name and description", {"description 40000 9 file": 1}),
    ("no such file", {"description 40000 9 file": 3}),
    ("an owner that has ended", {"description 40005 0 owner": 40005}),
    ("an owner of another host", {"description 40005 0 owner": 40006}),
    ("an owner that is a thread's number", {"description 40000 0 owner": 40002}),
    ("an owner that is no number", {"description 40000 0 owner": 1}),
    ("no owner", {"description 40000 0 owner": 0}),
    ("an owner of the host", {"description 40005 0 owner": 40003}),
    ("a socket of another host", {"description 40000 10 host": 3}),
    ("a bound socket of another host", {"description 40000 11 host": 3, "description 40000 11 port": 81}),
    ("a listener of another host", {"description 40003 1 host": 4}),
    ("a socket and a listener at one port", {"description 40000 11 host": 3}),
    ("a listener and a socket at one port", {"description 40003 1 host": 0}),
    ("two sockets at one port", {"description 40000 10 port": 80}),
    ("an end that connected from another host", {"channel 7 host 0": 1}),
    ("an accepted end of another host", {"channel 7 host 1": 4}),
    ("an end that waits, of another host", {"channel 8 host 1": 0}),
    ("a parent of another host", {"process 40006 parent": 40000}),
    ("a zombie of another host than its parent", {"process 40005 host": 0}),
    ("a parent that has ended", {"process 40006 parent": 40005}),
    ("a parent that comes later", {"process 40001 parent": 40003}),
    ("a process of its own", {"process 40001 parent": 40001}),
    ("a zombie of nobody", {"process 40005 parent": 1}),
    ("a thread with an earlier process's number", {"process 40001 thread 40002": 40000}),
    ("a thread with its own process's number", {"process 40001 thread 40002": 40001}),
    ("a thread with a later process's number", {"process 40001 thread 40002": 40003}),
    ("a thread with a zombie's number", {"process 40006 thread 40006": 40005}),
    ("a thread of two processes", {"process 40001 thread 40002": 40004}),
    ("a process with an earlier thread's number", {"process 40003": 40002}),
    ("a running number of a description", {"process 40003 made": 2}),
    ("a running number of a channel", {"process 40000 made": 8}),
    ("a running number that none is above", {"process 40000 made": 2**32 - 1}),
]
"""What fields hold that are changed together, by what the image then has."""


def _words(*values: int) -> bytes:
    return b"".join(value.to_bytes(4, "little") for value in values)


def _listener(laid: Laid, port: int, *waiting: tuple[int, int]) -> list[Edit]:
    """Makes the last description a listener of host 3, with connections that wait."""
    fields = _words(3, port, len(waiting), len(waiting), *(value for name in waiting for value in name))
    return [Edit(laid.places["processes"][0], 0, fields), put(laid, "description 40005 0 kind", 4)]


def _one_sided(laid: Laid, found: dict[str, Items], host: int) -> list[Edit]:
    """Closes the accepted end of a connection whose address then is of this host."""
    name, length = "channel 7 bytes 0", "channel 7 length 0"
    return [*without(laid, found["process 40003 descriptor"], 1), *without(laid, found["description"], 10),
            put(laid, "channel 7 host 1", host), put(laid, "channel 7 flags 1", 1),
            Edit(laid.places[name][0], 1, b""), put(laid, length, 0), put(laid, "channel 7 flags 0", 3)]


def _whole(laid: Laid) -> list[Case]:
    """Images of which one thing is not as it may be, or just so."""
    data, found = bytes(laid.content), {items.name: items for items in lists(laid)}
    held, last = found["process 40000 descriptor"], put(laid, "process 40006 descriptors", 1)
    nobody = without(laid, held, 1) + without(laid, found["description"], 1)
    place, size = laid.places["file 4 name"]
    name = [Edit(place, size, b"a"), put(laid, "file 4 length", 1)]
    twice = [Edit(laid.places["description 40003 2 pid"][0], 0, _words(*QUEUED)),
             put(laid, "description 40003 1 waiting", 2), put(laid, "description 40003 1 backlog", 2)]
    return [_with_fields(laid, name, fields) for name, fields in CHANGED] + [
        _edit("a description that nobody holds", data, without(laid, held, 8)),
        _edit("a channel of which nobody has a side", data, nobody),
        _edit("a description held on two hosts", data, [Edit(len(data), 0, _words(7, 40005, 0) + b"\0"), last]),
        _edit("no such description", data, [Edit(len(data), 0, _words(7, 40005, 1) + b"\0"), last]),
        _edit("two files of one name", data, name),
        _edit("a file that lost its name and is not open", data, [Edit(place, size, b""), put(laid, "file 4 length", 0)]),
        _edit("two listeners at one port", data, _listener(laid, 80)),
        _edit("two listeners of one host", data, _listener(laid, 81)),
        _edit("a connection that waits at two listeners", data, _listener(laid, 81, QUEUED)),
        _edit("a connection that waits twice", data, twice),
        _edit("a connection whose accepted end is closed", data, _one_sided(laid, found, 3)),
        _edit("a closed end of any host", data, _one_sided(laid, found, 9)),
        _edit("a byte behind", data, [Edit(len(data), 0, b"\0")]),
    ]


def _set(name: str, shared: bytes, images: list[bytes]) -> Case:
    return Case(name, "set " + " / ".join(map(words, images)), set_text([shared, *images]))


def _sets(shared: bytes) -> list[Case]:
    """The set of an image with at least three live processes, and damaged ones."""
    first, second, third, *rest = with_user_parts(read_shared(shared))
    return [
        _set("its set", shared, [first, second, third, *rest]),
        _set("an image too few", shared, [first, second, third, *rest][:-1]),
        _set("an image too many", shared, [first, second, third, *rest, second]),
        _set("two images in each other's place", shared, [first, third, second, *rest]),
        _set("a byte behind an image", shared, [first, second, third + b"\0", *rest]),
        _set("images cut short, of which the first counts", shared, [first, second[:-1], third[:-2], *rest]),
        _set("an image without a byte", shared, [b"", second, third, *rest]),
    ]


def _renamed(cases: list[Case], of: str) -> list[Case]:
    return [replace(case, name=f"{of}: {case.name}") for case in cases]


def all_cases() -> list[Case]:
    """All cases, each base before those that edit it."""
    first, laid, many = shared_image(start()), laid_out(), shared_image(crowd())
    data = bytes(laid.content)
    edits = [case for items in lists(laid) for case in _changed_list(laid, items)]
    return [
        _base("a start", first), Case("its kernel part", "kernel", kernel_text(first)), _fronts(first),
        _turns(first, TURNS[0]), *_sets_of_start(first),
        _base("something of everything", data), Case("its kernel part", "kernel", kernel_text(data)), _fronts(data),
        *(_turns(data, bits) for bits in TURNS), *_fields(laid), *edits, *_whole(laid), *_sets(data),
        _base("as many as there may be", many),
    ]


def _sets_of_start(shared: bytes) -> list[Case]:
    images = with_user_parts(read_shared(shared))
    return [_set("its set", shared, images)]
