"""Where the fields of a set's files lie (docs/FORMATS.md): each with its name, place and size, and each list with its
count and its entries."""

from collections.abc import Callable
from dataclasses import dataclass, field

SIGNALS, REGISTERS = 31, 32
MOST_ENTRIES = 3000  # of a list that are looked at
MOST_FILES = 129
SIDES = (0, 1)
PAGE_CONTENT = 4096
ACTION = [("handler", 4), ("flags", 4), ("mask", 4)]
WAITER = [("thread", 4), ("address", 4)]
THREAD = [("tid", 4), ("pending", 4)]
DESCRIPTOR = [("number", 4), ("pid", 4), ("num", 4), ("close-on-exec", 1)]
PROCESS = [("pid", 4), ("parent", 4), ("host", 4), ("made", 4), ("state", 1), ("status", 4), ("pending", 4)]
NAME = [("pid", 4), ("num", 4)]
OBJECTS = [
    [], [("file", 4), ("offset", 4)], [("channel pid", 4), ("channel num", 4), ("side", 1)], [("host", 4), ("port", 4)],
    [("host", 4), ("port", 4), ("backlog", 4)],
]
LISTENER = 4  # the kind of a description that has a list


# numbers at and beside what is allowed, by the field's name without a register's number (docs/FORMATS.md)
LIMITS = {
    "count": [0, 1, 2, 3, 128, 129, 130], "next_id": [39999, 40000, 40001, 2**31 - 2, 2**31 - 1, 2**31],
    "next_file": [0, 1, 2, 3, 2**32 - 2, 2**32 - 1], "files.count": [0, 1, 2, 1023, 1024, 1025],
    "file.number": [0, 1, 2, 3], "file.name length": [0, 1, 2, 254, 255, 256],
    "file.size": [0, 1, 2, 67_108_863, 67_108_864, 67_108_865], "channels.count": [0, 1, 2, 255, 256, 257],
    "channel.pid": [0, 39999, 40000, 40001, 40002], "channel.num": [0, 1, 2, 2**32 - 1], "channel.kind": [0, 1, 2, 3],
    "side.flags": [0, 1, 2, 3, 4], "side.length": [0, 1, 2, 65_535, 65_536, 65_537],
    "side.host": [0, 1, 15, 16, 2**32 - 1], "side.port": [0, 1, 65_535, 65_536],
    "description.pid": [0, 39999, 40000, 40001, 40002], "description.num": [0, 1, 2, 2**32 - 1],
    "description.kind": [0, 1, 2, 3, 4, 5], "description.host": [0, 1, 15, 16],
    "description.port": [0, 1, 65_535, 65_536], "description.side": [0, 1, 2],
    "description.backlog": [0, 1, 127, 128, 129, 2**32 - 1],
    "description.offset": [0, 1, 2**31 - 1, 2**31, 2**32 - 1], "description.file": [0, 1, 2, 3],
    "waiting.count": [0, 1, 2, 128], "processes.count": [0, 1, 2, 127, 128, 129],
    "process.pid": [39999, 40000, 40001, 40002], "process.parent": [0, 1, 2, 40000, 40001, 40002],
    "process.host": [0, 1, 14, 15, 16], "process.made": [0, 1, 2, 2**32 - 4, 2**32 - 1], "process.state": [0, 1, 2],
    "process.status": [0, 1, 2**32 - 1], "process.pending": [0, 2**16, 2**31 - 1, 2**31],
    "threads.count": [0, 1, 63, 64, 65], "thread.pending": [0, 2**16, 2**31 - 1, 2**31],
    "descriptors.count": [0, 255, 256, 257], "descriptor.number": [254, 255, 256],
    "descriptor.close-on-exec": [0, 1, 2],
    "descriptions.count": [0, 1, 2],
    "description.flags": [0, 1, 2, 3, 4, 0x400, 0x401, 0x402, 0x403, 0x802, 0xC02, 0x1002],
    "description.owner": [0, 1, 40000, 40001, 40002], "break start": [0, 4096, 0x3FFFF000, 0x40000000, 0x40001000],
    "break": [0x3FFFFFFF, 0x40000000, 0x40000001], "pages.count": [0, 1, 2047, 2048, 2049],
    "page.number": [0, 0x40000, 0x80000, 0xFFFFF, 0x100000], "page.rights": [0, 1, 2, 3, 4, 5, 6, 7, 8],
    "contexts.count": [0, 1, 63, 64, 65], "waiters.count": [0, 1, 2, 64],
}


@dataclass
class Field:
    """A number in a file, or bytes."""

    name: str
    at: int
    size: int


@dataclass
class Entries:
    """A list in a file: where its count stands, and where each entry begins and ends."""

    name: str
    count_at: int
    entries: list[tuple[int, int]]


@dataclass
class Fields:
    """All that is found in a file, which may be damaged."""

    fields: list[Field] = field(default_factory=list)
    lists: list[Entries] = field(default_factory=list)


class Walk:
    """Goes through a file, field by field."""

    def __init__(self, content: bytes) -> None:
        self.content = content
        self.at = 0
        self.found = Fields()

    def one(self, name: str, size: int = 4) -> int:
        """Takes down a field, and gives what it holds."""
        self.found.fields.append(Field(name, self.at, size))
        value = int.from_bytes(self.content[self.at:self.at + size], "little")
        self.at += size
        return value

    def all(self, owner: str, fields: list[tuple[str, int]]) -> dict[str, int]:
        """Takes down fields, and gives what they hold."""
        return {name: self.one(f"{owner}.{name}", size) for name, size in fields}

    def text(self, name: str, size: int) -> None:
        """Takes down bytes, as far as they are there."""
        size = min(size, max(0, len(self.content) - self.at))
        if size:
            self.one(name, size)

    def listed(self, name: str, plural: str, entry: Callable[[], object]) -> None:
        """A list whose entries are taken down by this call."""
        entries = Entries(name, self.at, [])
        for _ in range(min(self.one(f"{plural}.count"), MOST_ENTRIES)):
            if self.at >= len(self.content):
                break
            start = self.at
            entry()
            entries.entries.append((start, self.at))
        self.found.lists.append(entries)

    def listed_fields(self, name: str, fields: list[tuple[str, int]]) -> None:
        """A list whose entries have these fields."""
        self.listed(name, f"{name}s", lambda: self.all(name, fields))


class SharedWalk(Walk):
    """Goes through a shared image."""

    def file(self) -> None:
        """A file, with its name and its bytes."""
        self.one("file.number")
        self.text("file.name", self.one("file.name length", 2))
        self.text("file.bytes", self.one("file.size"))

    def channel(self) -> None:
        """A channel, with both sides."""
        self.all("channel", [*NAME, ("kind", 1)])
        for _ in SIDES:
            self.one("side.flags", 1)
            self.text("side.bytes", self.one("side.length"))
            self.all("side", [("host", 4), ("port", 4)])

    def description(self) -> None:
        """A description, with the fields of its kind."""
        kind = self.all("description", [*NAME, ("kind", 1), ("flags", 4), ("owner", 4)])["kind"]
        self.all("description", OBJECTS[kind] if kind < len(OBJECTS) else [])
        if kind == LISTENER:
            self.listed("waiting", "waiting", lambda: self.all("waiting", NAME))

    def process(self) -> None:
        """A process, with its threads and descriptors."""
        self.all("process", PROCESS)
        self.listed_fields("thread", THREAD)
        self.listed_fields("descriptor", DESCRIPTOR)

    def whole(self) -> None:
        """All of it."""
        self.one("magic", 8)
        self.one("next_id")
        self.one("next_file")
        self.listed("file", "files", self.file)
        self.listed("channel", "channels", self.channel)
        self.listed("description", "descriptions", self.description)
        self.listed("process", "processes", self.process)


def shared_fields(content: bytes) -> Fields:
    """Those of a shared image."""
    walk = SharedWalk(content)
    walk.whole()
    return walk.found


def process_fields(content: bytes) -> Fields:
    """Those of the image of a process."""
    walk = Walk(content)
    context = [(f"x{register}", 4) for register in range(1, REGISTERS)] + [("pc", 4), ("mask", 4)]
    walk.one("magic", 8)
    for name in ("number", "break start", "break"):
        walk.one(name)

    def page() -> None:
        walk.all("page", [("number", 4), ("rights", 1), ("content", 1)])
        walk.at += PAGE_CONTENT - 1

    walk.listed("page", "pages", page)
    for _ in range(SIGNALS):
        walk.all("action", ACTION)
    walk.listed_fields("waiter", WAITER)
    for _ in range(min(walk.one("threads.count"), 64)):
        walk.one("thread.number")
        for register in range(1, REGISTERS):
            walk.one(f"thread.x{register}")
        for name in ("pc", "mask", "word to clear"):
            walk.one(f"thread.{name}")
        walk.listed_fields("context", context)
    return walk.found


def manifest_fields(content: bytes) -> Fields:
    walk = Walk(content)
    walk.one("gate", 1)
    walk.one("magic", 7)
    walk.one("generation", 8)
    for i in range(min(walk.one("count"), MOST_FILES)):
        walk.one(f"length {i}", 8)
    return walk.found


def fields_of(index: int, content: bytes) -> Fields:
    """Those of the file of a set with this index."""
    return [manifest_fields, shared_fields, process_fields][min(index, 2)](content)
