"""What each field of a set's files may hold, and where the set is damaged by another number in it
(docs/FORMATS.md).

A field is called as in comparing/set_fields.py, without the number of a register, a signal or a length. """

from collections.abc import Callable
from dataclasses import dataclass

PAGE = 4096
TOP = 0x40000000
SIGNED_END, WORD_END = 1 << 31, 1 << 32
HOSTS, PORTS = 16, 65_536
NO_HOST = 0xFFFFFFFF
FIRST = 40_000
KNOWN_FLAGS, BOTH_MODES = 0xC03, 3
ANYWHERE = "anywhere behind"
"""The bytes behind are other fields then, of which any may be the first that is damaged."""
END = "the end"
"""A condition on the file as a whole."""
IMAGES = "a process's image"
"""What the shared image then asks of the other files."""
OTHER_SLOT = "the other slot"
"""The set of the other slot counts then, or none."""
Fits = Callable[[int], bool]


@dataclass(frozen=True)
class Rule:
    """Of a field: what it may hold whatever stands before it, whether what stands before it allows less than
    that, where else the set may be damaged by it, and whether another number may spell another state."""

    fits: Fits
    narrowed: bool = False
    places: frozenset[str] = frozenset()
    spells: bool = True


def below(end: int) -> Fits:
    """A number below that."""
    return lambda value: value < end


def among(first: int, last: int) -> Fits:
    """A number from the first to the last."""
    return lambda value: first <= value <= last


def rule(fits: Fits, *places: str, narrowed: bool = False, spells: bool = True) -> Rule:
    """A field's rule."""
    return Rule(fits, narrowed, frozenset(places), spells)


def anything(_value: int) -> bool:
    """Any number."""
    return True


def nothing(_value: int) -> bool:
    """No other bytes."""
    return False


def _is_host_or_none(value: int) -> bool:
    return value < HOSTS or value == NO_HOST


def _has_no_zero(value: int) -> bool:
    """The bytes of a name."""
    while value:
        if not value & 0xFF:
            return False
        value >>= 8
    return True


def _are_flags(value: int) -> bool:
    return value & ~KNOWN_FLAGS == 0 and value & BOTH_MODES != BOTH_MODES


def _is_break_start(value: int) -> bool:
    return value % PAGE == 0 and value <= TOP


FREE = rule(anything)
FILES = {
    "next_id": rule(among(FIRST, SIGNED_END - 1), "channel.pid", "description.pid", "process.pid",
                    "thread.tid"),
    "next_file": rule(among(1, WORD_END), "file.number"),
    "files.count": rule(below(1025), ANYWHERE),
    "file.number": rule(among(1, WORD_END), "file.number", "description.file", END, narrowed=True),
    "file.name length": rule(below(256), ANYWHERE),
    "file.name": rule(_has_no_zero, "file.name", narrowed=True),
    "file.size": rule(below(67_108_865), ANYWHERE, narrowed=True),
    "file.bytes": FREE,
}
NAMES_A_CHANNEL = ("description.channel num", "waiting.num")
CHANNELS = {
    "channels.count": rule(below(257), ANYWHERE),
    "channel.pid": rule(below(SIGNED_END), "channel.pid", "channel.num", *NAMES_A_CHANNEL, narrowed=True,
                        spells=False),
    "channel.num": rule(anything, "channel.num", *NAMES_A_CHANNEL, narrowed=True, spells=False),
    "channel.kind": rule(below(3), "side.length", "side.host", "side.port", "description.side", "waiting.num",
                         END),
    "side.flags": rule(below(4), "side.length", END),
    "side.length": rule(below(65_537), ANYWHERE, narrowed=True),
    "side.bytes": FREE,
    "side.host": rule(_is_host_or_none, END, narrowed=True),
    "side.port": rule(below(PORTS), narrowed=True),
}
DESCRIPTIONS = {
    "descriptions.count": rule(anything, ANYWHERE),
    "description.pid": rule(below(SIGNED_END), "description.pid", "description.num", "descriptor.num",
                            "process.state", narrowed=True, spells=False),
    "description.num": rule(anything, "description.num", "descriptor.num", "process.state", narrowed=True,
                            spells=False),
    "description.kind": rule(below(5), ANYWHERE),
    "description.flags": rule(_are_flags, "description.side"),
    "description.owner": rule(anything, END),
    "description.file": rule(anything, END, narrowed=True),
    "description.offset": FREE,
    "description.channel pid": rule(anything, "description.channel num", "description.side", "waiting.num",
                                    END),
    "description.channel num": rule(anything, "description.side", "waiting.num", END, narrowed=True),
    "description.side": rule(below(2), "description.side", "waiting.num", END, narrowed=True),
    "description.host": rule(below(HOSTS), "description.port", END),
    "description.port": rule(below(PORTS), "description.port", narrowed=True),
    "description.backlog": rule(anything, "waiting.count"),
    "waiting.count": rule(anything, ANYWHERE, narrowed=True),
    "waiting.pid": rule(anything, "waiting.num", "description.side", END),
    "waiting.num": rule(anything, "waiting.num", "description.side", END, narrowed=True),
}
PROCESSES = {
    "processes.count": rule(below(129), ANYWHERE, IMAGES),
    "process.pid": rule(among(FIRST, SIGNED_END - 1), "process.pid", "process.parent", "process.state",
                        "thread.tid", END, IMAGES, narrowed=True),
    "process.parent": rule(anything, "process.state", END, narrowed=True),
    "process.host": rule(below(HOSTS), END),
    "process.made": rule(anything, "process.state"),
    "process.state": rule(below(2), "process.status", "process.pending", "threads.count", narrowed=True,
                          spells=False),
    "process.status": rule(anything, narrowed=True),
    "process.pending": rule(below(SIGNED_END), narrowed=True),
    "threads.count": rule(below(65), ANYWHERE, IMAGES, narrowed=True),
    "thread.tid": rule(among(FIRST, SIGNED_END - 1), "thread.tid", "process.pid", IMAGES, narrowed=True,
                       spells=False),
    "thread.pending": rule(below(SIGNED_END)),
    "descriptors.count": rule(below(257), ANYWHERE, narrowed=True),
    "descriptor.number": rule(below(256), "descriptor.number", narrowed=True),
    "descriptor.pid": rule(anything, "descriptor.num", END),
    "descriptor.num": rule(anything, END, narrowed=True),
    "descriptor.close-on-exec": rule(below(2)),
}
SHARED = {"magic": rule(nothing, spells=False), **FILES, **CHANNELS, **DESCRIPTIONS, **PROCESSES}
CONTEXT = {f"{of}.{name}": FREE for of in ("thread", "context") for name in ("x", "pc", "mask")}
PROCESS = {
    "magic": rule(nothing, spells=False),
    "number": rule(nothing, spells=False),
    "break start": rule(_is_break_start, "break", "page.number", END),
    "break": rule(below(TOP + 1), "page.number", END, narrowed=True),
    "pages.count": rule(below(2049), ANYWHERE),
    "page.number": rule(below(1 << 20), "page.number", "page.rights", "page.content", END, narrowed=True),
    "page.rights": rule(below(8), narrowed=True),
    "page.content": rule(anything, narrowed=True),
    **{f"action.{name}": FREE for name in ("handler", "flags", "mask")},
    "waiters.count": rule(anything, ANYWHERE),
    "waiter.thread": rule(anything, "waiter.thread", narrowed=True),
    "waiter.address": FREE,
    "threads.count": rule(among(1, 64), narrowed=True, spells=False),
    "thread.number": rule(nothing, spells=False),
    **CONTEXT,
    "thread.word to clear": FREE,
    "contexts.count": rule(below(65), ANYWHERE),
}
MANIFEST = {
    "gate": rule(among(0, 255), OTHER_SLOT, spells=False),
    "magic": rule(nothing, spells=False),
    "generation": rule(anything, OTHER_SLOT),
    "count": rule(among(1, 129), ANYWHERE, spells=False),
    "length": rule(anything, IMAGES, spells=False),
}
RULES = (MANIFEST, SHARED, PROCESS)
"""Those of the manifest, of the shared image, and of the images of processes."""
