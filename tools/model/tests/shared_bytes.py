"""A shared image with something of everything, laid out field by field by hand (docs/FORMATS.md, "Shared image")."""

from dataclasses import dataclass, field

NO_HOST = 0xFFFFFFFF
PIPE, STREAM, NET, QUEUED = (40000, 1), (40000, 4), (40000, 7), (40000, 8)
"""Channels: a pipe of which the reader is closed, a pair, and two internet connections, of which one waits."""


@dataclass
class Laid:
    """Bytes in fields with names, of which each has a place."""

    content: bytearray = field(default_factory=bytearray)
    places: dict[str, tuple[int, int]] = field(default_factory=dict)

    def put(self, name: str, data: bytes) -> None:
        """Bytes."""
        if name in self.places:
            raise ValueError(f"the field {name} stands twice")
        self.places[name] = (len(self.content), len(data))
        self.content += data

    def number(self, name: str, value: int, size: int = 4) -> None:
        """A number."""
        self.put(name, value.to_bytes(size, "little"))

    def numbers(self, of: str, **values: int) -> None:
        """Numbers of four bytes."""
        for name, value in values.items():
            self.number(f"{of} {name}", value)

    def with_field(self, name: str, value: int) -> bytes:
        """The same with another number in a field."""
        place, size = self.places[name]
        return bytes(self.content[:place]) + value.to_bytes(size, "little") + bytes(self.content[place + size :])


def _files(laid: Laid) -> None:
    laid.number("files", 3)
    for number, name, data in ((1, b"a", b"xyz"), (2, b"", b""), (4, b"bc", b"")):
        laid.number(f"file {number}", number)
        laid.number(f"file {number} length", len(name), 2)
        laid.put(f"file {number} name", name)
        laid.number(f"file {number} size", len(data))
        laid.put(f"file {number} bytes", data)


def _channel(laid: Laid, name: tuple[int, int], kind: int, *sides: tuple[int, bytes, int, int]) -> None:
    of = f"channel {name[1]}"
    laid.numbers(of, pid=name[0], num=name[1])
    laid.number(f"{of} kind", kind, 1)
    for side, (flags, data, host, port) in enumerate(sides):
        laid.number(f"{of} flags {side}", flags, 1)
        laid.number(f"{of} length {side}", len(data))
        laid.put(f"{of} bytes {side}", data)
        laid.number(f"{of} host {side}", host)
        laid.number(f"{of} port {side}", port)


def _channels(laid: Laid) -> None:
    laid.number("channels", 4)
    _channel(laid, PIPE, 2, (2, b"", NO_HOST, 0), (1, b"", NO_HOST, 0))
    _channel(laid, STREAM, 0, (0, b"there", NO_HOST, 0), (0, b"back", NO_HOST, 0))
    _channel(laid, NET, 1, (1, b"q", 0, 32768), (0, b"", 3, 80))
    _channel(laid, QUEUED, 1, (0, b"", 0, 0), (0, b"", 3, 80))


def _description(laid: Laid, name: tuple[int, int], kind: int, flags: int, owner: int = 0) -> str:
    of = f"description {name[0]} {name[1]}"
    laid.numbers(of, pid=name[0], num=name[1])
    laid.number(f"{of} kind", kind, 1)
    laid.numbers(of, flags=flags, owner=owner)
    return of


def _stream(laid: Laid, name: tuple[int, int], channel: tuple[int, int], side: int, flags: int = 2) -> None:
    of = _description(laid, name, 2, flags)
    laid.numbers(f"{of} of", pid=channel[0], num=channel[1])
    laid.number(f"{of} side", side, 1)


def _descriptions(laid: Laid) -> None:
    laid.number("descriptions", 12)
    _description(laid, (40000, 0), 0, 2, 40001)
    _stream(laid, (40000, 3), PIPE, 0, 1)
    _stream(laid, (40000, 5), STREAM, 0)
    _stream(laid, (40000, 6), STREAM, 1, 0x802)
    laid.numbers(_description(laid, (40000, 9), 1, 0x400, 40000), file=2, offset=NO_HOST)
    laid.numbers(_description(laid, (40000, 10), 3, 2), host=0, port=0)
    laid.numbers(_description(laid, (40000, 11), 3, 2), host=0, port=80)
    _stream(laid, (40000, 12), NET, 0)
    _stream(laid, (40000, 13), QUEUED, 0)
    of = _description(laid, (40003, 1), 4, 2)
    laid.numbers(of, host=3, port=80, backlog=1, waiting=1)
    laid.numbers(f"{of} waits", pid=QUEUED[0], num=QUEUED[1])
    _stream(laid, (40003, 2), NET, 1)
    _description(laid, (40005, 0), 0, 2)


def _process(laid: Laid, number: int, parent: int, host: int, made: int, status: int | None = None) -> str:
    of = f"process {number}"
    laid.number(of, number)
    laid.numbers(of, parent=parent, host=host, made=made)
    laid.number(f"{of} state", 0 if status is None else 1, 1)
    laid.numbers(of, status=status or 0)
    return of


def _members(laid: Laid, of: str, pending: int, threads: list[tuple[int, int]], held: list[tuple[int, ...]]) -> None:
    laid.numbers(of, pending=pending, threads=len(threads))
    for tid, signals in threads:
        laid.numbers(of, **{f"thread {tid}": tid, f"pending of {tid}": signals})
    laid.numbers(of, descriptors=len(held))
    for number, pid, num, closes in held:
        laid.numbers(of, **{f"fd {number}": number, f"fd {number} pid": pid, f"fd {number} num": num})
        laid.number(f"{of} fd {number} closes", closes, 1)


def _processes(laid: Laid) -> None:
    laid.number("processes", 5)
    held = [(place, 40000, num, place % 2) for place, num in enumerate((0, 3, 5, 6, 9, 10, 11, 12, 13))]
    _members(laid, _process(laid, 40000, 1, 0, 14), 1 << 30, [(40000, 0), (40004, 512)], held)
    _members(laid, _process(laid, 40001, 40000, 0, 1), 0, [(40002, 0)], [(255, 40000, 0, 0)])
    held = [(3, 40003, 1, 0), (4, 40003, 2, 0), (9, 40005, 0, 0)]
    _members(laid, _process(laid, 40003, 1, 3, 3), 0, [(40003, 0)], held)
    _members(laid, _process(laid, 40005, 40003, 3, 0, 9), 0, [], [])
    _members(laid, _process(laid, 40006, 1, 15, 0), 0, [(40006, 0)], [])


def laid_out() -> Laid:
    """The image."""
    laid = Laid()
    laid.put("magic", b"DMTSHR01")
    laid.numbers("next", id=40007, file=5)
    _files(laid)
    _channels(laid)
    _descriptions(laid)
    _processes(laid)
    return laid
