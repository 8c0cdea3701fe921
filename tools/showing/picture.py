"""A trace as a picture (SVG): a row for each thread, in a band for each process, one for channels where it has any, one
for the store."""

import re
from collections import Counter
from dataclasses import dataclass, field
from html import escape

from model.trace import WORK, Kind, Record
from showing.traces import CHANNEL_KINDS, generation_of

LEFT, RIGHT, TOP, BOTTOM = 130, 60, 30, 56
ROW, BAR, LABEL = 42, 16, 8
WIDEST, NARROWEST, PICTURE = 18.0, 1.5, 1500
MOST_RECORDS = 3000
LABELLED = 12.0
COLOURS = {
    Kind.USER: "#5b8db8",
    Kind.CALL: "#e0a030",
    Kind.DELIVER: "#c0392b",
    Kind.ARRIVE: "#2f6f9f",
    Kind.CUT: "#444444",
    Kind.DRAINED: "#4fa3a5",
    Kind.REFILLED: "#8fc3c5",
    Kind.COMPLETE: "#3a9a4b",
    Kind.REFUSED: "#c0392b",
    Kind.LAPSED: "#888888",
}
LEGEND = {
    Kind.USER: "instructions",
    Kind.CALL: "call",
    Kind.DELIVER: "signal",
    Kind.ARRIVE: "bytes arrive",
    Kind.CUT: "cut",
    Kind.DRAINED: "drained",
    Kind.REFILLED: "refilled",
    Kind.COMPLETE: "set complete",
    Kind.REFUSED: "refused",
    Kind.LAPSED: "lapsed",
}
WAITS = ": waits"
BAND = "#f3f6f9"
MADE = re.compile(r"^\S+ clone\(.*\) = (\d+)$")
"""What is told of a call that makes a thread or a process, whose number it answers."""


@dataclass
class Picture:
    """What is drawn so far, and where."""

    records: list[Record]
    told: list[str]
    parts: list[str] = field(default_factory=list)

    def __post_init__(self) -> None:
        self.threads = sorted({(record.a, record.b) for record in self.records if record.kind in WORK})
        names = [f"{process}/{thread}" for process, thread in self.threads]
        has_channels = any(record.kind in CHANNEL_KINDS for record in self.records)
        self.rows = [*names, *(["channels"] if has_channels else []), "store"]
        self.labels = Counter[str]()
        self.step = max(NARROWEST, min(WIDEST, PICTURE / max(1, len(self.records))))

    def right(self) -> float:
        """Where the rows end."""
        return LEFT + self.step * len(self.records)

    def bottom(self) -> int:
        """Where the last row ends."""
        return TOP + ROW * len(self.rows)

    def middle(self, row: str) -> float:
        """The middle of a row."""
        return TOP + ROW * self.rows.index(row) + ROW / 2

    def row_of(self, record: Record) -> str:
        """The row that a record stands in."""
        if record.kind in WORK:
            return f"{record.a}/{record.b}"
        return "channels" if record.kind in CHANNEL_KINDS else "store"

    def put(self, shape: str, title: str = "") -> None:
        """Adds a shape, with a text that a browser shows where one points at it."""
        self.parts.append(f"{shape[:-2]}><title>{escape(title)}</title>{closing(shape)}" if title else shape)

    def text(self, x: float, y: float, words: str, more: str = "") -> None:
        """Adds words."""
        self.parts.append(f'<text x="{x:.1f}" y="{y:.1f}" {more}>{escape(words)}</text>')


def closing(shape: str) -> str:
    """The tag that ends a shape."""
    return f"</{shape[1:].split(' ', 1)[0]}>"


def _draw_bands(picture: Picture) -> None:
    """A band behind the threads of each second process."""
    processes = sorted({process for process, _ in picture.threads})
    for process in processes[1::2]:
        rows = [picture.middle(f"{process}/{thread}") for owner, thread in picture.threads if owner == process]
        place = f'x="0" y="{rows[0] - ROW / 2}" width="{picture.right():.1f}" height="{ROW * len(rows)}"'
        picture.put(f'<rect {place} fill="{BAND}"/>', f"process {process}")


def _draw_births(picture: Picture) -> None:
    """A line from each call that makes a thread or a process to the row of what it made."""
    rows = {thread: f"{process}/{thread}" for process, thread in picture.threads}
    for place, (record, told) in enumerate(zip(picture.records, picture.told)):
        found = MADE.match(told) if record.kind is Kind.CALL else None
        made = rows.get(int(found[1])) if found else None
        if made:
            x, y, end = LEFT + picture.step * place, picture.middle(picture.row_of(record)), picture.middle(made)
            ends = f'x1="{x:.1f}" y1="{y}" x2="{x:.1f}" y2="{end}"'
            picture.put(f'<line {ends} stroke="{COLOURS[Kind.CALL]}"/>', f"{made} begins")


def _draw_rows(picture: Picture) -> None:
    for row in picture.rows:
        y = picture.middle(row)
        picture.text(LEFT - 10, y + 4, row, 'text-anchor="end"')
        picture.put(f'<line x1="{LEFT}" y1="{y}" x2="{picture.right():.1f}" y2="{y}" stroke="#e4e4e4"/>')


def _draw_waits(picture: Picture) -> None:
    """A line from each call that waits to the thread's next record."""
    waiting: dict[str, float] = {}
    for place, (record, told) in enumerate(zip(picture.records, picture.told)):
        row, x = picture.row_of(record), LEFT + picture.step * place
        if row in waiting:
            _draw_wait(picture, row, waiting.pop(row), x)
        if record.kind is Kind.CALL and told.endswith(WAITS):
            waiting[row] = x + picture.step
    for row, x in waiting.items():
        _draw_wait(picture, row, x, picture.right())


def _draw_wait(picture: Picture, row: str, x: float, end: float) -> None:
    y = picture.middle(row)
    ends = f'x1="{x:.1f}" y1="{y}" x2="{end:.1f}" y2="{y}"'
    dashes = f'stroke="{COLOURS[Kind.CALL]}" stroke-width="2" stroke-dasharray="3 3"'
    picture.put(f"<line {ends} {dashes}/>", f"{row} waits")


def _draw_record(picture: Picture, place: int) -> None:
    """A record: a box in its row, and a line through all rows where it is a cut."""
    record, told = picture.records[place], picture.told[place]
    x, y = LEFT + picture.step * place, picture.middle(picture.row_of(record))
    colour = COLOURS[record.kind]
    if record.kind is Kind.CUT:
        ends = f'x1="{x:.1f}" y1="{TOP}" x2="{x:.1f}" y2="{picture.bottom()}"'
        picture.put(f'<line {ends} stroke="{colour}" stroke-dasharray="5 3"/>', told)
    width = max(picture.step - 0.5, 1)
    box = f'<rect x="{x:.1f}" y="{y - BAR / 2}" width="{width:.1f}" height="{BAR}" fill="{colour}"/>'
    picture.put(box, f"{place + 1}: {told}")
    if picture.step >= LABELLED:
        _label(picture, place)


def _label(picture: Picture, place: int) -> None:
    """A word below a box: a call's name, a signal's number, a generation. Every other one stands lower."""
    record, told = picture.records[place], picture.told[place]
    words = ""
    if record.kind is Kind.CALL and "(" in told:
        words = told.split(" ", 1)[1].split("(", 1)[0]
    elif record.kind is Kind.DELIVER:
        words = f"signal {record.x}"
    elif record.kind is Kind.COMPLETE:
        words = f"set {generation_of(record)}"
    if not words:
        return
    row = picture.row_of(record)
    y = picture.middle(row) + BAR + LABEL * (picture.labels[row] % 2)
    picture.labels[row] += 1
    picture.text(LEFT + picture.step * place, y, words, 'font-size="7"')


def _draw_legend(picture: Picture) -> float:
    """Says what the colours are; gives where that ends."""
    x, y = float(LEFT), picture.bottom() + 24
    present = {record.kind for record in picture.records}
    for kind, words in LEGEND.items():
        if kind in present:
            picture.put(f'<rect x="{x}" y="{y - 9}" width="10" height="10" fill="{COLOURS[kind]}"/>')
            picture.text(x + 14, y, words)
            x += 30 + 7 * len(words)
    return x


def draw(records: list[Record], told: list[str], title: str) -> str:
    """The picture of a trace; of a longer one its first 3,000 records."""
    shown = len(told[:MOST_RECORDS])
    picture = Picture(records[:shown], told[:shown])
    _draw_bands(picture)
    _draw_rows(picture)
    _draw_waits(picture)
    _draw_births(picture)
    for place in range(shown):
        _draw_record(picture, place)
    legend = _draw_legend(picture)
    first = "" if shown == len(records) else f"the first {shown:,} of "
    picture.text(LEFT, TOP - 12, f"{title}: {first}{len(records):,} records", 'font-weight="bold"')
    width, height = max(picture.right() + RIGHT, legend), picture.bottom() + BOTTOM
    size = f'width="{width:.0f}" height="{height}"'
    head = f'<svg xmlns="http://www.w3.org/2000/svg" {size} font-family="sans-serif" font-size="11">'
    return "\n".join([head, '<rect width="100%" height="100%" fill="white"/>', *picture.parts, "</svg>", ""])
