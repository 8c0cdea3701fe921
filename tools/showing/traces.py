"""A trace: a line for each record, and a summary."""

from collections import Counter

from model.trace import (
    DATAGRAM_PAIR,
    DISK_FAULT,
    RECORD_BYTES,
    UNSUPPORTED,
    WORK,
    BadRecord,
    Kind,
    Record,
    read_record,
)
from showing.naming import count_text, signal_name

CHANNEL_KINDS = {Kind.ARRIVE: "arrived", Kind.DRAINED: "drained", Kind.REFILLED: "refilled"}


def read_trace(data: bytes) -> tuple[list[Record], int | None]:
    """The records up to the first bytes that spell none, and the place of those."""
    records = []
    for place in range(0, len(data), RECORD_BYTES):
        try:
            records.append(read_record(data, place))
        except BadRecord as bad:
            return records, bad.place
    return records, None


def generation_of(record: Record) -> int:
    """The generation of a cut or of a complete set."""
    return record.b | record.n << 32


def _refusal_text(record: Record) -> str:
    if record.x == UNSUPPORTED:
        kind = "a datagram pair" if record.b == DATAGRAM_PAIR else "an event counter"
        return f"checkpoint refused: process {record.a} descriptor {record.fd} is {kind}"
    return f"checkpoint refused: {'disk fault' if record.x == DISK_FAULT else 'memory'}"


def record_text(record: Record) -> str:
    """A record as its fields alone tell it."""
    who = f"{record.a}/{record.b}"
    if record.kind is Kind.USER:
        return f"{who} runs {count_text(record.n, 'instruction')}"
    if record.kind is Kind.CALL:
        return f"{who} calls"
    if record.kind is Kind.DELIVER:
        return f"{who} gets {signal_name(record.x)}"
    if record.kind in CHANNEL_KINDS:
        return f"channel {who} side {record.x}: {count_text(record.n, 'byte')} {CHANNEL_KINDS[record.kind]}"
    if record.kind is Kind.CUT:
        return f"cut of generation {generation_of(record)}"
    if record.kind is Kind.COMPLETE:
        return f"generation {generation_of(record)} complete"
    return _refusal_text(record) if record.kind is Kind.REFUSED else "checkpoint lapsed: no process lives"


def record_lines(records: list[Record], told: list[str]) -> list[str]:
    """A line for each record: its place counted from 1, dashes where it is a mark, and what is told of it."""
    width = len(str(len(records)))
    dashes = ["" if record.kind in WORK else "-- " for record in records]
    lines = enumerate(zip(dashes, told), start=1)
    return [f"{place:>{width}}  {dash}{text}" for place, (dash, text) in lines]


def summary_lines(records: list[Record]) -> list[str]:
    """How many records of each kind, and what each thread did."""
    kinds = Counter(record.kind for record in records)
    work = sum(kinds[kind] for kind in WORK)
    counted = ", ".join(f"{count:,} {kind.name.capitalize()}" for kind, count in sorted(kinds.items()))
    lines = [f"{count_text(len(records), 'record')}, {work:,} of work: {counted}"]
    for who in sorted({(record.a, record.b) for record in records if record.kind in WORK}):
        own = [record for record in records if record.kind in WORK and (record.a, record.b) == who]
        instructions = sum(record.n for record in own)
        calls, signals = (sum(record.kind is kind for record in own) for kind in (Kind.CALL, Kind.DELIVER))
        did = [(instructions, "instruction"), (calls, "call"), (signals, "signal")]
        lines.append(f"{who[0]}/{who[1]}: {', '.join(count_text(*one) for one in did)}")
    return lines
