"""A folder of sets: each slot's manifest, the state that its set spells, or the first damage in it."""

from pathlib import Path

from comparing.set_fields import fields_of
from model.read_process import read_process
from model.reader import Damage
from model.state import Machine
from model.store import COUNT_LIMIT, HEAD_SIZE, MAGIC, OPEN_GATE, SLOTS, SetDamaged, Store, file_name
from showing.listed import read_listed
from showing.state import process_lines, state_lines

KINDS_OF_FILES = ("manifest", "shared image")
SHARED = 1
COUNT_AT, LENGTHS_AT = 16, 20


def read_folder(folder: Path) -> Store:
    """The files of a folder."""
    return Store({path.name: path.read_bytes() for path in folder.iterdir() if path.is_file()})


def file_kind(index: int) -> str:
    """What a file of a slot is."""
    return KINDS_OF_FILES[index] if index < len(KINDS_OF_FILES) else "process image"


def _lengths(manifest: bytes) -> list[int]:
    """The lengths that a manifest names, as far as they are there."""
    count = min(int.from_bytes(manifest[COUNT_AT:LENGTHS_AT], "little"), COUNT_LIMIT)
    whole = min(count, (len(manifest) - LENGTHS_AT) // 8)
    places = range(LENGTHS_AT, LENGTHS_AT + 8 * whole, 8)
    return [int.from_bytes(manifest[place : place + 8], "little") for place in places]


def _standing(store: Store, slot: int) -> str:
    """A slot's generation, and whether its set counts."""
    manifest = store.content(slot, 0)
    if not manifest:
        return "no manifest"
    if len(manifest) < HEAD_SIZE:
        return "the manifest is too short for a generation: the set does not count"
    generation = int.from_bytes(manifest[len(MAGIC) + 1 : HEAD_SIZE], "little")
    if manifest[0] != OPEN_GATE:
        return f"generation {generation}, gate {manifest[0]}: not complete, the set does not count"
    counting = store.counting()
    which = "counts" if counting and counting.slot == slot else "is older than the one that counts"
    return f"generation {generation}, complete: the set {which}"


def _file_lines(store: Store, slot: int) -> list[str]:
    """The slot's files, with the lengths that the manifest gives them."""
    lines = []
    for index, length in enumerate([None, *_lengths(store.content(slot, 0))]):
        name = file_name(slot, index)
        if name not in store.files:
            lines.append(f"  {name}  {file_kind(index)}: missing")
            continue
        found = len(store.files[name])
        wanted = "" if length in (None, found) else f", {length:,} in the manifest"
        lines.append(f"  {name}  {file_kind(index)}: {found:,} bytes{wanted}")
    return lines


def _field_at(index: int, content: bytes, offset: int) -> str:
    """The field of a file at an offset, with its place among those of its name and what it holds."""
    earlier: dict[str, int] = {}
    fields = read_listed(content).fields if index == SHARED else fields_of(index, content).fields
    for field in fields:
        earlier[field.name] = earlier.get(field.name, 0) + 1
        if field.at <= offset < field.at + field.size:
            value = content[field.at : field.at + field.size]
            held = repr(value) if field.name == "magic" else f"{int.from_bytes(value, 'little'):#x}"
            return f"{field.name} (number {earlier[field.name]} of this name), which holds {held}"
    return "a byte behind the last field"


def damage_text(store: Store, damaged: SetDamaged) -> str:
    """Where the first damage of a set is, in words."""
    name = file_name(damaged.slot, damaged.file)
    where = f"file {damaged.file} ({name}, {file_kind(damaged.file)}) at {damaged.offset}"
    content = store.files.get(name)
    if content is None:
        return f"{where}: the file is missing"
    lengths = _lengths(store.content(damaged.slot, 0))
    if 1 <= damaged.file <= len(lengths) and len(content) != lengths[damaged.file - 1]:
        return f"{where}: the file has {len(content):,} bytes in place of {lengths[damaged.file - 1]:,}"
    if damaged.offset == len(content):
        return f"{where}: the file ends too early, or breaks a condition on the whole of it"
    return f"{where}: {_field_at(damaged.file, content, damaged.offset)}"


def spelled(store: Store, slot: int) -> Machine | str:
    """The state that a slot's set spells, or its first damage in words."""
    try:
        return store.get_machine(slot)
    except SetDamaged as damaged:
        return damage_text(store, damaged)


def _readable_lines(store: Store, slot: int, registers: bool) -> list[str]:
    """What the files hold by their layout, where they spell no state."""
    listed = read_listed(store.content(slot, SHARED))
    lines = listed.lines + ([f"{file_name(slot, SHARED)}: {listed.stopped}"] if listed.stopped else [])
    for index, process in enumerate(listed.processes, start=SHARED + 1):
        try:
            read_process(store.content(slot, index), process)
            lines += process_lines(process, registers)
        except Damage as damage:
            what = f"no image of process {process.number} from {damage.offset} on"
            lines.append(f"{file_name(slot, index)}: {what}")
    return lines


def _slot_lines(store: Store, slot: int, registers: bool) -> list[str]:
    lines = [f"slot {slot}: {_standing(store, slot)}"]
    if not store.content(slot, 0):
        return lines
    lines += _file_lines(store, slot)
    if store.content(slot, 0)[0] != OPEN_GATE:
        return lines
    found = spelled(store, slot)
    if isinstance(found, str):
        lines += [f"  first damage: {found}", "  what can be read all the same, whatever the fields hold:"]
        return lines + [f"    {line}" for line in _readable_lines(store, slot, registers)]
    return lines + [f"  {line}" for line in state_lines(found, registers)]


def set_lines(folder: Path, registers: bool) -> list[str]:
    """All that a folder of sets holds."""
    store = read_folder(folder)
    lines, named = [], set()
    for slot in SLOTS:
        lines += _slot_lines(store, slot, registers)
        named |= {file_name(slot, index) for index in range(len(_lengths(store.content(slot, 0))) + 1)}
    others = sorted(set(store.files) - named)
    return [*lines, f"files that no manifest names: {', '.join(others)}"] if others else lines
