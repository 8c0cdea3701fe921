"""Sets that are damaged, or changed to those of other states."""

import random
import struct
from collections.abc import Callable

from comparing.crowded import LAST_FILE, LAST_NUMBER, crowded, lists_of, pieces_of, value_of
from comparing.set_fields import LIMITS, Entries, Field, fields_of

Sets = dict[str, bytes]
EDGES = [0, 1, 2, 3, 4, 7, 8, 9, 15, 16, 63, 64, 65, 128, 129, 130, 255, 256, 257, 2048, 2049, 4095, 4096, 39999, 40000,
         40001, 0x400, 0x800, 0xC02, 0x402, 0x3FFFFFFF, 0x40000000, 0x40000001, 0x7FFFFFFE, 0x7FFFFFFF, 0x80000000,
         0x80000001, 0x80000FFE, 0xFFFFFFFE, 0xFFFFFFFF]
WIDE_EDGES = [2**32, 2**63, 2**64 - 3, 2**64 - 2, 2**64 - 1]
MANIFEST, SHARED, PROCESS = 0, 1, 2
MOST_FILES = 129
SHARED_BYTES = 100  # that a shared image has at least


def name_of(slot: int, index: int) -> str:
    return f"s{slot}_{index}.img"


def generation(sets: Sets, slot: int) -> int:
    """The generation in a slot's manifest, or -1 where it doesn't count."""
    head = sets.get(name_of(slot, MANIFEST), b"")[:16]
    return int.from_bytes(head[8:], "little") if len(head) == 16 and head[0] == 1 else -1


def counting_slot(sets: Sets) -> int:
    return 1 if generation(sets, 1) > generation(sets, 0) else 0


def indices(sets: Sets, slot: int) -> range:
    """The files behind the manifest that it names."""
    count = int.from_bytes(sets.get(name_of(slot, MANIFEST), b"")[16:20], "little")
    return range(SHARED, SHARED + min(count, MOST_FILES))


def with_lengths(sets: Sets, slot: int) -> Sets:
    """The same with the files' lengths put into the slot's manifest."""
    manifest = sets.get(name_of(slot, MANIFEST), b"")
    lengths = [len(sets.get(name_of(slot, index), b"")) for index in indices(sets, slot)]
    head = manifest[:20]
    return {**sets, name_of(slot, MANIFEST): head + b"".join(n.to_bytes(8, "little") for n in lengths)}


def pick_file(rng: random.Random, sets: Sets, slot: int) -> int:
    """A file of the slot: the shared image as often as all images of processes together."""
    processes = [index for index in indices(sets, slot)[1:] if name_of(slot, index) in sets]
    there = [index for index in (MANIFEST, SHARED, SHARED) if name_of(slot, index) in sets]
    return rng.choice(there + [rng.choice(processes)] * 2 if processes else there)


def put(content: bytes, at: int, new: bytes) -> bytes:
    return content[:at] + new + content[at + len(new):]


def change_byte(rng: random.Random, content: bytes, index: int) -> bytes:
    """Changes a byte: one of a field half of the time."""
    if not content:
        return b"\x00"
    at = rng.randrange(len(content))
    if rng.random() < 0.7:
        field = rng.choice(fields_of(index, content).fields)
        at = min(field.at + rng.randrange(field.size), len(content) - 1)
    return put(content, at, bytes([content[at] ^ 1 << rng.randrange(8)]))


def cut_short(rng: random.Random, content: bytes, index: int) -> bytes:
    fields = [field.at for field in fields_of(index, content).fields]
    return content[:rng.choice([rng.randrange(len(content) + 1), rng.choice(fields), len(content) - 1, 0])]


def lengthen(rng: random.Random, content: bytes, index: int) -> bytes:
    return content + rng.randbytes(rng.choice([1, 4, 8, 100]))


def beside_others(rng: random.Random, content: bytes, fields: list[Field]) -> int:
    """What another field of the same kind holds, or a number beside it."""
    other = rng.choice(fields)
    return value_of(content, other) + rng.choice([0, 0, 1, -1])


def edge_for(rng: random.Random, old: int, size: int, kind: str = "") -> int:
    """An edge value: one of the field's own as often as any."""
    edges = EDGES + WIDE_EDGES if size == 8 else EDGES
    if kind in LIMITS and rng.random() < 0.7:
        return rng.choice(LIMITS[kind])
    return rng.choice([*edges, old + 1, old - 1, old ^ 0x80000000, rng.getrandbits(32)]) & (1 << 8 * size) - 1


def kind_of(field: Field) -> str:
    """The field's name without the number of a register."""
    return field.name.rstrip("0123456789")


def set_field(rng: random.Random, content: bytes, index: int) -> bytes:
    """Sets a field to an edge value. Fields of one kind are as likely together as one of another kind."""
    fields = fields_of(index, content).fields
    kinds = sorted({kind_of(field) for field in fields})
    limited = [kind for kind in kinds if kind in LIMITS]
    kind = rng.choice(limited if limited and rng.random() < 0.6 else kinds)
    alike = [field for field in fields if kind_of(field) == kind]
    field: Field = rng.choice(alike)
    if len(alike) > 1 and rng.random() < 0.4:
        new = beside_others(rng, content, alike)
    else:
        new = edge_for(rng, value_of(content, field), field.size, kind)
    new &= (1 << 8 * field.size) - 1
    return put(content, field.at, new.to_bytes(field.size, "little"))


def change_list(rng: random.Random, content: bytes, index: int) -> bytes:
    """Drops an entry of a list, doubles it, or swaps two of them; the count follows."""
    lists = [entries for entries in fields_of(index, content).lists if entries.entries]
    if not lists:
        return set_field(rng, content, index)
    names = sorted({entries.name for entries in lists})
    name = rng.choice(names)
    entries: Entries = rng.choice([entries for entries in lists if entries.name == name])
    pieces = [content[start:end] for start, end in entries.entries]
    behind = content[entries.entries[-1][1]:]
    chosen = rng.randrange(len(pieces))
    match rng.randrange(4):
        case 0:
            pieces.pop(chosen)
        case 1:
            pieces.insert(chosen, pieces[chosen])
        case 2:
            first = edge_for(rng, int.from_bytes(pieces[-1][:4], "little"), 4)
            pieces.append(put(pieces[-1], 0, first.to_bytes(4, "little")))
        case _:
            other = rng.randrange(len(pieces))
            pieces[chosen], pieces[other] = pieces[other], pieces[chosen]
    return content[:entries.count_at] + len(pieces).to_bytes(4, "little") + b"".join(pieces) + behind


CHANGES: list[Callable[[random.Random, bytes, int], bytes]] = [
    change_byte, cut_short, lengthen, set_field, set_field, set_field, set_field, change_list, change_list,
]


def change_file(rng: random.Random, sets: Sets, slot: int) -> Sets:
    """Changes a file of the slot, mostly with the manifest's lengths after it."""
    index = pick_file(rng, sets, slot)
    name = name_of(slot, index)
    changed = {**sets, name: rng.choice(CHANGES)(rng, sets[name], index)}
    if index == MANIFEST:
        return changed
    return with_lengths(changed, slot) if rng.random() < 0.8 else changed


def remove_file(rng: random.Random, sets: Sets, slot: int) -> Sets:
    """Takes a file away, or makes it one without a byte; its length in the manifest is 0 now and then."""
    name = name_of(slot, pick_file(rng, sets, slot))
    left = {key: value for key, value in sets.items() if key != name}
    if rng.random() < 0.3:
        left[name] = b""
    return with_lengths(left, slot) if rng.random() < 0.4 and name_of(slot, MANIFEST) in left else left


def change_gate(rng: random.Random, sets: Sets, slot: int) -> Sets:
    """Shuts the gate, or opens that of the other slot, or sets the generation to an edge."""
    which = rng.choice([slot, 1 - slot])
    name = name_of(which, MANIFEST)
    manifest = sets.get(name, b"")
    if rng.random() < 0.5:
        return {**sets, name: put(manifest, 0, bytes([rng.choice([0, 0, 1, 2, 255])]))}
    value = rng.choice([0, 1, generation(sets, 1 - which) & 2**64 - 1, 2**32, *WIDE_EDGES])
    return {**sets, name: put(manifest.ljust(8, b"\0"), 8, value.to_bytes(8, "little"))}


def swap_slots(rng: random.Random, sets: Sets, slot: int) -> Sets:
    """Swaps the slots' files, some of them or all, and adds a file that no manifest names."""
    moved = dict(sets)
    there = [MANIFEST, *indices(sets, slot)]
    for index in rng.sample(there, rng.randint(1, len(there))):
        a, b = name_of(0, index), name_of(1, index)
        if a in sets and b in sets:
            moved[a], moved[b] = sets[b], sets[a]
    moved[rng.choice([name_of(slot, 3), "s0_01.img", "notes"])] = b"no image"
    return moved


def few_numbers(rng: random.Random, sets: Sets, slot: int) -> Sets:
    """Leaves few numbers, or none, for new threads and processes, and perhaps for new files."""
    name = name_of(slot, SHARED)
    threads = LAST_NUMBER - rng.choice([0, 0, 1, 2])
    files = LAST_FILE - rng.choice([0, 0, 1]) if rng.random() < 0.5 else int.from_bytes(sets[name][12:16], "little")
    return {**sets, name: put(sets[name], 8, struct.pack("<II", threads, files))}


def file_more_or_less(rng: random.Random, sets: Sets, slot: int) -> Sets:
    """Names a file of a process more, or one less, in the manifest."""
    name, last = name_of(slot, MANIFEST), len(indices(sets, slot))
    count = max(1, last + rng.choice([-1, 1]))
    more = {name_of(slot, count): sets.get(name_of(slot, last), b"")} if count > last else {}
    return with_lengths({**sets, **more, name: put(sets[name], 16, count.to_bytes(4, "little"))}, slot)


def set_named(content: bytes, index: int, name: str, which: int, value: int) -> bytes:
    """Sets one of the fields of a name."""
    fields = [field for field in fields_of(index, content).fields if field.name == name]
    if which >= len(fields):
        return content
    return put(content, fields[which].at, value.to_bytes(fields[which].size, "little"))


def odd_signals(rng: random.Random, sets: Sets, slot: int) -> Sets:
    """Has signals pending for the process and perhaps for a thread, and an action on one of them that no call sets."""
    signal = rng.choice([9, 9, 9, *range(1, 32)])
    pending = rng.choice([1 << signal - 1, 1 << signal - 1, 1 << signal - 1 | rng.getrandbits(31)])
    which = rng.randrange(max(1, len(indices(sets, slot)) - 1))
    shared, process = name_of(slot, SHARED), name_of(slot, PROCESS + which)
    changed = {**sets, shared: set_named(sets[shared], SHARED, "process.pending", which, pending)}
    if rng.random() < 0.5:
        changed[shared] = set_named(changed[shared], SHARED, "thread.pending", rng.randrange(which + 1), pending)
    if rng.random() < 0.6 and process in sets:
        handler = rng.choice([0, 1, 1, 0x80000000])
        changed[process] = set_named(sets[process], PROCESS, "action.handler", signal - 1, handler)
    return changed


def odd_descriptions(rng: random.Random, sets: Sets, slot: int) -> Sets:
    """Adds a further description of a console with other flags or another owner, and mostly has a descriptor of its
    maker refer to it."""
    name = name_of(slot, SHARED)
    shared = sets[name]
    listed = next(entries for entries in fields_of(SHARED, shared).lists if entries.name == "description")
    if not listed.entries:
        return sets
    start, end = listed.entries[-1]
    pid, num = struct.unpack("<II", shared[start:start + 8])
    flags, owner = rng.choice(LIMITS["description.flags"]), rng.choice([0, 0, 0, 40000, 40001])
    new = struct.pack("<IIBII", pid, num + 1 & 2**32 - 1, 0, flags, owner)
    shared = put(shared, listed.count_at, (len(listed.entries) + 1).to_bytes(4, "little"))
    shared = shared[:end] + new + shared[end:]
    pids = [value_of(shared, field) for field in fields_of(SHARED, shared).fields if field.name == "process.pid"]
    which = pids.index(pid) if pid in pids else 0
    shared = set_named(shared, SHARED, "process.made", which, num + rng.choice([0, 1, 2, 2, 2, 2, 3]) & 2**32 - 1)
    if rng.random() < 0.8:
        place = rng.randrange(len(pids) * 3 or 1)
        shared = set_named(shared, SHARED, "descriptor.pid", place, pid)
        shared = set_named(shared, SHARED, "descriptor.num", place, num + 1 & 2**32 - 1)
    return with_lengths({**sets, name: shared}, slot)


def nobody_lives(rng: random.Random, sets: Sets, slot: int) -> Sets:
    """A set of no process: of its state the files that have names are left."""
    name = name_of(slot, SHARED)
    files = [piece for piece in pieces_of(sets[name], lists_of(sets[name], "file")[0]) if piece[4:6] != b"\0\0"]
    head = sets[name][:16] + len(files).to_bytes(4, "little")
    manifest = sets[name_of(slot, MANIFEST)][:16] + (1).to_bytes(4, "little")
    return with_lengths({**sets, name_of(slot, MANIFEST): manifest, name: head + b"".join(files) + bytes(12)}, slot)


def little_left(rng: random.Random, sets: Sets, slot: int) -> Sets:
    """Leaves little of something that has a limit."""
    name = name_of(slot, SHARED)
    return with_lengths({**sets, name: crowded(rng, sets[name])}, slot)


def with_little_left(rng: random.Random, sets: Sets) -> Sets:
    """The sets with little left of something in the one that counts."""
    slot = counting_slot(sets)
    return little_left(rng, sets, slot) if name_of(slot, SHARED) in sets else sets


def with_other_field(rng: random.Random, sets: Sets) -> Sets:
    """The sets with another number in a field of the shared image that counts."""
    name = name_of(counting_slot(sets), SHARED)
    return {**sets, name: set_field(rng, sets[name], SHARED)} if name in sets else sets


def damaged(rng: random.Random, sets: Sets) -> Sets:
    """The sets with one or two changes, mostly to the set that counts."""
    for _ in range(rng.choice([1, 1, 1, 2])):
        slot = counting_slot(sets)
        if name_of(slot, MANIFEST) not in sets or rng.random() < 0.05:
            slot = 1 - slot
        if name_of(slot, MANIFEST) not in sets:
            return sets
        kinds = [change_file] * 8 + [remove_file, change_gate, swap_slots, file_more_or_less]
        if name_of(slot, SHARED) in sets and len(sets[name_of(slot, SHARED)]) > SHARED_BYTES:
            kinds += [few_numbers, odd_signals, odd_signals, odd_descriptions, odd_descriptions,
                      little_left, nobody_lives]
        sets = rng.choice(kinds)(rng, sets, slot)
    return sets
