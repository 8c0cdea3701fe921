"""A guest under way: its text and data so far, and the words for a call, a mark and a new thread."""

import random
from collections.abc import Callable
from dataclasses import dataclass

from guests.assembler import Assembler
from guests.events import MAGIC, Mark, Tag, tag_of
from guests.layout import DATA_BYTES, LINK, Layout, Pool
from riscv import ECALL, Segment, elf_file, immediate_word, load_word, register_word, store_word, words_of

RA, SP, TP, A0, A7 = 1, 2, 4, 10, 17
AREA, TAG, VALUE, T1, T2 = 27, 28, 29, 30, 31
FREE = [r for r in range(1, AREA) if r != LINK]  # the registers that random instructions write
ARGUMENTS = range(A0, A0 + 6)
FIRST_PROCESS = 40000
AREAS, AREA_BYTES, SCRATCH_BYTES, FUTEX_WORDS = 12, 1024, 256, 6


class Area:
    """Where things stand in a thread's area."""

    NEXT, CHECKSUM, TID, RECOVERY, FAULT, DEPTH, LEFT = 0, 4, 8, 12, 16, 20, 24
    BYTES = 64  # 64 bytes for what calls write
    BLOCK = 128
    RECORDS = BLOCK + 16
    END = AREA_BYTES - 8


@dataclass(frozen=True)
class Place:
    """Where a program of a job runs: its process and its host, and where programs of the job may listen."""

    process: int = FIRST_PROCESS
    host: int = 0
    servers: tuple[tuple[int, int], ...] = ((0, 80),)


@dataclass
class Word:
    """The word at an address, and something added."""

    address: int
    plus: int = 0


@dataclass
class Own:
    """A word of the thread's area."""

    offset: int


@dataclass
class OwnPlace:
    """A place in the thread's area."""

    offset: int


@dataclass
class Label:
    """The place of a label."""

    name: str


@dataclass
class Register:
    """What a register holds."""

    number: int


Operand = int | Word | Own | OwnPlace | Label | Register


@dataclass
class Later:
    """Code that is put behind what stands before it."""

    label: str
    area: int
    body: Callable[[], None]


class Guest:
    """The guest that is being made."""

    def __init__(self, rng: random.Random, layout: Layout, place: Place) -> None:
        self.rng = rng
        self.layout = layout
        self.place = place
        self.text = Assembler(layout.text)
        self.data = Pool(layout.data, DATA_BYTES)
        self.areas = [self._place_area(i) for i in range(AREAS)]
        self.scratch = self.data.place(rng.randbytes(SCRATCH_BYTES))
        self.futexes = [self.data.word(rng.choice([0, 0, 1, rng.getrandbits(32)])) for _ in range(FUTEX_WORDS)]
        self.heap = self.data.word()  # the break when the guest began
        self.order = self.data.word()  # how many threads were woken
        self.later: list[Later] = []
        self.descriptors: list[int] = []  # words that hold descriptors, or -1
        self.forks_left = 6
        self.areas_used = 1
        self.instructions_left = 60_000  # that loops may still run
        self.console_left = 3  # calls that may still write much
        self.nested_signal = rng.choice([10, 12, 14, 29])  # what a handler sends that sends one

    def _place_area(self, index: int) -> int:
        area = self.data.place(b"", 16)
        block = words_of([MAGIC, 0, 0, index])
        head = words_of([area + Area.RECORDS, index])
        return self.data.place((head + bytes(Area.BLOCK - len(head)) + block).ljust(AREA_BYTES, b"\0"))

    # operands

    def put_operand(self, register: int, operand: Operand) -> None:
        match operand:
            case int():
                self.text.number(register, operand)
            case Word(address, plus):
                self.text.number(register, address)
                self.text.put(load_word("lw", register, 0, register))
                if plus:
                    self.add(register, plus)
            case Own(offset):
                self.text.put(load_word("lw", register, offset, AREA))
            case OwnPlace(offset):
                self.text.put(immediate_word("addi", register, AREA, offset))
            case Label(name):
                self.text.address(register, name)
            case Register(number):
                self.text.copy(register, number)

    def add(self, register: int, value: int) -> None:
        """Adds a number to a register. Large numbers are added in pieces, through T2."""
        if -2048 <= value < 2048:
            self.text.put(immediate_word("addi", register, register, value))
            return
        self.text.number(T2, value)
        self.text.put(register_word("add", register, register, T2))

    def store(self, place: Operand, value: Operand) -> None:
        """Stores a word, through T1 and T2."""
        self.put_operand(T1, value)
        self.put_operand(T2, place)
        self.text.put(store_word("sw", T1, 0, T2))

    # calls and records

    def ask(self, number: int, *arguments: Operand) -> None:
        """Makes a call, and keeps no record of it."""
        for register, operand in zip(ARGUMENTS, arguments):
            self.put_operand(register, operand)
        self.text.number(A7, number)
        self.text.put(ECALL)

    def call(self, number: int, *arguments: Operand, variant: int = 0) -> None:
        """Makes a call, and keeps its answer in a record."""
        self.ask(number, *arguments)
        self.record(tag_of(Tag.CALL, min(number, 0xFFFF), variant), Register(A0))

    def mark(self, mark: Mark, value: Operand = 0) -> None:
        self.record(tag_of(Tag.MARK, mark), value)

    def record(self, tag: int, value: Operand) -> None:
        self.put_operand(VALUE, value)
        self.text.number(TAG, tag)
        self.text.jump("record", LINK)

    def flush(self) -> None:
        """Writes the records so far to the console, through any of the three descriptors."""
        self.text.number(A0, self.rng.choice([1, 1, 2, 0]))
        self.text.jump("flush", LINK)

    # threads

    def new_area(self) -> int:
        """The area of a further thread. The last one is shared by all that come too late."""
        index = min(self.areas_used, AREAS - 1)
        self.areas_used += 1
        return self.areas[index]

    def put_later(self, stem: str, area: int, body: Callable[[], None]) -> str:
        """Takes down code for a thread with this area, and gives its label."""
        label = self.text.fresh(stem)
        self.later.append(Later(label, area, body))
        return label

    def put_all_later(self) -> None:
        while self.later:
            piece = self.later.pop(0)
            self.text.label(piece.label)
            self.text.number(AREA, piece.area)
            piece.body()

    def takes_instructions(self, count: int) -> bool:
        """Whether a loop may run so many, which are then taken off."""
        if count > self.instructions_left:
            return False
        self.instructions_left -= count
        return True

    def file(self, strip: list[Segment]) -> bytes:
        """The guest's file."""
        text = self.text.finish()
        segments = [
            Segment(self.layout.text, self.layout.text_rights, text),
            Segment(self.layout.data, self.layout.data_rights, bytes(self.data.content), DATA_BYTES),
            *strip,
        ]
        self.rng.shuffle(segments)
        return elf_file(self.text.labels["start"], segments)
