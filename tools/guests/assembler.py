"""Instructions in a row, with labels."""

import enum
from dataclasses import dataclass

from riscv import branch_word, immediate_word, j_type, load_number, words_of


class Kind(enum.Enum):
    """How an instruction names a label."""

    JUMP = enum.auto()
    BRANCH = enum.auto()
    ADDRESS = enum.auto()


@dataclass
class Reference:
    """An instruction that names a label, to be encoded once the label's place is known. Of a jump and of an address
    `first` is the register that it writes; of a branch both are compared."""

    at: int
    kind: Kind
    label: str
    first: int
    second: int = 0
    name: str = ""


class Assembler:
    """The words from an address on."""

    def __init__(self, base: int) -> None:
        self.base = base
        self.words: list[int] = []
        self.labels: dict[str, int] = {}
        self.references: list[Reference] = []
        self.count = 0

    def here(self) -> int:
        """The address of the next word."""
        return self.base + 4 * len(self.words)

    def put(self, *words: int) -> None:
        self.words.extend(words)

    def fresh(self, stem: str) -> str:
        """A label that is not used yet."""
        self.count += 1
        return f"{stem}.{self.count}"

    def label(self, name: str) -> None:
        """Names the next word."""
        if name in self.labels:
            raise ValueError(f"the label {name} stands twice")
        self.labels[name] = self.here()

    def number(self, rd: int, value: int) -> None:
        """Puts a number into a register, by one word where it is small."""
        value &= 0xFFFFFFFF
        if value < 0x800 or value >= 0xFFFFF800:
            self.put(immediate_word("addi", rd, 0, value))
        else:
            self.put(*load_number(rd, value))

    def copy(self, rd: int, rs: int) -> None:
        self.put(immediate_word("addi", rd, rs, 0))

    def jump(self, label: str, link: int = 0) -> None:
        self.references.append(Reference(len(self.words), Kind.JUMP, label, link))
        self.put(0)

    def branch(self, name: str, rs1: int, rs2: int, label: str) -> None:
        self.references.append(Reference(len(self.words), Kind.BRANCH, label, rs1, rs2, name))
        self.put(0)

    def address(self, rd: int, label: str) -> None:
        """Puts the place of a label into a register, always by two words."""
        self.references.append(Reference(len(self.words), Kind.ADDRESS, label, rd))
        self.put(0, 0)

    def finish(self) -> bytes:
        """The bytes, with each label's place filled in."""
        for reference in self.references:
            self._fill(reference)
        return words_of(self.words)

    def _fill(self, reference: Reference) -> None:
        at, target = reference.at, self.labels[reference.label]
        by = target - (self.base + 4 * at)
        if reference.kind is Kind.JUMP:
            self.words[at] = j_type(by, reference.first)
        elif reference.kind is Kind.ADDRESS:
            self.words[at:at + 2] = load_number(reference.first, target)
        elif not -4096 <= by < 4096:
            raise ValueError(f"the branch to {reference.label} is too long")
        else:
            self.words[at] = branch_word(reference.name, reference.first, reference.second, by)
