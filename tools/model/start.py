"""The state before the first record (docs/MACHINE.md, "The start")."""

from dataclasses import dataclass

from .bits import words_bytes
from .elf import Program
from .memory import EXECUTE, PAGE_SHIFT, PAGE_SIZE, READ, WRITE, Memory, blank_page, page_up
from .objects import READ_AND_WRITE, Description, DescriptionName, File
from .state import FIRST_NUMBER, SP, Descriptor, Machine, Process, Thread

STACK_START = 0x7FFC0000
STACK_END = 0x80000000
RETURN_PAGE = STACK_END >> PAGE_SHIFT
RETURN_ADDRESS = STACK_END
RETURN_CODE = words_bytes([0x08B00893, 0x00000073])
"""`addi a7, x0, 139` and `ecall`, to which a signal handler returns."""
STANDARD_DESCRIPTORS = (0, 1, 2)
FIRST_FILE = 1


def _load(program: Program) -> Memory:
    """Segments, break, stack and the page to which handlers return."""
    end = max(segment.end() for segment in program.segments)
    break_start = page_up(end) << PAGE_SHIFT
    memory = Memory(break_start, break_start)
    for number, rights in program.page_rights.items():
        memory.pages[number] = blank_page(rights)
    for segment in program.segments:
        memory.poke(segment.address, segment.data)
    for number in range(STACK_START >> PAGE_SHIFT, STACK_END >> PAGE_SHIFT):
        memory.pages[number] = blank_page(READ | WRITE)
    memory.pages[RETURN_PAGE] = blank_page(READ | EXECUTE)
    memory.poke(RETURN_ADDRESS, RETURN_CODE)
    return memory


def _put_arguments(memory: Memory, arguments: tuple[bytes, ...]) -> int:
    """Strings and words on the stack; gives `sp`."""
    text = b"".join(argument + b"\0" for argument in arguments)
    place = STACK_END - len(text)
    memory.poke(place, text)
    pointers = []
    for argument in arguments:
        pointers.append(place)
        place += len(argument) + 1
    words = words_bytes([len(arguments), *pointers, 0, 0, 0, 0])
    sp = (STACK_END - len(text) - len(words)) & ~15
    memory.poke(sp, words)
    return sp


@dataclass(frozen=True)
class Word:
    """A word of a job: a program, its argument strings, the name first, and the host on which it runs."""

    program: Program
    arguments: tuple[bytes, ...]
    host: int = 0


def _process(word: Word, number: int) -> Process:
    """A process with one thread of its own number, and its console on its descriptors."""
    memory = _load(word.program)
    thread = Thread(number, pc=word.program.entry)
    thread.regs[SP] = _put_arguments(memory, word.arguments)
    console = DescriptionName(number, 0)
    descriptors = {place: Descriptor(console) for place in STANDARD_DESCRIPTORS}
    return Process(number, memory, host=word.host, threads={number: thread}, descriptors=descriptors)


def start_job(words: list[Word], files: tuple[File, ...] = ()) -> Machine:
    """A process for each word, in their order, each with a console description of its own, and files from 1 on."""
    processes = {number: _process(word, number) for number, word in enumerate(words, start=FIRST_NUMBER)}
    consoles = {DescriptionName(number, 0): Description(READ_AND_WRITE) for number in processes}
    numbered = dict(enumerate(files, start=FIRST_FILE))
    return Machine(FIRST_NUMBER + len(words), FIRST_FILE + len(files), processes, consoles, numbered)


def whole_page(content: bytes) -> bytes:
    """A page's content that begins so, with zeros behind it."""
    return content + bytes(PAGE_SIZE - len(content))
