"""The reading of a process's image (docs/FORMATS.md, "Process image")."""

from .images import PROCESS_MAGIC
from .memory import BREAK_LIMIT, OFFSET_MASK, PAGE_LIMIT, PAGE_SHIFT, PAGE_SIZE, Memory, Page, page_up
from .reader import Damage, Reader
from .signals import CONTEXTS_LIMIT
from .start import RETURN_CODE, RETURN_PAGE, whole_page
from .state import SIGNALS, Action, Context, Process, Thread, Waiter

PAGE_NUMBERS = 1 << 20
ALL_RIGHTS = 7
RETURN_RIGHTS = 5


def _page_allowed(number: int, memory: Memory) -> bool:
    """A page from the break's start on and below 0x40000000 has a byte below the break."""
    address = number << PAGE_SHIFT
    if not memory.break_start <= address < BREAK_LIMIT:
        return number < PAGE_NUMBERS
    return address < memory.break_now


def _rights_allowed(number: int, rights: int) -> bool:
    """To 7; 5 for the page to which handlers return."""
    return rights == RETURN_RIGHTS if number == RETURN_PAGE else rights <= ALL_RIGHTS


def _read_page(reader: Reader, memory: Memory, last: int) -> int:
    """A page above the last one; gives its number."""
    number = reader.word(lambda value: last < value and _page_allowed(value, memory))
    rights = reader.byte(lambda value: _rights_allowed(number, value))
    first = reader.place
    content = reader.field(PAGE_SIZE)
    if number == RETURN_PAGE and content != whole_page(RETURN_CODE):
        raise Damage(first)
    memory.pages[number] = Page(bytearray(content), rights)
    return number


def _read_memory(reader: Reader) -> Memory:
    """Where the break starts and is, and the pages."""
    break_start = reader.word(lambda value: value & OFFSET_MASK == 0 and value <= BREAK_LIMIT)
    break_now = reader.word(lambda value: break_start <= value <= BREAK_LIMIT)
    memory = Memory(break_start, break_now)
    last = -1
    for _ in range(reader.word(lambda count: count <= PAGE_LIMIT)):
        last = _read_page(reader, memory, last)
    return memory


def _read_waiters(reader: Reader, threads: dict[int, Thread]) -> list[Waiter]:
    """Who waits on a word, each thread at most once."""
    found: list[Waiter] = []
    waiting: set[int] = set()
    for _ in range(reader.word()):
        thread = reader.word(lambda value: value in threads and value not in waiting)
        waiting.add(thread)
        found.append(Waiter(thread, reader.word()))
    return found


def _read_words(reader: Reader, count: int) -> list[int]:
    """So many fields of which any value is allowed."""
    return [reader.word() for _ in range(count)]


def _read_thread(reader: Reader, thread: Thread) -> None:
    """The user part of a thread that the shared image names."""
    reader.word(lambda value: value == thread.number)
    thread.regs[1:32] = _read_words(reader, 31)
    thread.pc, thread.mask, thread.clear_word = reader.word(), reader.word(), reader.word()
    for _ in range(reader.word(lambda count: count <= CONTEXTS_LIMIT)):
        regs = _read_words(reader, 31)
        thread.contexts.append(Context(regs, reader.word(), reader.word()))


def _has_its_pages(memory: Memory) -> bool:
    """Each page with a byte from the break's start to below the break is there, and so is the return page."""
    heap = range(memory.break_start >> PAGE_SHIFT, page_up(memory.break_now))
    return RETURN_PAGE in memory.pages and all(number in memory.pages for number in heap)


def read_process(data: bytes, process: Process) -> None:
    """Puts what an image spells into its process; raises its first damage."""
    reader = Reader(data)
    reader.magic(PROCESS_MAGIC)
    reader.word(lambda value: value == process.number)
    process.memory = _read_memory(reader)
    for signal in SIGNALS:
        process.actions[signal] = Action(reader.word(), reader.word(), reader.word())
    process.waiters = _read_waiters(reader, process.threads)
    reader.word(lambda count: count == len(process.threads))
    for number in sorted(process.threads):
        _read_thread(reader, process.threads[number])
    reader.end()
    reader.whole(_has_its_pages(process.memory))
