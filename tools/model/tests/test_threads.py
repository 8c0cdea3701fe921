"""Threads, futexes, signals, rounds and memory, by small guests (docs/MACHINE.md)."""

import unittest
from collections.abc import Iterator

from ..alu import div, mulh, mulhsu, mulhu, rem, sra
from ..decode import BY_OPCODE, decode
from ..memory import READ, WRITE, Memory, blank_page
from ..session import Outcome, run
from ..traps import Trap
from .guests import A0, A1, A7, BASE, DATA, EBREAK, ECALL, S0, T0, addi, branch, call, elf, li, load_word, store_word
from .guests import write_word

MAIN, CHILD = 40000, 40001
THREAD = 0x10F00
CLEAR = 0x200000
USER, CALL, DELIVER = 1, 2, 3


def launch(words: list[int], *options: str) -> Outcome:
    """Runs a guest of these words."""
    return run(["launch", *options, "0:g"], {"g": elf(words)}, {})


def records(outcome: Outcome) -> Iterator[list[int]]:
    """Kind, signal, thread and count of each record."""
    for place in range(0, len(outcome.trace or b""), 16):
        record = outcome.trace[place : place + 16]
        yield [record[0], record[1], int.from_bytes(record[8:12], "little"), int.from_bytes(record[12:], "little")]


def words_of(outcome: Outcome) -> list[int]:
    """What was written, as words."""
    text = outcome.console
    return [int.from_bytes(text[place : place + 4], "little") for place in range(0, len(text), 4)]


def answers(*calls: list[int]) -> list[int]:
    """The answers of calls one after the other, as signed numbers."""
    words = [word for one in calls for word in [*one, *write_word(A0)]]
    found = words_of(launch([*words, *call(94, 0)]))
    return [answer - 2**32 if answer >> 31 else answer for answer in found]


class Calls(unittest.TestCase):
    """Answers and errors in order."""

    def test_errors(self) -> None:
        bad = 0x30000
        self.assertEqual(answers(call(64, 1, bad, 1), call(64, 9, bad, 1), call(64, 9, DATA, 1)), [-14, -14, -9])
        self.assertEqual(answers(call(63, 0, bad, 1), call(63, 0, DATA, 1), call(999)), [-14, 0, -38])
        self.assertEqual(answers(call(98, bad, 0), call(98, DATA + 2, 0), call(98, DATA, 2)), [-14, -22, -38])
        self.assertEqual(answers(call(98, DATA, 0, 1), call(98, DATA, 0, 0, 1), call(98, bad, 129, 1)), [-11, -22, 0])
        found = answers(call(134, 9, DATA, 0, 8), call(134, 9, 0, 0, 8), call(134, 32, 0, 0, 8))
        self.assertEqual(found, [-22, 0, -22])
        self.assertEqual(answers(call(131, MAIN, 7, 0), call(131, MAIN, MAIN, 19), call(131, 0, 0, 0)), [-3, -22, -22])
        self.assertEqual(answers(call(220, 18), call(220, 0x100), call(220, 0x100000 | 17, 0, bad)), [-22, -22, -14])
        self.assertEqual(answers(call(135, 3, 0, 0, 8), call(139), call(178), call(96, 0)), [-22, -22, MAIN, MAIN])

    def test_memory(self) -> None:
        found = answers(call(214, 0), call(214, 0x21001), call(214, 0x50000000), call(222, 0, 4097, 3, 0x22))
        self.assertEqual(found, [0x21000, 0x21001, 0x21001, 0x40000000])
        found = answers(call(222, 0, 1, 8, 0x22), call(222, 0, 0xFFFFFFFF, 0, 0x22), call(215, 0x40000000, 1))
        self.assertEqual(found, [-22, -12, 0])
        self.assertEqual(answers(call(215, 0x40000001, 1), call(215, 0x6FFFF000, 4097)), [-22, -22])


class Waits(unittest.TestCase):
    """Futexes and threads."""

    def test_stuck(self) -> None:
        outcome = launch(call(98, DATA, 0, 0, 0), "--every", "2")
        self.assertEqual((outcome.status, outcome.log.splitlines()[-1]), (19, b"stuck"))
        after = run(["restart"], {}, outcome.sets)
        self.assertEqual((after.status, after.log, after.trace), (19, b"stuck\n", None))

    def test_exit_wakes(self) -> None:
        make = call(220, THREAD | CLEAR | 0x1000000, 0, 0, 0, DATA)
        child_ends = call(93, 0)
        wait = [*li(T0, DATA), load_word(12, T0, 0), *li(A0, DATA), *li(A1, 0), *li(13, 0), *li(A7, 98), ECALL]
        words = [*make, branch(1, A0, 0, 4 + 4 * len(child_ends)), *child_ends, *wait, *write_word(A0), *call(94, 0)]
        outcome = launch(words)
        self.assertEqual((outcome.status, words_of(outcome)), (0, [0]))
        shape = [record[::2] for record in records(outcome)][:6]
        self.assertEqual(shape[:2], [[USER, MAIN], [CALL, MAIN]])
        # The child was made in the first round, so its turn comes in the second one, after the wait.
        self.assertEqual(shape[2:], [[USER, MAIN], [CALL, MAIN], [USER, CHILD], [CALL, CHILD]])

    def test_quanta(self) -> None:
        outcome = launch([branch(0, 0, 0, 0)], "--records", "3")
        self.assertEqual(list(records(outcome)), [[USER, 0, MAIN, 4096]] * 3)
        self.assertEqual((outcome.status, outcome.log), (18, b"budget spent: 3 records\n"))

    def test_call_after_a_whole_quantum(self) -> None:
        loop = [*li(T0, 2046), addi(T0, T0, -1), branch(1, T0, 0, -4)]
        outcome = launch([*loop, *li(A7, 94), ECALL])
        self.assertEqual(list(records(outcome)), [[USER, 0, MAIN, 4096], [CALL, 0, MAIN, 0]])


class Signals(unittest.TestCase):
    """Deliveries and handlers."""

    def with_handler(self, signal: int, flags: int, then: list[int]) -> list[int]:
        """A guest whose handler writes its signal and returns."""
        put = [*li(T0, DATA), *li(S0, 0), store_word(S0, T0, 0), *li(S0, flags), store_word(S0, T0, 4)]
        act = call(134, signal, DATA, 0, 8)
        handler = [addi(9, 1, 0), *write_word(A0), addi(1, 9, 0), 0x00008067]
        body = [*put, *act, *then]
        place = BASE + 4 * len(body)
        body[2:4] = li(S0, place)
        return [*body, *handler]

    def test_handler(self) -> None:
        send = call(131, MAIN, MAIN, 10)
        outcome = launch(self.with_handler(10, 0, [*send, *write_word(A0), *call(94, 0)]))
        self.assertEqual((outcome.status, words_of(outcome)), (0, [10, 0]))
        self.assertIn([DELIVER, 10, MAIN, 0], list(records(outcome)))

    def test_trap_in_handler_table(self) -> None:
        outcome = launch(self.with_handler(5, 0, [EBREAK]), "--records", "9")
        self.assertEqual((outcome.status, words_of(outcome)[:1]), (18, [5]))
        kinds = [record[:2] for record in records(outcome)]
        self.assertEqual(kinds[:4], [[USER, 0], [CALL, 0], [DELIVER, 5], [USER, 0]])

    def test_ends(self) -> None:
        for words, signal in [([EBREAK], 5), ([0], 4), ([load_word(5, 0, 0)], 11), (branch(0, 0, 0, 2), 7)]:
            outcome = launch(words if isinstance(words, list) else [words])
            self.assertEqual((outcome.status, list(records(outcome))), (0, [[DELIVER, signal, MAIN, 0]]))

    def interrupted(self, flags: int) -> Outcome:
        """The child sends a signal to the first thread, which waits."""
        child = [*call(131, MAIN, MAIN, 10), *call(93, 0)]
        make = call(220, THREAD)
        main = [*call(98, DATA + 64, 0, 0, 0), *write_word(A0), *call(94, 0)]
        words = self.with_handler(10, flags, [*make, branch(1, A0, 0, 4 + 4 * len(child)), *child, *main])
        return launch(words, "--records", "40")

    def test_interrupted_wait(self) -> None:
        outcome = self.interrupted(0)
        self.assertEqual((outcome.status, words_of(outcome)), (0, [10, 2**32 - 4]))

    def test_wait_begins_again(self) -> None:
        outcome = self.interrupted(0x10000000)
        self.assertEqual((outcome.status, words_of(outcome)), (19, [10]))


class Restarts(unittest.TestCase):
    """A run that is cut off and goes on writes what the whole run writes."""

    def test_each_cut(self) -> None:
        words = [word for value in range(5) for word in [*li(S0, value), *write_word(S0)]]
        whole = launch([*words, *call(94, 0)])
        for room in range(3, 30, 3):
            cut = launch([*words, *call(94, 0)], "--every", "1", "--records", str(room))
            after = run(["restart", "--every", "1"], {}, cut.sets)
            self.assertEqual(cut.console + after.console, whole.console)


class Accesses(unittest.TestCase):
    """Loads and stores of each size, without alignment, in two pages and past the end."""

    def memory(self) -> Memory:
        return Memory(0, 0, {1: blank_page(READ | WRITE), 2: blank_page(READ | WRITE), 3: blank_page(READ)})

    def step(self, memory: Memory, word: int, base: int, value: int = 0) -> int:
        """Runs one instruction with `rs1` x5 and `rs2` or `rd` x6; gives x6."""
        regs = [0] * 33
        regs[5], regs[6] = base, value
        decode(word)(regs, memory, 0)
        return regs[6]

    def test_sizes(self) -> None:
        memory = self.memory()
        self.step(memory, 6 << 20 | 5 << 15 | 2 << 12 | 0x23, 0x1FFE, 0x8182F384)
        loads = {0: 0xFFFFFF84, 1: 0xFFFFF384, 2: 0x8182F384, 4: 0x84, 5: 0xF384}
        for funct3, value in loads.items():
            self.assertEqual(self.step(memory, 5 << 15 | funct3 << 12 | 6 << 7 | 0x03, 0x1FFE), value)

    def test_all_or_none(self) -> None:
        memory = self.memory()
        for base in (0x2FFE, 0xFFE, 0xFFFFFFFE):
            with self.assertRaises(Trap):
                self.step(memory, 6 << 20 | 5 << 15 | 2 << 12 | 0x23, base, 0xFFFFFFFF)
        self.assertTrue(all(not any(page.data) for page in memory.pages.values()))

    def test_which_words_are_instructions(self) -> None:
        words = {0x0000100F: False, 0xFFFF8F8F: True, 0x00001067: False, 0x00003003: False, 0x00003023: False}
        words |= {0x40001013: False, 0x40005013: True, 0x02005013: False, 0x02000033: True, 0x40001033: False}
        words |= {0x00002063: False, 0x00000001: False, 0x00200073: False, 0x10000073: False, 0x04000033: False}
        words |= {EBREAK: True}
        for word, known in words.items():
            found = 0x73 if word == EBREAK else word & 0x7F
            self.assertEqual(BY_OPCODE.get(found, lambda _: None)(word) is not None, known, hex(word))


class Arithmetic(unittest.TestCase):
    """Edges of the table of instructions."""

    def test_edges(self) -> None:
        least, minus = 0x80000000, 0xFFFFFFFF
        self.assertEqual([div(least, minus), rem(least, minus), div(7, 0), rem(7, 0)], [least, 0, minus, 7])
        self.assertEqual([div(minus - 6, 2), rem(minus - 6, 2)], [minus - 2, minus])
        self.assertEqual([mulh(least, least), mulhsu(minus, minus), mulhu(minus, minus)], [1 << 30, minus, minus - 1])
        self.assertEqual(sra(least, 33), 0xC0000000)


if __name__ == "__main__":
    unittest.main()
