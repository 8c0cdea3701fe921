"""The rows of processes and signals, and the end of a process (docs/CALLS.md, "Processes and signals")."""

from ..numbers import Errno, Number
from ..signals import Cause, deliver
from ..state import A0, SP, TP, Action, Context, Waiter, Zombie
from .bench import CODE, DATA, FIRST, LOCKED, NOWHERE, SECOND, THIRD, BenchCase, Came

CHILD_SIGNAL = 1 << 16
PARENT_SETTID, CHILD_CLEARTID, CHILD_SETTID = 0x100000, 0x200000, 0x1000000
THREAD, SETTLS = 0x10F00, 0x80000
LAST_NUMBER = 2**31 - 2


class Signals(BenchCase):
    """`kill`, `tgkill`, `getpid` and `getppid`."""

    hosts = (0, 0, 3)

    def test_kill(self) -> None:
        self.assertEqual(self.bench.call(Number.KILL, SECOND, 31), 0)
        self.assertEqual(self.bench.process(SECOND).pending, 1 << 30)
        self.assertEqual((self.bench.call(Number.KILL, FIRST, 0), self.bench.process().pending), (0, 0))
        for pid, signal in ((0, 1), (-1, 1), (1 << 31, 1), (FIRST, 32), (FIRST, 18), (FIRST, 22), (0, 0)):
            self.assertEqual(self.bench.call(Number.KILL, pid, signal), -Errno.EINVAL)
        for pid in (THIRD, 1, FIRST + 9):
            self.assertEqual(self.bench.call(Number.KILL, pid, 0), -Errno.ESRCH)

    def test_tgkill(self) -> None:
        thread = self.bench.new_thread(SECOND)
        self.assertEqual(self.bench.call(Number.TGKILL, SECOND, thread, 1), 0)
        self.assertEqual(self.bench.thread(SECOND, thread).pending, 1)
        self.assertEqual((self.bench.process(SECOND).pending, self.bench.thread(SECOND).pending), (0, 0))
        self.assertEqual(self.bench.call(Number.TGKILL, SECOND, FIRST, 1), -Errno.ESRCH)
        self.assertEqual(self.bench.call(Number.TGKILL, FIRST, thread, 1), -Errno.ESRCH)
        self.assertEqual(self.bench.call(Number.TGKILL, THIRD, THIRD, 1), -Errno.ESRCH)
        self.assertEqual(self.bench.call(Number.TGKILL, THIRD, THIRD, 19), -Errno.EINVAL)

    def test_numbers(self) -> None:
        child = self.bench.fork()
        thread = self.bench.new_thread(child)
        found = [self.bench.call(number, by=child, tid=thread) for number in (Number.GETPID, Number.GETTID)]
        self.assertEqual(found, [child, thread])
        self.assertEqual(self.bench.call(Number.GETPPID), 1)
        self.assertEqual(self.bench.call(Number.GETPPID, by=child), FIRST)
        self.bench.call(Number.EXIT_GROUP, 0)
        self.assertEqual(self.bench.call(Number.GETPPID, by=child), 1)


class Clones(BenchCase):
    """`clone`."""

    def test_forms(self) -> None:
        flags = [0, 17 | SETTLS, 17 | 0x40000, 17 | 0x100, THREAD & ~0x100, THREAD | 17, THREAD | 0x2000, 0x7E000000]
        self.assertEqual({self.bench.call(Number.CLONE, one) for one in flags}, {-Errno.EINVAL})
        self.assertEqual(self.bench.call(Number.CLONE, CHILD_SETTID, 0, 0, 0, NOWHERE), -Errno.EFAULT)

    def test_limits(self) -> None:
        self.bench.machine.next_id = LAST_NUMBER
        self.assertEqual([self.bench.fork(), self.bench.fork()], [LAST_NUMBER, -Errno.EAGAIN])
        self.assertEqual(self.bench.new_thread(), -Errno.EAGAIN)

    def test_threads(self) -> None:
        made = [self.bench.new_thread() for _ in range(64)]
        self.assertEqual(made, [*range(SECOND, SECOND + 63), -Errno.EAGAIN])
        self.assertEqual(self.bench.fork(), SECOND + 63)

    def test_thread(self) -> None:
        thread = self.bench.thread()
        thread.regs[SP], thread.regs[9], thread.mask = 4096, 77, 5
        thread.contexts.append(Context([0] * 31, 0, 0))
        thread.pending = 1
        flags = THREAD | SETTLS | PARENT_SETTID | CHILD_CLEARTID | CHILD_SETTID
        made = self.bench.call(Number.CLONE, flags, 0, DATA, 99, DATA + 4)
        new = self.bench.thread(FIRST, made)
        self.assertEqual((new.regs[A0], new.regs[SP], new.regs[TP], new.regs[9]), (0, 4096, 99, 77))
        found = (new.pc, new.mask, new.pending, new.contexts, new.clear_word)
        self.assertEqual(found, (CODE + 4, 5, 0, [], DATA + 4))
        self.assertEqual(self.bench.words(2), [made, made])

    def test_child(self) -> None:
        process, thread = self.bench.process(), self.bench.thread()
        self.bench.call(Number.EVENTFD2, 0, 0x80000)
        thread.mask, thread.pending, process.pending, thread.clear_word = 5, 1, 2, DATA
        thread.contexts.append(Context([7] * 31, 8, 9))
        process.actions[10] = Action(CODE, 1, 2)
        process.waiters.append(Waiter(self.bench.new_thread(), DATA))
        flags = 17 | PARENT_SETTID | CHILD_SETTID
        number = self.bench.call(Number.CLONE, flags, 4096, DATA, 0, DATA + 4)
        child = self.bench.process(number)
        found = (child.parent, child.host, child.made, child.pending, child.waiters, set(child.threads))
        self.assertEqual(found, (FIRST, 0, 1, 0, [], {number}))
        self.assertEqual((child.actions, child.descriptors), (process.actions, process.descriptors))
        new = self.bench.thread(number)
        self.assertEqual((new.regs[A0], new.regs[SP], new.pc, new.mask), (0, 4096, CODE + 4, 5))
        self.assertEqual((new.contexts, new.pending, new.clear_word), (thread.contexts, 0, 0))
        self.assertEqual((self.bench.words(2), self.bench.words(2, by=number)), ([number, 0], [0, number]))

    def test_a_child_has_its_own_part(self) -> None:
        child = self.bench.fork()
        self.bench.put(b"parent", DATA)
        self.bench.call(Number.CLOSE, 0)
        self.bench.process().actions[1].flags = 9
        self.assertEqual(self.bench.get(6, DATA, child), bytes(6))
        self.assertEqual(set(self.bench.process(child).descriptors), {0, 1, 2})
        self.assertEqual(self.bench.process(child).actions[1].flags, 0)
        self.assertEqual(self.bench.call(Number.EVENTFD2, 0, 0, by=child), 3)
        self.assertEqual(self.bench.process(child).descriptors[3].name.num, 1)

    def test_child_word(self) -> None:
        child = self.bench.call(Number.CLONE, 17 | CHILD_CLEARTID, 0, 0, 0, NOWHERE)
        self.assertEqual(self.bench.thread(child).clear_word, NOWHERE)


class Ends(BenchCase):
    """`exit`, `exit_group`, and what is left of a process."""

    def test_exit(self) -> None:
        other = self.bench.new_thread()
        process, thread = self.bench.process(), self.bench.thread(FIRST, other)
        thread.clear_word = DATA
        self.bench.put(b"\1\1\1\1", DATA)
        waiting = self.bench.ready_at(Number.FUTEX, (DATA, 0, 0x01010101))
        process.waiters.append(Waiter(FIRST, DATA))
        self.assertIs(self.bench.call(Number.EXIT, 5, by=FIRST, tid=other), Came.ENDS)
        found = (self.bench.words(1), process.waiters, waiting.regs[A0], waiting.pc)
        self.assertEqual(found, ([0], [], 0, CODE + 4))
        self.assertEqual(set(process.threads), {FIRST})

    def test_word_that_cannot_be_written(self) -> None:
        other = self.bench.new_thread()
        self.bench.thread(FIRST, other).clear_word = LOCKED
        self.bench.process().waiters.append(Waiter(FIRST, LOCKED))
        self.bench.call(Number.EXIT, 0, by=FIRST, tid=other)
        self.assertEqual((self.bench.words(1, LOCKED), self.bench.process().waiters), ([0], []))

    def test_statuses(self) -> None:
        for code, number in ((0x1FF, Number.EXIT_GROUP), (7, Number.EXIT)):
            child = self.bench.fork()
            self.bench.call(number, code, by=child)
            self.assertEqual(self.bench.machine.zombies[child].status, code % 256 * 256)
        self.assertEqual(self.bench.process().pending, CHILD_SIGNAL)

    def test_ended_by_signals(self) -> None:
        for signal, contexts, status in ((15, 0, 15), (9, 0, 9), (10, 64, 11)):
            child = self.bench.fork()
            process, thread = self.bench.process(child), self.bench.thread(child)
            process.actions[10] = Action(CODE)
            thread.contexts = [Context([0] * 31, 0, 0) for _ in range(contexts)]
            process.pending = 1 << (signal - 1)
            deliver(self.bench.machine, process, thread, signal, Cause.PENDING)
            self.assertEqual(self.bench.machine.zombies[child].status, status)

    def test_mask_of_a_handler(self) -> None:
        for flags, mask in ((0, 0x205), (0x40000000, 5)):
            process, thread = self.bench.process(), self.bench.thread()
            process.actions[10], thread.mask = Action(CODE, flags, 4), 1
            deliver(self.bench.machine, process, thread, 10, Cause.PENDING)
            self.assertEqual((thread.mask, thread.contexts.pop().mask), (mask, 1))

    def test_descriptors_close(self) -> None:
        child = self.bench.fork()
        reading, writing = self.bench.pipe(by=child)
        self.bench.call(Number.FCNTL, 0, 8, child)
        self.bench.call(Number.EXIT_GROUP, 0, by=child)
        self.assertEqual((self.bench.machine.channels, self.bench.described(0).owner), ({}, 0))
        self.assertEqual(self.bench.machine.zombies[child], Zombie(child, FIRST, 0, 4, 0))

    def test_children_stay(self) -> None:
        child = self.bench.fork()
        grandchildren = [self.bench.fork(child), self.bench.fork(child)]
        self.bench.call(Number.EXIT, 3, by=grandchildren[0])
        self.bench.call(Number.EXIT, 0, by=child)
        self.assertEqual(set(self.bench.machine.zombies), {child})
        self.assertEqual(self.bench.process(grandchildren[1]).parent, 1)
        self.bench.call(Number.EXIT, 0, by=grandchildren[1])
        self.assertEqual(set(self.bench.machine.zombies), {child})
        self.bench.call(Number.EXIT, 0)
        machine = self.bench.machine
        self.assertEqual((machine.processes, machine.zombies, machine.descriptions), ({}, {}, {}))

    def test_pending_for_a_thread_goes_with_it(self) -> None:
        other = self.bench.new_thread()
        self.bench.call(Number.TGKILL, FIRST, other, 1)
        self.bench.call(Number.EXIT, 0, by=FIRST, tid=other)
        self.assertEqual((self.bench.process().pending, self.bench.thread().pending), (0, 0))


class Waits(BenchCase):
    """`wait4`."""

    def test_arguments(self) -> None:
        self.bench.fork()
        wrong = [(0, 0, 0), (-2, 0, 0), (-1, 2, 0), (-1, 3, 0), (-1, 1, DATA), (1 << 31, 1, 0)]
        found = {self.bench.call(Number.WAIT4, pid, 0, options, usage) for pid, options, usage in wrong}
        self.assertEqual(found, {-Errno.EINVAL})

    def test_least_first(self) -> None:
        children = [self.bench.fork() for _ in range(3)]
        self.assertEqual(self.bench.call(Number.WAIT4, -1, DATA, 1), 0)
        for child in (2, 1):
            self.bench.call(Number.EXIT, child, by=children[child])
        self.assertIs(self.bench.call(Number.WAIT4, children[0], 0, 0), Came.WAITS)
        self.assertEqual(self.bench.call(Number.WAIT4, -1, DATA, 0), children[1])
        self.assertEqual((self.bench.words(1), set(self.bench.machine.zombies)), ([256], {children[2]}))
        self.assertEqual(self.bench.call(Number.WAIT4, children[2], 0, 1), children[2])
        self.assertEqual(self.bench.call(Number.WAIT4, children[2], 0, 1), -Errno.ECHILD)
        self.assertEqual(self.bench.call(Number.WAIT4, -1, 0, 1), 0)
        self.assertEqual(self.bench.call(Number.WAIT4, -1, 0, 1, by=children[0]), -Errno.ECHILD)

    def test_another_ones_child(self) -> None:
        child = self.bench.fork()
        grandchild = self.bench.fork(child)
        self.bench.call(Number.EXIT, 0, by=grandchild)
        self.assertEqual(self.bench.call(Number.WAIT4, grandchild, 0, 1), -Errno.ECHILD)
        self.assertEqual(self.bench.call(Number.WAIT4, grandchild, 0, 0, by=child), grandchild)
