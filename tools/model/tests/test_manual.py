"""What the manual shows by example: console, log, sizes, places of damage."""

import unittest

from ..images import images
from ..session import Outcome, run
from ..store import Store
from .guests import example, header

NAMES = ["hello.elf", "total.elf", "count.elf", "fill.elf", "threads.elf", "handler.elf"]


def files() -> dict[str, bytes]:
    """The stored guests."""
    return {name: example(name) for name in NAMES}


def said(words: str, sets: dict[str, bytes] | None = None, **more: bytes) -> Outcome:
    """Runs words that are parted by blanks."""
    return run(words.split(), {**files(), **more}, sets or {})


def lines(first: int, last: int) -> bytes:
    """The lines of `count.elf`."""
    return b"".join(b"%d\n" % number for number in range(first, last + 1))


class Examples(unittest.TestCase):
    """examples/README.md."""

    def test_hello(self) -> None:
        outcome = said("launch 0:hello.elf")
        self.assertEqual((outcome.status, outcome.console, outcome.log), (0, b"hello\n", b"done\n"))
        self.assertEqual(outcome.trace[:16].hex(), "01000000409c0000409c000005000000")
        self.assertEqual(outcome.sets, {})

    def test_hello_cut_off(self) -> None:
        outcome = said("launch --every 1 --records 3 0:hello.elf")
        log = b"checkpoint 1 complete: generation 1, drained 0\nbudget spent: 3 records\n"
        self.assertEqual((outcome.status, outcome.console, outcome.log), (18, b"", log))
        manifest = "01444d545345543101000000000000000200000081000000000000006e23040000000000"
        self.assertEqual(outcome.sets["s0_0.img"].hex(), manifest)
        after = said("restart --every 1", outcome.sets)
        log = b"checkpoint 1 complete: generation 2, drained 0\ncheckpoint 2 complete: generation 3, drained 0\n"
        self.assertEqual(after.log, log + b"checkpoint 3 lapsed\ndone\n")
        self.assertEqual((after.status, after.console), (0, b"hello\n"))

    def test_total(self) -> None:
        self.assertEqual(said("launch 0:total.elf").console, b"654321\n")

    def test_count(self) -> None:
        outcome = said("launch --every 100 --records 400 0:count.elf")
        self.assertEqual((outcome.status, outcome.console), (18, lines(1, 197)))
        self.assertEqual(len(outcome.trace), 400 * 16)
        self.assertTrue(outcome.log.endswith(b"generation 3, drained 0\nbudget spent: 400 records\n"))
        after = said("restart --every 250", outcome.sets)
        self.assertEqual((after.status, after.console), (0, lines(151, 500)))
        self.assertEqual(said("restart", after.sets).console, lines(401, 500))

    def test_threads(self) -> None:
        found = [(1, 64, 1500, 1999), (2, 71, 1000, 1499), (3, 73, 500, 999), (4, 95, 0, 499)]
        said_by = [b"thread %d: %d primes from %d to %d\n" % one for one in found]
        whole = b"".join([*said_by, b"main: 303 primes from 0 to 1999\n"])
        self.assertEqual(said("launch 0:threads.elf").console, whole)
        outcome = said("launch --every 36 --records 42 0:threads.elf")
        self.assertEqual((outcome.status, outcome.console), (18, b"".join(said_by[:2])))
        self.assertEqual(said("restart", outcome.sets).console, whole[len(said_by[0]) :])

    def test_handlers(self) -> None:
        inner = b"  inner handler, signal 12\n"
        before = b"count 1\ncount 2\n handler begins, signal 10\n"
        after = inner + b" handler ends, handled 2\ncount 3\n"
        self.assertEqual(said("launch 0:handler.elf").console, before + after)
        outcome = said("launch --every 22 --records 26 0:handler.elf")
        self.assertEqual((outcome.status, outcome.console), (18, before + inner))
        after_restart = said("restart", outcome.sets)
        self.assertEqual((after_restart.status, after_restart.console), (0, after))

    def test_fill(self) -> None:
        whole = said("launch 0:fill.elf").console
        self.assertTrue(whole.endswith(b"map: 1981 pages, checksum CA6FEEF5\nall: 1981 pages, checksum CA6FEEF5\n"))
        outcome = said("launch --every 50 --records 200 0:fill.elf")
        self.assertEqual(outcome.console, whole[: len(outcome.console)])
        self.assertTrue(outcome.console.endswith(b"heap: 1664 pages, checksum BBEDFA1A\n"))
        self.assertEqual(len(outcome.sets["s0_2.img"]), 6049523)
        after = said("restart", outcome.sets)
        self.assertTrue(after.console.startswith(b"heap: 1408 pages") and whole.endswith(after.console))


class Programs(unittest.TestCase):
    """docs/PROGRAMS.md, the table at the end."""

    def refused(self, data: bytes, reason: str) -> None:
        outcome = run(["launch", "0:x"], {"x": data}, {})
        self.assertEqual((outcome.status, outcome.log.decode()), (13, f"bad program: x: {reason}\n"))

    def test_table(self) -> None:
        hello = example("hello.elf")
        self.refused(hello[:51], "short at 51")
        self.refused(hello[:36] + b"\1" + hello[37:], "flags at 36")
        self.refused(hello[:42] + b"\x1f" + hello[43:52], "segment at 42")
        self.refused(hello[:44] + b"\0" + hello[45:], "segment at 44")
        self.refused(hello[:60] + (0xFFF).to_bytes(4, "little") + hello[64:], "segment at 52")
        two = hello[:44] + b"\2" + hello[45:52] + 2 * header(1, 0, 0x10000, 4, 4, 5)
        self.refused(two, "overlap at 84")


class Words(unittest.TestCase):
    """docs/CLI.md."""

    def test_usage(self) -> None:
        wrong = ["", "launch", "restart 0:hello.elf", "launch --every 0 0:a", "launch --every 01 0:a", "launch 16:a"]
        wrong += ["launch --every +1 0:a", "launch --every 4000001 0:a", "launch --every 1 --every 1 0:a", "launch 0:"]
        wrong += ["launch 0:a --every 1", "launch 0:,b", "--help --version", "launch 0:\udcff", "launch --every ٣ 0:a"]
        wrong += ["launch --nodes 17 0:a", "launch --nodes 1 0:a 1:b", "launch --workers 1 0:a", "ring", "help 2"]
        wrong += ["ring 1", "ring 17", "ring 02", "ring --every 5 2", "ring 2 --records 5", "ring 2 --workers 1"]
        wrong += ["launch --file a", "launch --file a --file a 0:a", "launch 0:a --file b", "restart --file a"]
        wrong += ["launch 00:a", "launch a", "launch 0", "launch :a", "launch 01:a", "launch -1:a", "launch 0:a b"]
        wrong += [f"launch --file {256 * 'n'} 0:a", "launch --file a\0 0:a", "launch --file \udcff 0:a"]
        wrong += ["restart --nodes 0", "restart --shift 16", "restart --pid-base 0", "restart --port-base 1023"]
        wrong += ["restart --nodes 17", "restart --pid-base 1000000001", "restart --port-base 57345", "restart --shift 00"]
        wrong += ["launch --nodes 01 0:a", "launch --workers 0 --workers 0 0:a", "launch --shift 0 0:a"]
        wrong += [f"launch 0:a,{4094 * 'b'}", f"launch 0:{256 * 'n'}", "launch" + 129 * " 0:a"]
        wrong += ["launch" + "".join(f" --file {number}" for number in range(65)) + " 0:a"]
        for words in wrong:
            self.assertEqual((said(words).status, said(words).log), (10, b"usage\n"), words)

    def test_places(self) -> None:
        self.assertEqual(said("launch --workers 0 --nodes 1 0:a,b").log, b"missing: a\n")
        self.assertEqual(said("launch --nodes 14 3:a 13:b 0:c").log, b"missing: a\n")
        self.assertEqual(said("launch --nodes 16 0:a").log, b"missing: a\n")
        self.assertEqual(said(f"launch 0:a,{4093 * 'b'}").log, b"missing: a\n")
        words = "restart --port-base 30000 --pid-base 2000 --shift 0 --workers 0 --nodes 16"
        self.assertEqual(said(words).log, b"no set\n")
        self.assertEqual(said("restart --nodes 1 --shift 15 --pid-base 1 --port-base 1024").log, b"no set\n")
        self.assertEqual(said("restart --pid-base 1000000000 --port-base 57344").log, b"no set\n")

    def test_others(self) -> None:
        self.assertEqual(said("launch --records 4000000 --every 9 0:a:b").log, b"missing: a:b\n")
        self.assertEqual(said("restart").log, b"no set\n")
        self.assertEqual(run(["launch", "0:x"], {"x": bytes(67_108_865)}, {}).log, b"input fault: x\n")
        self.assertEqual(said("launch" + 128 * " 15:a").log, b"missing: a\n")
        self.assertEqual(run(["launch", "--file", "", "0:a"], {}, {}).log, b"usage\n")
        self.assertEqual(run(["launch", "--file", "--every", "0:a"], {}, {}).log, b"missing: --every\n")
        files = "".join(f" --file {number}" for number in range(64))
        self.assertEqual(said(f"launch{files} 0:a").log, b"missing: 0\n")

    def test_help(self) -> None:
        forms = b"dmtcp launch [options] host:name[,argument]...\ndmtcp restart [options]\n"
        forms += b"dmtcp ring N [options]\ndmtcp help\n"
        self.assertEqual((said("help").console, said("help").log), (forms, b"done\n"))
        self.assertEqual((said("--help").console, said("--help").log), (forms, b""))
        self.assertEqual((said("--version").console, said("--version").log), (b"dmtcp 0.1.0\n", b""))

    def test_ring(self) -> None:
        """A launch of the ring's programs, and a restart from its last set, whose trace is left."""
        ring = said("ring 2")
        self.assertEqual((ring.status, ring.console), (0, b"ring 2: value 300, restart value 300\n"))
        sets = [b"checkpoint %d complete: generation %d, drained" % (number, number) for number in (1, 2, 3)]
        lines = ring.log.splitlines()
        self.assertEqual([line.rpartition(b" ")[0] for line in lines[:-1]], sets)
        self.assertEqual((lines[-1], ring.trace), (b"done", said("restart", ring.sets).trace))
        alone = said("ring 2 --every 4000000")
        self.assertEqual((alone.status, alone.console, alone.log, alone.trace), (16, b"", b"no set\n", None))

    def test_order(self) -> None:
        """The files, the programs in their order, each with its format, and then the sum of the files."""
        half, large = bytes(33_554_433), bytes(67_108_865)
        more = {"half": half, "other": half, "large": large, "bad": b"x"}
        self.assertEqual(said("launch --file none --file large 0:bad", **more).log, b"missing: none\n")
        self.assertEqual(said("launch --file large --file none 0:bad", **more).log, b"input fault: large\n")
        self.assertEqual(said("launch --file none 0:bad", **more).log, b"missing: none\n")
        two = "launch --file half --file other"
        self.assertEqual(said(f"{two} 0:bad 0:none", **more).log, b"bad program: bad: short at 1\n")
        self.assertEqual(said(f"{two} 0:hello.elf 0:none 0:bad", **more).log, b"missing: none\n")
        outcome = said(f"{two} 0:hello.elf", **more)
        self.assertEqual((outcome.status, outcome.log, outcome.trace), (21, b"files too large\n", None))
        self.assertEqual(said("launch --file half --every 1 --records 1 0:hello.elf", **more).status, 18)


class Sets(unittest.TestCase):
    """docs/FORMATS.md and docs/STORE.md."""

    def setUp(self) -> None:
        self.sets = said("launch --every 1 --records 3 0:hello.elf").sets

    def damaged(self, name: str, content: bytes | None, place: str) -> None:
        sets = dict(self.sets)
        sets.pop(name)
        if content is not None:
            sets[name] = content
        outcome = said("restart", sets)
        self.assertEqual((outcome.status, outcome.log.decode()), (17, f"damaged: slot 0 {place}\n"))

    def relength(self, file: int, content: bytes, place: str) -> None:
        """A file of another length, with a manifest that has it."""
        manifest = bytearray(self.sets["s0_0.img"])
        manifest[12 + 8 * file : 20 + 8 * file] = len(content).to_bytes(8, "little")
        kept, self.sets = self.sets, {**self.sets, "s0_0.img": bytes(manifest)}
        self.damaged(f"s0_{file}.img", content, place)
        self.sets = kept

    def test_lengths(self) -> None:
        shared = self.sets["s0_1.img"]
        self.damaged("s0_1.img", None, "file 1 at 0")
        self.damaged("s0_1.img", shared[:-1], "file 1 at 128")
        self.damaged("s0_1.img", shared + b"\0", "file 1 at 129")
        self.damaged("s0_0.img", self.sets["s0_0.img"][:21], "file 0 at 21")
        self.damaged("s0_0.img", self.sets["s0_0.img"] + b"\0", "file 0 at 36")

    def test_cut_short_and_longer(self) -> None:
        for length in range(129):
            self.relength(1, self.sets["s0_1.img"][:length], f"file 1 at {length}")
        self.relength(1, self.sets["s0_1.img"] + b"\0", "file 1 at 129")
        for length in (0, 23, 24, 30, 5000, 271213):
            self.relength(2, self.sets["s0_2.img"][:length], f"file 2 at {length}")
        self.relength(2, self.sets["s0_2.img"] + b"\0", "file 2 at 271214")

    def test_fields(self) -> None:
        """A byte of each field of the shared image, and where its damage is (129: at the end)."""
        wrong = {7: 0, 9: 8, 12: 12, 16: 20, 17: 16, 20: 34, 21: 20, 29: 28, 32: 65, 36: 36, 37: 37, 41: 129, 45: 45}
        wrong |= {50: 49, 53: 53}
        wrong |= {57: 57, 61: 65, 65: 65, 66: 66, 73: 70, 74: 74, 79: 78, 85: 82, 87: 86, 91: 90, 94: 98, 98: 98}
        wrong |= {102: 102, 125: 124, 128: 128}
        for place, damage in wrong.items():
            content = bytearray(self.sets["s0_1.img"])
            content[place] = 0 if place in (9, 12, 61) else 0xFF
            self.damaged("s0_1.img", bytes(content), f"file 1 at {damage}")

    def test_written_again(self) -> None:
        machine = Store(self.sets).get_machine(0)
        self.assertEqual(images(machine), [self.sets["s0_1.img"], self.sets["s0_2.img"]])

    def test_old_files_stay(self) -> None:
        outcome = said("launch --every 1 --records 3 0:hello.elf", {"s0_7.img": b"x", "other": b"y"})
        self.assertEqual((outcome.sets["s0_7.img"], outcome.sets["other"]), (b"x", b"y"))


if __name__ == "__main__":
    unittest.main()
