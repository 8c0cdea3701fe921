"""What tools/show.py prints of sets and traces of the stored guests, beside what stands in expected/."""

import subprocess
import sys
import tempfile
import unittest
from collections.abc import Iterator
from contextlib import contextmanager
from dataclasses import dataclass
from pathlib import Path
from xml.etree import ElementTree

from model import run

HERE = Path(__file__).parent
TOOLS = HERE.parent.parent
EXAMPLES = TOOLS.parent / "examples"
SVG = "{http://www.w3.org/2000/svg}"


@dataclass
class Place:
    """A folder with what a run of the model left there."""

    path: Path

    def run(self, words: str) -> None:
        """Runs words that are parted by blanks; the guests are those of examples/."""
        guests = {file.name: file.read_bytes() for file in [*EXAMPLES.glob("*.elf"), EXAMPLES / "script"]}
        sets = {file.name: file.read_bytes() for file in self.path.glob("dmtcp_set/*")}
        outcome = run(words.split(), guests, sets)
        (self.path / "dmtcp_set").mkdir(exist_ok=True)
        for name, content in outcome.sets.items():
            (self.path / "dmtcp_set" / name).write_bytes(content)
        (self.path / "dmtcp.trace").write_bytes(outcome.trace or b"")

    def change(self, name: str, place: int, new: bytes) -> None:
        """Puts bytes into a file of the sets."""
        file = self.path / "dmtcp_set" / name
        content = file.read_bytes()
        file.write_bytes(content[:place] + new + content[place + len(new):])

    def show(self, *words: str) -> tuple[int, str]:
        """The status and the lines of show.py."""
        command = [sys.executable, str(TOOLS / "show.py"), *words]
        done = subprocess.run(command, cwd=self.path, capture_output=True, text=True, check=False)
        return done.returncode, done.stdout + done.stderr


@contextmanager
def left_by(*calls: str) -> Iterator[Place]:
    """A folder after some calls."""
    with tempfile.TemporaryDirectory() as folder:
        place = Place(Path(folder))
        for words in calls:
            place.run(words)
        yield place


def expected(name: str) -> str:
    return (HERE / "expected" / f"{name}.txt").read_text()


class Sets(unittest.TestCase):
    """Folders of sets."""

    def test_threads_that_wait(self) -> None:
        with left_by("launch --every 36 --records 42 0:threads.elf") as place:
            self.assertEqual(place.show("dmtcp_set"), (0, expected("threads_set")))

    def test_inside_two_handlers(self) -> None:
        with left_by("launch --every 22 --records 26 0:handler.elf") as place:
            self.assertEqual(place.show("dmtcp_set", "--registers"), (0, expected("handler_set")))

    def test_two_slots(self) -> None:
        with left_by("launch --every 2 0:hello.elf", "launch --every 2 0:hello.elf") as place:
            status, text = place.show("dmtcp_set")
        self.assertEqual(status, 0)
        self.assertIn("slot 0: generation 1, complete: the set is older than the one that counts\n", text)
        self.assertIn("slot 1: generation 2, complete: the set counts\n", text)


class Damage(unittest.TestCase):
    """The first damage of a set, in words."""

    def damaged(self, name: str, at: int, new: bytes) -> str:
        """The line on the damage after bytes were put into a file."""
        with left_by("launch --every 2 0:hello.elf") as place:
            place.change(name, at, new)
            status, text = place.show("dmtcp_set")
        self.assertEqual(status, 1)
        return next(line for line in text.splitlines() if "first damage" in line)

    def test_the_magic(self) -> None:
        line = self.damaged("s0_0.img", 3, b"X")
        self.assertEqual(line, "  first damage: file 0 (s0_0.img, manifest) at 1: "
                               "magic (number 1 of this name), which holds b'DMXSET1'")

    def test_a_field_of_the_shared_image(self) -> None:
        line = self.damaged("s0_1.img", 28, b"\7\7\7\7")
        self.assertEqual(line, "  first damage: file 1 (s0_1.img, shared image) at 28: "
                               "description.pid (number 1 of this name), which holds 0x7070707")

    def test_the_second_page(self) -> None:
        line = self.damaged("s0_2.img", 24 + 4101, b"\x10\0\0\0")
        self.assertEqual(line, "  first damage: file 2 (s0_2.img, process image) at 4125: "
                               "page.number (number 2 of this name), which holds 0x10")

    def test_a_byte_too_many(self) -> None:
        line = self.damaged("s0_2.img", 271_214, b"X")
        self.assertEqual(line, "  first damage: file 2 (s0_2.img, process image) at 271214: "
                               "the file has 271,215 bytes in place of 271,214")

    def test_what_can_be_read_all_the_same(self) -> None:
        with left_by("launch --every 2 0:hello.elf") as place:
            place.change("s0_1.img", 37, b"\7")
            status, text = place.show("dmtcp_set")
        self.assertEqual((status, text), (1, expected("damaged_flags")))

    def test_a_missing_file(self) -> None:
        with left_by("launch --every 2 0:hello.elf") as place:
            (place.path / "dmtcp_set" / "s0_2.img").unlink()
            status, text = place.show("dmtcp_set")
        self.assertEqual(status, 1)
        self.assertTrue(text.startswith("slot 0: generation 1, complete: the set counts\n"))
        self.assertIn("first damage: file 2 (s0_2.img, process image) at 0: the file is missing\n", text)

    def test_a_shut_gate(self) -> None:
        with left_by("launch --every 2 0:hello.elf") as place:
            place.change("s0_0.img", 0, b"\0")
            status, text = place.show("dmtcp_set")
        self.assertEqual(status, 0)
        first = "slot 0: generation 1, gate 0: not complete, the set does not count"
        self.assertEqual(text.splitlines()[0], first)


class Traces(unittest.TestCase):
    """Traces, alone and told with their start."""

    def test_alone(self) -> None:
        with left_by("launch --every 1 0:hello.elf") as place:
            self.assertEqual(place.show("dmtcp.trace"), (0, expected("hello_trace")))

    def test_with_its_program(self) -> None:
        with left_by("launch 0:handler.elf") as place:
            told = place.show("dmtcp.trace", "--program", str(EXAMPLES / "handler.elf"))
        self.assertEqual(told, (0, expected("handler_trace")))

    def test_with_the_sets_before_a_restart(self) -> None:
        with left_by("launch --every 36 --records 42 0:threads.elf", "restart") as place:
            told = place.show("dmtcp.trace", "--set", "dmtcp_set")
        self.assertEqual(told, (0, expected("threads_restart")))

    def test_another_program(self) -> None:
        with left_by("launch 0:hello.elf") as place:
            status, text = place.show("dmtcp.trace", "--program", str(EXAMPLES / "total.elf"))
        self.assertEqual(status, 1)
        wanted = r"^record 1 is no step of this run: the thread runs \d+ instructions there \(40000/40000 "
        self.assertRegex(text.splitlines()[-1], wanted)

    def test_bytes_that_spell_no_record(self) -> None:
        with left_by("launch 0:hello.elf") as place:
            trace = place.path / "dmtcp.trace"
            trace.write_bytes(trace.read_bytes()[:32] + b"\x0a" + bytes(14) + b"\1")
            status, text = place.show("dmtcp.trace")
        self.assertEqual((status, text.splitlines()[-1]), (1, "the bytes at 32 spell no record"))

    def test_a_picture(self) -> None:
        with left_by("launch --every 36 --records 42 0:threads.elf") as place:
            program = str(EXAMPLES / "threads.elf")
            status, _ = place.show("dmtcp.trace", "--program", program, "--svg", "run.svg")
            picture = ElementTree.parse(place.path / "run.svg").getroot()
        titles = [title.text or "" for title in picture.iter(f"{SVG}title")]
        boxes = [title for title in titles if title.split(":")[0].isdigit()]
        rows = [text.text for text in picture.iter(f"{SVG}text") if text.get("text-anchor") == "end"]
        self.assertEqual(status, 0)
        self.assertEqual(len(boxes), 42)
        self.assertEqual(rows, [f"40000/{thread}" for thread in range(40000, 40005)] + ["store"])
        self.assertEqual(sum(title not in boxes and title.endswith(" waits") for title in titles), 4)

    def test_no_such_file(self) -> None:
        with left_by() as place:
            status, _ = place.show("none")
        self.assertEqual(status, 2)


if __name__ == "__main__":
    unittest.main()
