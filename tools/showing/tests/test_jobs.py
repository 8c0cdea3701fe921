"""Sets and traces of jobs of several processes with files."""

import unittest
from xml.etree import ElementTree

from showing.tests.test_show import EXAMPLES, SVG, left_by

JOB = "--file script 0:shell.elf"
SERVED = "0:server.elf,1 3:client.elf,1,5"


class Traces(unittest.TestCase):
    """Traces of launches, by the programs and the files, and by the words."""

    def test_programs_and_files(self) -> None:
        with left_by(f"launch {JOB}") as place:
            words = ["--program", f"0:{EXAMPLES / 'shell.elf'}", "--file", str(EXAMPLES / "script")]
            status, text = place.show("dmtcp.trace", *words)
        lines = text.splitlines()
        self.assertEqual(status, 0)
        self.assertIn('40000/40000 openat(-100, "script", 0x0, 0x0) = 3', [line.split("  ")[-1] for line in lines])
        self.assertEqual(lines[-15], "process 40000 ended by exit_group(0)")
        self.assertEqual(lines[-4], "process 40011 ended by exit_group(1)")

    def test_words_of_the_launch(self) -> None:
        with left_by(f"launch {JOB}") as place:
            files = ["--program", str(EXAMPLES / "shell.elf"), "--file", str(EXAMPLES / "script")]
            by_files = place.show("dmtcp.trace", *files)
            for name in ("shell.elf", "script"):
                (place.path / name).write_bytes((EXAMPLES / name).read_bytes())
            self.assertEqual(place.show("dmtcp.trace", "--launch", *JOB.split()), by_files)
            (place.path / "script").unlink()
            status, text = place.show("dmtcp.trace", "--launch", *JOB.split())
            self.assertEqual((status, text.startswith("show.py: ")), (2, True))
            status, text = place.show("dmtcp.trace", "--launch", "shell.elf")
            self.assertEqual((status, text), (2, "show.py: these are no words of a launch\n"))

    def test_hosts(self) -> None:
        with left_by(f"launch --every 9 {SERVED}") as place:
            words = [word for one in (f"0:{EXAMPLES / 'server.elf'},1", f"3:{EXAMPLES / 'client.elf'},1,5")
                     for word in ("--program", one)]
            status, text = place.show("dmtcp.trace", *words)
            other = place.show("dmtcp.trace", *words[:2])
        self.assertEqual(status, 0)
        self.assertRegex(text, r"-- channel 40001/\d+ side 0: \d+ bytes? arrived")
        self.assertEqual(other[0], 1)
        self.assertIn("is no step of this run: there is no such thread", other[1])

    def test_a_restart(self) -> None:
        with left_by("launch --every 60 --records 300 --file script 0:shell.elf", "restart") as place:
            status, text = place.show("dmtcp.trace", "--set", "dmtcp_set")
        self.assertEqual((status, text.splitlines()[-1]), (0, "process 40014 ended by exit_group(0)"))

    def test_a_picture(self) -> None:
        with left_by(f"launch --every 9 {SERVED}") as place:
            for name in ("server.elf", "client.elf"):
                (place.path / name).write_bytes((EXAMPLES / name).read_bytes())
            status, _ = place.show("dmtcp.trace", "--svg", "run.svg", "--launch", *SERVED.split())
            picture = ElementTree.parse(place.path / "run.svg").getroot()
        rows = [text.text for text in picture.iter(f"{SVG}text") if text.get("text-anchor") == "end"]
        titles = [title.text or "" for title in picture.iter(f"{SVG}title")]
        self.assertEqual((status, rows[:2], rows[-2:]), (0, ["40000/40000", "40001/40001"], ["channels", "store"]))
        self.assertIn("process 40001", titles)
        births = [title for title in titles if title.endswith(" begins")]
        self.assertEqual(births, [f"{row} begins" for row in rows[2:-2]])


class Sets(unittest.TestCase):
    """Sets of several processes."""

    def test_a_pipeline(self) -> None:
        """What waits in a pipe, who holds its ends, and each process."""
        with left_by(f"launch --every 60 {JOB}") as place:
            status, text = place.show("dmtcp_set")
        counting = text[text.index("slot 1: generation 6, complete: the set counts"):]
        self.assertEqual(status, 0)
        for line in ("  file 1 'script': 227 bytes,", "  channel (40000, 8), pipe\n    sent by side 0: 1 byte,",
                     "  description (40000, 9): side 1 of channel (40000, 8), read\n",
                     "  process 40014 of host 0, parent 40000: 1 thread\n    descriptor 0: description (40000, 9)\n"):
            self.assertIn(line, counting)

    def test_damage(self) -> None:
        """A field is named also in the lists of files and channels."""
        with left_by(f"launch --every 60 {JOB}") as place:
            place.change("s1_1.img", 20, b"\0\0\0\0")
            status, text = place.show("dmtcp_set")
        line = next(line for line in text.splitlines() if "first damage" in line)
        self.assertEqual((status, line), (1, "  first damage: file 1 (s1_1.img, shared image) at 20: "
                                             "file.number (number 1 of this name), which holds 0x0"))


if __name__ == "__main__":
    unittest.main()
