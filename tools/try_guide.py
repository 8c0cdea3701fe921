#!/usr/bin/env python3
"""Runs each command of docs/GUIDE.md by the built program, as it stands there, and compares what it prints with the page.

    tools/try_guide.py [DMTCP]

DMTCP is a built program, else crates/dmtcp/out/dmtcp, which `cd crates/dmtcp && rt run -- --version` proves and builds.
Lines of four blanks are typed into one shell, in order, in a new folder beside a folder `dmtcp` with what the page uses
of the clone. What they print, the console before the log, is compared with the block below them, if there is one, in
which a line `..` stands for any lines, and `..` in a line for any text. It wants the compiler that the page names, and
ends with status 1 where anything else is printed.
"""

import re
import subprocess
import sys
import tempfile
import threading
from pathlib import Path

from built import HOME, built_program

PAGE = HOME / "docs" / "GUIDE.md"
COMMANDS = re.compile(r"((?:^    [^\n]*\n(?:\n(?=    ))*)+)(?:\n```\n(.*?)^```)?", re.M | re.S)
END = "the-end-of-these-commands"
LONGEST_ROW = 300  # seconds of one row of commands


def pattern_of(wanted: str) -> str:
    """What a block of the page allows, as a regular expression."""
    lines = ("(?:.*\n)*" if line == ".." else ".*".join(map(re.escape, line.split(".."))) + "\n"
             for line in wanted.splitlines())
    return "".join(lines)


def laid_out(folder: Path, program: str) -> None:
    """The folder `dmtcp`, as the page has it beside the reader."""
    clone = folder / "dmtcp"
    (clone / "crates" / "dmtcp" / "out").mkdir(parents=True)
    (clone / "crates" / "dmtcp" / "out" / "dmtcp").symlink_to(program)
    for name in ("examples", "tools"):
        (clone / name).symlink_to(HOME / name)


def typed(text: str) -> str:
    """Commands of the page, without the four blanks before each line."""
    return "".join(line.removeprefix("    ") for line in text.splitlines(keepends=True))


class Shell:
    """One shell that all commands of the page are typed into."""

    def __init__(self, folder: Path) -> None:
        self.folder = folder
        self.shell = subprocess.Popen(["bash"], cwd=folder, stdin=subprocess.PIPE, stdout=subprocess.PIPE, text=True)

    def run(self, commands: str) -> str:
        """What they print, the console before the log."""
        files = [self.folder / name for name in (".typed", ".console", ".log")]
        files[0].write_text(commands)
        limit = threading.Timer(LONGEST_ROW, self.shell.kill)
        limit.start()
        self.shell.stdin.write(f"source {files[0]} > {files[1]} 2> {files[2]}; echo {END}\n")
        self.shell.stdin.flush()
        answer = self.shell.stdout.readline()
        limit.cancel()
        if answer != f"{END}\n":
            sys.exit(f"the shell ended, or took too long, at\n{commands}{files[2].read_text()}")
        return files[1].read_text() + files[2].read_text()


def main() -> int:
    """Runs all commands of the page."""
    program = built_program(sys.argv, 1)
    compared = failures = 0
    blocks = COMMANDS.findall(PAGE.read_text())
    with tempfile.TemporaryDirectory() as name:
        laid_out(Path(name), program)
        shell = Shell(Path(name))
        for text, wanted in blocks:
            commands = typed(text)
            printed = shell.run(commands)
            compared += bool(wanted)
            if wanted and not re.fullmatch(pattern_of(wanted), printed):
                failures += 1
                print(f"FAILED: {commands}printed\n{printed}in place of\n{wanted}", file=sys.stderr)
        shell.shell.communicate()
    print(f"{len(blocks)} rows of commands, {compared} compared, {failures} failures")
    return 1 if failures or not compared else 0


if __name__ == "__main__":
    sys.exit(main())
