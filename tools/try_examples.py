#!/usr/bin/env python3
"""Runs each command of examples/README.md by the built program, and compares what it prints with what stands below it.

    tools/try_examples.py [DMTCP]

DMTCP is a built program, else crates/dmtcp/out/dmtcp, which `cd crates/dmtcp && rt run -- --version` proves and builds.
A command is a line of four blanks, and what it prints the block below it, in which `..` stands for any lines. Each
section of the page begins without sets, and where the line above a command is `rm -r dmtcp_set` they are removed there.
It ends with status 1 where a command prints anything else.
"""

import re
import shutil
import subprocess
import sys
import tempfile
from pathlib import Path

from built import HOME, built_program

EXAMPLES = HOME / "examples"
COMMAND = re.compile(
    r"^(    rm -r dmtcp_set\n)?    ((?:dmtcp|\.\./tools/show\.py) [^\n]*)\n\n```\n(.*?)^```", re.M | re.S
)
ANY_LINES = re.compile(r"^\.\.\n", re.M)
LONGEST_RUN = 300  # seconds


def fits(printed: str, wanted: str) -> bool:
    """Whether what was printed is as wanted, with any lines where that has `..`."""
    pattern = "(?:.*\n)*".join(re.escape(piece) for piece in ANY_LINES.split(wanted))
    return re.fullmatch(pattern, printed) is not None


def run(command: str, program: str, folder: Path) -> str:
    """What a command prints, the console before the log."""
    name, *words = command.split()
    path = program if name == "dmtcp" else str(HOME / "tools" / "show.py")
    done = subprocess.run(
        [path, *words], cwd=folder, capture_output=True, text=True, timeout=LONGEST_RUN, check=False
    )
    return done.stdout + done.stderr


def try_section(section: str, program: str) -> tuple[int, int]:
    """Runs the commands of a section, in a folder with the guests; gives how many there are and how many fail."""
    commands, failures = COMMAND.findall(section), 0
    with tempfile.TemporaryDirectory() as name:
        folder = Path(name)
        for guest in [*EXAMPLES.glob("*.elf"), EXAMPLES / "script"]:
            shutil.copy(guest, folder)
        for removal, command, wanted in commands:
            if removal:
                shutil.rmtree(folder / "dmtcp_set")
            printed = run(command, program, folder)
            if not fits(printed, wanted):
                failures += 1
                print(f"FAILED: {command} printed\n{printed}", file=sys.stderr)
    return len(commands), failures


def main() -> int:
    """Runs all commands of the page."""
    program = built_program(sys.argv, 1)
    page = (EXAMPLES / "README.md").read_text()
    counts = [try_section(section, program) for section in re.split(r"^## ", page, flags=re.M)]
    commands, failures = (sum(column) for column in zip(*counts))
    print(f"{commands} commands, {failures} failures")
    return 1 if failures or not commands else 0


if __name__ == "__main__":
    sys.exit(main())
