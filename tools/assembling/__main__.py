"""Prints what crates/worked_lines must print for the texts of its stdin, or makes the file of a text.

    python3 tools/assembling
    python3 tools/assembling examples/ring.s examples/ring.elf
"""

import pathlib
import sys

import model
from cases import read_cases, said


def make(text, file):
    """Writes the file of a text that has one."""
    made = model.assembled(pathlib.Path(text).read_bytes())
    if isinstance(made, int):
        sys.exit(f"{text}: line {made}")
    pathlib.Path(file).write_bytes(made)


if len(sys.argv) == 3:
    make(*sys.argv[1:])
else:
    for name, text in read_cases():
        print(said(name, text))
