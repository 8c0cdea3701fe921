"""The built program that the scripts of this folder try."""

import os
import sys
from pathlib import Path

HOME = Path(__file__).resolve().parent.parent
NO_PROGRAM = 2  # the status of a script that finds none


def built_program(words: list[str], place: int) -> str:
    """The path that stands at a place of the words, else that of the repository's own; ends the script without one."""
    path = os.path.abspath(words[place] if len(words) > place else HOME / "crates/dmtcp/out/dmtcp")
    if not os.access(path, os.X_OK):
        print(f"no program at {path}: build it by 'cd crates/dmtcp && rt run -- --version'", file=sys.stderr)
        sys.exit(NO_PROGRAM)
    return path
