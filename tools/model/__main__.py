"""Does in the current folder what `dmtcp` does there, by the model: `python3 -m model launch 0:hello.elf`.

The folder that holds `model` must be on PYTHONPATH.
"""

import sys
from pathlib import Path

from . import run

TRACE_FILE = "dmtcp.trace"
SETS_FOLDER = "dmtcp_set"


def _contents(folder: Path) -> dict[str, bytes]:
    """The files of a folder; none where it is not there."""
    if not folder.is_dir():
        return {}
    return {path.name: path.read_bytes() for path in folder.iterdir() if path.is_file()}


def _write_sets(folder: Path, before: dict[str, bytes], after: dict[str, bytes]) -> None:
    """Writes the files that changed."""
    for name, content in after.items():
        if before.get(name) != content:
            folder.mkdir(exist_ok=True)
            (folder / name).write_bytes(content)


def main() -> int:
    """Runs the words, and writes what the call leaves."""
    sets = _contents(Path(SETS_FOLDER))
    outcome = run(sys.argv[1:], _contents(Path()), sets)
    sys.stdout.buffer.write(outcome.console)
    sys.stderr.buffer.write(outcome.log)
    if outcome.trace is not None:
        Path(TRACE_FILE).write_bytes(outcome.trace)
    _write_sets(Path(SETS_FOLDER), sets, outcome.sets)
    return int(outcome.status)


if __name__ == "__main__":
    sys.exit(main())
