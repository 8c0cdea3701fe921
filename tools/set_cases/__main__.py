"""Prints the cases of crates/worked_sets, or what must come of them by the model of the formats (tools/model).

    python3 tools/set_cases > crates/worked_sets/stdin
    python3 tools/set_cases answers > crates/worked_sets/stdout
"""

import sys
from pathlib import Path

sys.path.insert(0, str(Path(__file__).parents[1]))

from cases import all_cases


def main() -> None:
    """Each case in a line, or its name and its answer."""
    for case in all_cases():
        print(f"{case.name}: {case.answer}" if sys.argv[1:] == ["answers"] else f"{case.name}: {case.how}")


main()
