"""The calls that have a row here are those of the manual (docs/CALLS.md)."""

import re
import unittest

from ..calls import KERNEL_ROWS
from ..numbers import Errno, Number
from .bench import DATA, Bench
from .guests import HOME

ROW = re.compile(r"\| (\d+) (?:\| )?`(\w+)\(")
"""A row's number and its name; of `read` and `write` in the head of their table."""
PAGE = HOME / "docs/CALLS.md"
NO_ROW = 1


@unittest.skipUnless(PAGE.is_file(), "the manual is not here")
class Rows(unittest.TestCase):
    """The rows of calls, beside the manual's."""

    def test_rows(self) -> None:
        rows = [(Number(int(number)), name) for number, name in ROW.findall(PAGE.read_text(encoding="utf-8"))]
        self.assertEqual({number for number, _ in rows}, set(KERNEL_ROWS))
        self.assertEqual([name for number, name in rows if number.name.lower() != name], [])

    def test_each_is_served(self) -> None:
        for number in KERNEL_ROWS:
            self.assertNotEqual(Bench().call(number, 0, DATA, 0), -Errno.ENOSYS, number)
        self.assertEqual(Bench().call(NO_ROW, 0, DATA, 0), -Errno.ENOSYS)
