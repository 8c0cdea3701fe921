"""Each error of each row comes before all later ones (docs/CALLS.md)."""

import unittest

from ..calls import KERNEL_ROWS
from ..numbers import Number
from .bench import Came
from .orders import everything
from .orders_of_files import DESCRIPTORS, FILES, PAIRS, TRANSFERS
from .orders_of_sockets import PROCESSES, SOCKETS

TABLE = [*DESCRIPTORS, *FILES, *TRANSFERS, *PAIRS, *SOCKETS, *PROCESSES]
WITHOUT_ERRORS = {Number.EXIT, Number.EXIT_GROUP, Number.GETPID, Number.GETPPID}


class Orders(unittest.TestCase):
    """The table of rows."""

    def test_each_row_is_there(self) -> None:
        self.assertEqual({row.number for row in TABLE} | WITHOUT_ERRORS, set(KERNEL_ROWS))

    def test_errors(self) -> None:
        for row in TABLE:
            for place, (expected, found) in enumerate(row.found()):
                self.assertEqual(found, expected, (row.number.name, row.arguments, place))

    def test_answers(self) -> None:
        for row in TABLE:
            answer = row.answered()
            self.assertTrue(not isinstance(answer, Came) and answer >= 0, (row.number.name, row.arguments, answer))

    def test_valid(self) -> None:
        self.assertEqual(everything().broken_rules, [])
