"""The fields of a set's files as the trials find them, beside how they are read and shown."""

import random
import unittest

from comparing.crowded import CHANGES
from comparing.damage import nobody_lives
from comparing.set_fields import fields_of
from model.read_shared import read_shared
from model.store import Store
from model.tests.shared_bytes import laid_out
from showing.listed import read_listed

SHARED = 1


class Fields(unittest.TestCase):
    """A shared image with something of each kind."""

    def setUp(self) -> None:
        self.image = bytes(laid_out().content)

    def test_as_they_are_shown(self) -> None:
        shown = [field for field in read_listed(self.image).fields if field.size]
        self.assertEqual(fields_of(SHARED, self.image).fields, shown)

    def test_each_entry_of_a_list(self) -> None:
        found = {}
        for entries in fields_of(SHARED, self.image).lists:
            found.setdefault(entries.name, []).append(len(entries.entries))
        lists = {"file": [3], "channel": [4], "description": [12], "waiting": [1], "process": [5]}
        members = {"thread": [2, 1, 1, 0, 1], "descriptor": [9, 1, 3, 0, 0]}
        self.assertEqual(found, lists | members)

    def test_little_left_is_a_state(self) -> None:
        for seed in range(40):
            for change in CHANGES:
                image = change(random.Random(seed), self.image)
                self.assertNotEqual(image, self.image)
                read_shared(image)

    def test_nobody_lives(self) -> None:
        """The files with names stay, in a set without an image of a process."""
        sets = {"s0_0.img": b"\1DMTSET1" + bytes(8) + b"\2\0\0\0", "s0_1.img": self.image}
        machine = Store(nobody_lives(random.Random(0), sets, 0)).get_machine(0)
        self.assertEqual((machine.processes, sorted(machine.files)), ({}, [1, 4]))


if __name__ == "__main__":
    unittest.main()
