"""Each kind of record in words, and what is no record (docs/FORMATS.md, "The trace")."""

import struct
import unittest
from xml.etree import ElementTree

from model.trace import BadRecord, read_record
from showing.picture import draw
from showing.traces import read_trace, record_text

PARENT, CHANNEL = 40000, (40000, 5)
TOLD = {
    (1, 0, 0, PARENT, 40001, 4096): "40000/40001 runs 4,096 instructions",
    (2, 0, 0, PARENT, 40001, 0): "40000/40001 calls",
    (3, 10, 0, PARENT, 40001, 0): "40000/40001 gets signal 10 (SIGUSR1)",
    (4, 1, 0, *CHANNEL, 12): "channel 40000/5 side 1: 12 bytes arrived",
    (5, 0, 0, 0, 7, 1): "cut of generation 4294967303",
    (6, 0, 0, *CHANNEL, 1): "channel 40000/5 side 0: 1 byte drained",
    (7, 0, 0, *CHANNEL, 1): "channel 40000/5 side 0: 1 byte refilled",
    (8, 0, 0, 0, 7, 0): "generation 7 complete",
    (9, 1, 3, PARENT, 5, 0): "checkpoint refused: process 40000 descriptor 3 is a datagram pair",
    (9, 1, 3, PARENT, 6, 0): "checkpoint refused: process 40000 descriptor 3 is an event counter",
    (9, 2, 0, 0, 0, 0): "checkpoint refused: disk fault",
    (9, 3, 0, 0, 0, 0): "checkpoint refused: memory",
    (10, 0, 0, 0, 0, 0): "checkpoint lapsed: no process lives",
}
NO_RECORDS = [
    (0, 0, 0, 0, 0, 0), (11, 0, 0, 0, 0, 0), (1, 1, 0, PARENT, PARENT, 1), (2, 0, 0, PARENT, PARENT, 1),
    (3, 0, 0, PARENT, PARENT, 0), (3, 32, 0, PARENT, PARENT, 0), (5, 0, 0, 1, 7, 0), (9, 0, 0, 0, 0, 0),
    (9, 1, 3, PARENT, 4, 0), (9, 2, 0, 0, 0, 1), (9, 4, 0, 0, 0, 0), (10, 0, 0, 0, 1, 0),
]


def spelled(fields: tuple[int, ...]) -> bytes:
    return struct.pack("<BBHIII", *fields)


class Records(unittest.TestCase):
    """Records in words."""

    def test_each_kind(self) -> None:
        for fields, text in TOLD.items():
            self.assertEqual(record_text(read_record(spelled(fields), 0)), text)

    def test_what_is_no_record(self) -> None:
        for fields in NO_RECORDS:
            with self.assertRaises(BadRecord, msg=str(fields)):
                read_record(spelled(fields), 0)

    def test_a_record_is_spelled_as_it_was_read(self) -> None:
        for fields in TOLD:
            self.assertEqual(read_record(spelled(fields), 0).encode(), spelled(fields))

    def test_a_picture_has_a_row_for_the_channels(self) -> None:
        records, bad = read_trace(b"".join(map(spelled, TOLD)))
        self.assertIsNone(bad)
        picture = ElementTree.fromstring(draw(records, list(TOLD.values()), "all kinds"))
        texts = [text for text in picture.iter("{http://www.w3.org/2000/svg}text")]
        rows = [text.text for text in texts if text.get("text-anchor") == "end"]
        self.assertEqual(rows, ["40000/40001", "channels", "store"])


if __name__ == "__main__":
    unittest.main()
