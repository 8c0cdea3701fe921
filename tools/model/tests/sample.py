"""A state with something of each kind, which conditions are tried on."""

from ..numbers import Number
from .bench import FIRST, SECOND, THIRD, Bench

CREAT, READ_WRITE = 0x40, 2
FILE, READING, WRITING, STREAM, DATAGRAM, COUNTER, LISTENER, CONNECTED, BOUND = 3, 4, 5, 6, 8, 10, 11, 12, 13
CHILD, ENDED, THREAD = FIRST + 3, FIRST + 4, FIRST + 5
ELSEWHERE = THIRD
"""A process of another host."""


def something_of_each(is_spoiled: bool = False) -> Bench:
    """A bench with each kind of object at the descriptors above, a child, a process that has ended, and a thread."""
    bench = Bench((0, 0, 3), is_spoiled)
    bench.open(b"a", CREAT | READ_WRITE)
    bench.pipe()
    bench.pair(1)
    bench.pair(2)
    bench.call(Number.EVENTFD2, 0, 0)
    bench.listener(80, 2)
    bench.connected(0, 80)
    bench.address_call(Number.BIND, bench.call(Number.SOCKET, 2, 1, 0), 0, 90)
    bench.fork(SECOND)
    bench.call(Number.EXIT, 1, by=bench.fork(SECOND))
    bench.new_thread()
    return bench
