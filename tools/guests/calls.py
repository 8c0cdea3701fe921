"""Snippets that make one call each, with good and with bad arguments."""

from guests.arguments import (
    Argument, aligned_word, buffer, descriptor, eight, how, length, no_timeout, operation, or_none, process,
    protection, ready_word, refused_flags, signal, thread, unsent, wild, writing,
)
from guests.builder import A0, Area, Guest, Operand, OwnPlace, Register
from guests.events import Futex, Tag, tag_of
from guests.numbers import ANONYMOUS, PRIVATE, Call, How
from guests.routines import mix_memory, mix_own, mix_registers

ODD_NUMBERS = [0, 1, 18, 63 + 65536, 92, 97, 99, 125, 133, 136, 140, 179, 216, 221, 223, 259, 261, 435, 0x7FFFFFFF,
               0x80000040, 0xFFFFFFFF, 0xFFFF0000]


def not_console(guest: Guest) -> Operand:
    """A number that no descriptor has, mostly, and never one of the console's."""
    return guest.rng.choice([3, 4, 9, 255, 256, 0x7FFFFFFF, 0xFFFFFFFF])


# calls of the kernel, with any arguments: most are refused
WILD: dict[Call, list[Argument]] = {
    Call.EVENTFD2: [wild, wild], Call.DUP: [not_console], Call.DUP3: [descriptor, not_console, wild],
    Call.FCNTL: [descriptor, wild, wild], Call.UNLINKAT: [wild, buffer(32, 4), wild],
    Call.OPENAT: [wild, buffer(32, 4), wild, wild], Call.CLOSE: [not_console], Call.PIPE2: [buffer(8, 6), wild],
    Call.LSEEK: [descriptor, wild, wild], Call.KILL: [process, unsent], Call.GETPID: [], Call.GETPPID: [],
    Call.SOCKET: [wild, wild, wild], Call.SOCKETPAIR: [wild, wild, wild, buffer(8, 6)],
    Call.BIND: [descriptor, buffer(16, 4), lambda guest: 16], Call.LISTEN: [descriptor, wild],
    Call.ACCEPT: [descriptor, or_none(buffer(64, 6)), buffer(4, 6)],
    Call.CONNECT: [descriptor, buffer(16, 4), lambda guest: 16],
    Call.GETSOCKNAME: [descriptor, buffer(64, 6), buffer(4, 6)],
    Call.GETPEERNAME: [descriptor, buffer(64, 6), buffer(4, 6)],
    Call.SETSOCKOPT: [descriptor, wild, wild, wild, wild], Call.SHUTDOWN: [descriptor, wild],
    Call.WAIT4: [wild, or_none(buffer(4, 6)), wild, wild],
}

# those that have a buffer in their first, second or fourth argument
FAULTING = [Call.UNLINKAT, Call.OPENAT, Call.PIPE2, Call.SOCKETPAIR, Call.BIND, Call.CONNECT, Call.WAIT4]

LOCAL: dict[Call, list[Argument]] = {
    Call.SCHED_YIELD: [wild, wild], Call.GETTID: [],
    Call.MUNMAP: [lambda guest: guest.layout.edge(guest.rng), length],
    Call.TGKILL: [process, thread, unsent],
}


def of_table(guest: Guest, call: Call, kinds: list[Argument]) -> None:
    guest.call(call, *[kind(guest) for kind in kinds])


def wild_calls(guest: Guest) -> None:
    for call in guest.rng.sample(list(WILD), 3):
        of_table(guest, call, WILD[call])


def bad_place(guest: Guest) -> None:
    """A call with a buffer that is not there."""
    place = guest.layout.page_without(guest.rng, 4).address
    guest.call(guest.rng.choice(FAULTING), place, place, 16, place)


def read(guest: Guest) -> None:
    """A read of the console, which gives nothing, into any buffer."""
    count = guest.rng.choice([0, 1, 8, 255, 65536, 65537, 0xFFFFFFFF])
    guest.call(Call.READ, descriptor(guest), buffer(min(count, 200), 6)(guest), count)


def named_length(guest: Guest) -> None:
    """A call whose length stands in memory: it decides how much must be writable."""
    call = guest.rng.choice([Call.ACCEPT, Call.GETSOCKNAME, Call.GETPEERNAME])
    place = guest.data.word(guest.rng.choice([0, 1, 16, 64, 65536, 0xFFFFFFFF]))
    guest.call(call, descriptor(guest), or_none(buffer(64, 6))(guest), place)


def path(guest: Guest) -> None:
    """A path that ends, within 256 bytes, at a page's end, or doesn't."""
    size = guest.rng.choice([0, 1, 255, 256, 300])
    text = bytes(guest.rng.randrange(1, 256) for _ in range(size)) + b"\0"
    page = guest.layout.page_with(guest.rng, 4)
    place = guest.rng.choice([guest.data.place(text), page.address + 4096 - guest.rng.randrange(1, 12)])
    guest.call(guest.rng.choice([Call.OPENAT, Call.UNLINKAT]), wild(guest), place, wild(guest), wild(guest))


def asks(guest: Guest) -> None:
    """Asks whether some process has some thread."""
    for _ in range(3):
        guest.call(Call.TGKILL, process(guest), thread(guest), 0)


def local(guest: Guest) -> None:
    for call in guest.rng.sample(list(LOCAL), 2):
        of_table(guest, call, LOCAL[call])
    mix_registers(guest)


def unknown(guest: Guest) -> None:
    guest.call(guest.rng.choice(ODD_NUMBERS), wild(guest), wild(guest), wild(guest))


def write(guest: Guest) -> None:
    place, count = writing(guest)
    guest.call(Call.WRITE, descriptor(guest), place, count)


def futex(guest: Guest) -> None:
    """A futex call that does not wait: the word is another one or not there, or the call is refused."""
    kind = operation(guest)
    place = guest.layout.page_without(guest.rng, 4).address if guest.rng.random() < 0.2 else aligned_word(guest)
    variant = {0: Futex.WAIT, 128: Futex.WAIT, 1: Futex.WAKE, 129: Futex.WAKE}.get(kind, Futex.OTHER)
    value = ready_word(guest) if variant is Futex.WAIT else guest.rng.choice([0, 1, 2, 64, 0xFFFFFFFF])
    guest.call(Call.FUTEX, place, kind, value, no_timeout(guest), variant=variant)


def clone(guest: Guest) -> None:
    """A clone that is refused."""
    guest.call(Call.CLONE, refused_flags(guest), wild(guest), buffer(4, 6)(guest), wild(guest), buffer(4, 6)(guest))
    mix_own(guest)


def old_action(guest: Guest) -> None:
    """Asks what is done on a signal, and mixes what it is told."""
    guest.call(Call.RT_SIGACTION, signal(guest), 0, OwnPlace(Area.BYTES), eight(guest))
    mix_own(guest)


def bad_action(guest: Guest) -> None:
    """An action that is refused: for its signal, its size or one of its buffers."""
    rng = guest.rng
    bad = rng.randrange(4)
    missing = guest.layout.page_without(rng, 4).address
    new = rng.choice([missing, buffer(16, 4)(guest)]) if bad == 0 else guest.scratch
    old = rng.choice([missing, buffer(16, 6)(guest)]) if bad == 1 else rng.choice([0, OwnPlace(Area.BYTES)])
    which = rng.choice([0, 9, 19, 32, 0xFFFFFFFF]) if bad != 2 else 19
    size = rng.choice([0, 4, 16]) if bad == 3 else 8
    guest.call(Call.RT_SIGACTION, which, new, old, size)
    mix_own(guest)


def mask(guest: Guest) -> None:
    """Sets a mask of any bits but those of traps, asks for it, and puts back the old one."""
    bits = guest.rng.getrandbits(32) & ~0x458
    new = guest.data.place(bits.to_bytes(4, "little") + guest.rng.randbytes(4))
    guest.call(Call.RT_SIGPROCMASK, guest.rng.randrange(3), new, OwnPlace(Area.BYTES), 8)
    guest.call(Call.RT_SIGPROCMASK, guest.rng.randrange(3), 0, OwnPlace(Area.BYTES + 8), 8)
    guest.call(Call.RT_SIGPROCMASK, How.SET, OwnPlace(Area.BYTES), 0, 8)
    mix_own(guest)


def bad_mask(guest: Guest) -> None:
    """A mask from and to any buffers, with any size, and then the old one again."""
    guest.call(Call.RT_SIGPROCMASK, 0, 0, OwnPlace(Area.BYTES), 8)
    of_table(guest, Call.RT_SIGPROCMASK, [how, or_none(buffer(8, 4)), or_none(buffer(8, 6)), eight])
    guest.call(Call.RT_SIGPROCMASK, How.SET, OwnPlace(Area.BYTES), 0, 8)


def same_buffers(guest: Guest) -> None:
    """A call whose two buffers are one."""
    place = OwnPlace(Area.BYTES)
    if guest.rng.random() < 0.5:
        guest.call(Call.RT_SIGPROCMASK, 0, place, place, 8)
        guest.call(Call.RT_SIGPROCMASK, 2, place, 0, 8)
    else:
        guest.call(Call.RT_SIGACTION, 29, 0, place, 8)
        guest.call(Call.RT_SIGACTION, 29, place, place, 8)
    mix_own(guest)


def mapping(guest: Guest) -> None:
    """A mapping of a random length, with random flags, mostly unmapped again."""
    flags = guest.rng.choice([PRIVATE | ANONYMOUS] * 5 + [0, 2, 0x20, 0x21, 0x32, 0xFFFFFFFF])
    guest.ask(Call.MMAP, wild(guest), length(guest), protection(guest), flags, wild(guest), wild(guest))
    guest.text.copy(9, A0)
    guest.record(tag_of(Tag.CALL, Call.MMAP), Register(A0))
    if guest.rng.random() < 0.7:
        guest.call(Call.MUNMAP, Register(9), length(guest))


def mix_scratch(guest: Guest) -> None:
    mix_memory(guest, guest.scratch, 64)


SNIPPETS = [wild_calls, wild_calls, wild_calls, bad_place, read, named_length, path, local, local, asks, unknown, write,
            write, futex, futex, clone, old_action, bad_action, mask, bad_mask, same_buffers, mapping, mix_scratch]
