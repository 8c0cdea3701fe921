"""Snippets of internet sockets: programs that listen, and such that connect."""

from guests.builder import A0, Area, Guest, OwnPlace, Word
from guests.layout import STACK
from guests.numbers import Call
from guests.routines import mix_own
from guests.sharing import NONBLOCK, ask_address, does_not_block, ends_at_last, made, read, write

INTERNET, STREAM, TCP = 2, 1, 6
ADDRESS_BYTES = 16
PATIENCE = 8  # how often a program tries to connect
COUNT = 22  # the register that counts the tries
OWN_HOSTS = [bytes(4), bytes([127, 0, 0, 1])]


def address(guest: Guest, host: int, port: int) -> int:
    """The place of an address; that of the own host is spelled in any way."""
    own = [bytes([10, 0, 0, host + 1])]
    spelled = guest.rng.choice(own + OWN_HOSTS if host == guest.place.host else own)
    rest = guest.rng.choice([bytes(8), guest.rng.randbytes(8)])
    return guest.data.place(INTERNET.to_bytes(2, "little") + port.to_bytes(2, "big") + spelled + rest)


def socket(guest: Guest) -> int:
    """The word of a new socket."""
    rng = guest.rng
    return made(guest, Call.SOCKET, INTERNET, STREAM | rng.choice([0, 0, 0, NONBLOCK]), rng.choice([0, TCP]))


def listens(guest: Guest, host: int, port: int) -> int:
    """The word of a listener."""
    rng = guest.rng
    word = socket(guest)
    guest.call(Call.BIND, Word(word), address(guest, host, port), rng.choice([16, 16, 16, 17, 15]))
    guest.call(Call.LISTEN, Word(word), rng.choice([0, 1, 2, 2, 128, 129]))
    return word


def accepts(guest: Guest, listener: int) -> int:
    """The word of a connection that is waited for."""
    if guest.rng.random() < 0.5:
        return made(guest, Call.ACCEPT, Word(listener), 0, 0)
    guest.store(OwnPlace(Area.BYTES + 20), ADDRESS_BYTES)
    word = made(guest, Call.ACCEPT, Word(listener), OwnPlace(Area.BYTES), OwnPlace(Area.BYTES + 20))
    mix_own(guest)
    return word


def talks(guest: Guest, word: int) -> None:
    """Sends and reads on a connection, and ends it in some way."""
    rng = guest.rng
    for _ in range(rng.randint(1, 3)):
        rng.choice([read, write, write])(guest, Word(word))
    if rng.random() < 0.2:
        guest.call(Call.WRITE, Word(word), STACK, rng.choice([65_536, 30_000]))
    if rng.random() < 0.4:
        ask_address(guest, rng.choice([Call.GETSOCKNAME, Call.GETPEERNAME]), Word(word))
    if rng.random() < 0.4:
        guest.call(Call.SHUTDOWN, Word(word), rng.choice([0, 1, 1, 2]))
    ends_at_last(guest, word)


def serves(guest: Guest) -> None:
    """Listens on a port of its own host, and serves some connections."""
    own = [port for host, port in guest.place.servers if host == guest.place.host]
    word = listens(guest, guest.place.host, guest.rng.choice(own or [80]))
    if guest.rng.random() < 0.3:
        does_not_block(guest, Word(word))
    for _ in range(guest.rng.randint(1, 2)):
        talks(guest, accepts(guest, word))
    if guest.rng.random() < 0.7:
        guest.call(Call.CLOSE, Word(word))


def visits(guest: Guest) -> None:
    """Connects to a program that may listen, tries again while nobody does, and talks."""
    text, word = guest.text, socket(guest)
    place = address(guest, *guest.rng.choice(guest.place.servers))
    top, done = text.fresh("connect"), text.fresh("connected")
    text.number(COUNT, PATIENCE)
    text.label(top)
    guest.call(Call.CONNECT, Word(word), place, ADDRESS_BYTES)
    text.branch("bge", A0, 0, done)
    guest.ask(Call.SCHED_YIELD)
    guest.add(COUNT, -1)
    text.branch("bne", COUNT, 0, top)
    text.label(done)
    does_not_block(guest, Word(word))
    talks(guest, word)


def sockets(guest: Guest) -> None:
    """Sockets that are bound, or refused for what is wrong with an address or a kind."""
    rng = guest.rng
    if rng.random() < 0.3:
        made(guest, Call.SOCKET, *rng.choice([(1, 1, 0), (2, 2, 0), (2, 1, 17), (2, 1 | 0x10, 0)]))
    word = socket(guest)
    ask_address(guest, Call.GETSOCKNAME, Word(word))
    host = rng.choice([guest.place.host, guest.place.host, guest.place.host + 1])
    place = address(guest, host, rng.choice([0, 0, 80, 81, 40_000]))
    if rng.random() < 0.15:
        place = guest.data.place(bytes([1, 0]) + bytes(14))
    guest.call(Call.BIND, Word(word), place, ADDRESS_BYTES)
    ask_address(guest, Call.GETSOCKNAME, Word(word))
    does_not_block(guest, Word(word))
    for _ in range(rng.randrange(3)):
        rng.choice([read, write])(guest, Word(word))
    if rng.random() < 0.5:
        guest.call(rng.choice([Call.LISTEN, Call.CONNECT, Call.ACCEPT]), Word(word), place, ADDRESS_BYTES)
    ends_at_last(guest, word)


SNIPPETS = [serves, visits, visits, sockets]
