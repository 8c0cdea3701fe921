"""Rows of internet sockets (docs/CALLS.md, "Internet sockets")."""

from .addresses import (
    ADDRESS_SIZE,
    FAMILY_INTERNET,
    automatic_port,
    family_of,
    host_of,
    listener_at,
    other_address,
    own_address,
    port_of,
    used_ports,
)
from .closing import ACCEPTING_SIDE
from .numbers import Errno, Number, OpenFlag
from .objects import (
    NONBLOCK,
    READ_AND_WRITE,
    Address,
    Channel,
    ChannelEnd,
    ChannelKind,
    DatagramEnd,
    Description,
    Listener,
    Socket,
)
from .pairs import INTERNET_DOMAIN, MADE_FLAGS, STREAMS, TYPE_MASK
from .rows import Caller, Effect, Failed, Row, test, wait_on

PROTOCOLS = (0, 6)
BACKLOG_LIMIT = 128
CONNECTING_SIDE = 0
READ_NO_MORE, SEND_NO_MORE, BOTH = 0, 1, 2


def _socket_description(caller: Caller) -> Description:
    """The description of a socket, listener, end of a pair or connection, or datagram end; EBADF, ENOTSOCK."""
    description = caller.description()
    what = description.object
    test(isinstance(what, Socket | Listener | ChannelEnd | DatagramEnd), Errno.ENOTSOCK)
    if isinstance(what, ChannelEnd):
        test(caller.machine.channels[what.channel].kind is not ChannelKind.PIPE, Errno.ENOTSOCK)
    return description


def _socket(caller: Caller) -> Effect:
    """Call 198."""
    domain, kind, protocol = (caller.argument(index) for index in range(3))
    test(domain == INTERNET_DOMAIN, Errno.EAFNOSUPPORT)
    known = kind & TYPE_MASK == STREAMS and not kind & ~TYPE_MASK & ~MADE_FLAGS
    test(known and protocol in PROTOCOLS, Errno.EINVAL)
    caller.test_can_make()
    descriptor = caller.free_descriptor()

    def effect() -> int:
        made = caller.make_description(READ_AND_WRITE | kind & NONBLOCK, Socket(caller.process.host))
        return caller.refer(descriptor, made, bool(kind & OpenFlag.CLOEXEC))

    return effect


def _asked_address(caller: Caller) -> bytes:
    """The address in the guest's memory; EINVAL below 16 bytes."""
    test(caller.argument(2) >= ADDRESS_SIZE, Errno.EINVAL)
    return caller.process.memory.peek(caller.argument(1), ADDRESS_SIZE)


def _automatic(caller: Caller, host: int, error: Errno) -> int:
    """An automatic port, or the error where none is left."""
    port = automatic_port(caller.machine, host)
    if port is None:
        raise Failed(error)
    return port


def _bind(caller: Caller) -> Effect:
    """Call 200."""
    description = _socket_description(caller)
    found, asked = description.object, _asked_address(caller)
    test(isinstance(found, Socket) and found.port is None, Errno.EINVAL)
    test(family_of(asked) == FAMILY_INTERNET, Errno.EAFNOSUPPORT)
    test(host_of(asked, found.host) == found.host, Errno.EADDRNOTAVAIL)
    port = port_of(asked) or _automatic(caller, found.host, Errno.EADDRINUSE)
    test(port not in used_ports(caller.machine, found.host), Errno.EADDRINUSE)

    def effect() -> int:
        description.object = Socket(found.host, port)
        return 0

    return effect


def _listen(caller: Caller) -> Effect:
    """Call 201."""
    description = _socket_description(caller)
    found = description.object
    test(not isinstance(found, DatagramEnd), Errno.EOPNOTSUPP)
    test(isinstance(found, Socket), Errno.EINVAL)
    address = found.address() or Address(found.host, _automatic(caller, found.host, Errno.EADDRINUSE))
    backlog = min(max(caller.argument(1), 1), BACKLOG_LIMIT)

    def effect() -> int:
        description.object = Listener(address, backlog)
        return 0

    return effect


def _put_address(caller: Caller, data: bytes) -> int:
    """Writes as much of an address as there is room for, and then its length."""
    place, length_place = caller.argument(1), caller.argument(2)
    room = caller.word_at(length_place)
    caller.process.memory.poke(place, data[:room])
    caller.put_word(length_place, len(data))
    return 0


def _accept(caller: Caller) -> Effect:
    """Call 202."""
    description = _socket_description(caller)
    listener = description.object
    test(isinstance(listener, Listener), Errno.EINVAL)
    caller.test_can_make()
    descriptor = caller.free_descriptor()
    if not listener.waiting:
        wait_on(description)

    def effect() -> int:
        end = ChannelEnd(listener.waiting.popleft(), ACCEPTING_SIDE)
        made = caller.make_description(READ_AND_WRITE, end)
        if caller.argument(1):
            _put_address(caller, other_address(caller.machine, caller.machine.descriptions[made]))
        return caller.refer(descriptor, made, False)

    return effect


def _asked_listener(caller: Caller, own: int) -> Listener:
    """Who listens at the address that `connect` names."""
    asked = _asked_address(caller)
    test(family_of(asked) == FAMILY_INTERNET, Errno.EAFNOSUPPORT)
    host = host_of(asked, own)
    found = None if host is None else listener_at(caller.machine, Address(host, port_of(asked)))
    if found is None:
        raise Failed(Errno.ECONNREFUSED)
    return found


def _connect(caller: Caller) -> Effect:
    """Call 203."""
    description = _socket_description(caller)
    found = description.object
    test(not isinstance(found, DatagramEnd), Errno.EOPNOTSUPP)
    test(isinstance(found, Socket), Errno.EISCONN)
    listener = _asked_listener(caller, found.host)
    caller.test_can_make_channel()
    own = found.address() or Address(found.host, _automatic(caller, found.host, Errno.EADDRNOTAVAIL))
    if len(listener.waiting) >= listener.backlog:
        wait_on(description)

    def effect() -> int:
        name = caller.make_channel(Channel(ChannelKind.INTERNET, (own, listener.address)))
        description.object = ChannelEnd(name, CONNECTING_SIDE)
        listener.waiting.append(name)
        return 0

    return effect


def _getsockname(caller: Caller) -> Effect:
    """Call 204."""
    found = own_address(caller.machine, _socket_description(caller))
    return lambda: _put_address(caller, found)


def _getpeername(caller: Caller) -> Effect:
    """Call 205."""
    description = _socket_description(caller)
    test(isinstance(description.object, ChannelEnd | DatagramEnd), Errno.ENOTCONN)
    found = other_address(caller.machine, description)
    return lambda: _put_address(caller, found)


def _setsockopt(caller: Caller) -> Effect:
    """Call 208."""
    _socket_description(caller)
    return lambda: 0


def _shutdown(caller: Caller) -> Effect:
    """Call 210."""
    end, how = _socket_description(caller).object, caller.argument(1)
    test(not isinstance(end, DatagramEnd), Errno.EOPNOTSUPP)
    test(how <= BOTH, Errno.EINVAL)
    test(isinstance(end, ChannelEnd), Errno.ENOTCONN)
    channel = caller.machine.channels[end.channel]

    def effect() -> int:
        if how in (READ_NO_MORE, BOTH):
            channel.sent_to(end.side).make_unread()
        if how in (SEND_NO_MORE, BOTH):
            channel.sent_by(end.side).ended = True
        return 0

    return effect


SOCKET_ROWS: dict[int, Row] = {
    Number.SOCKET: _socket,
    Number.BIND: _bind,
    Number.LISTEN: _listen,
    Number.ACCEPT: _accept,
    Number.CONNECT: _connect,
    Number.GETSOCKNAME: _getsockname,
    Number.GETPEERNAME: _getpeername,
    Number.SETSOCKOPT: _setsockopt,
    Number.SHUTDOWN: _shutdown,
}
