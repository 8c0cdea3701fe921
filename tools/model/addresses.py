"""Addresses of sockets, as bytes and as places, and which ports are used (docs/CALLS.md, "Internet sockets")."""

from .objects import Address, ChannelEnd, Description, Listener, Object, Socket
from .state import Machine

FAMILY_INTERNET = 2
ADDRESS_SIZE = 16
HOSTS = 16
NETWORK = bytes([10, 0, 0])
ANY_HOST, LOOPBACK = bytes(4), bytes([127, 0, 0, 1])
AUTOMATIC_PORTS = range(32_768, 61_000)
PAIR_ADDRESS = bytes([1, 0])
"""The address of an end of a pair."""
NO_ADDRESS = FAMILY_INTERNET.to_bytes(2, "little") + bytes(14)
"""The address of a socket that isn't bound."""


def address_bytes(address: Address) -> bytes:
    """An address in 16 bytes."""
    family, port = FAMILY_INTERNET.to_bytes(2, "little"), address.port.to_bytes(2, "big")
    return family + port + NETWORK + bytes([address.host + 1]) + bytes(8)


def family_of(data: bytes) -> int:
    """The family of an address in 16 bytes."""
    return int.from_bytes(data[:2], "little")


def port_of(data: bytes) -> int:
    """The port of an address in 16 bytes."""
    return int.from_bytes(data[2:4], "big")


def host_of(data: bytes, own: int) -> int | None:
    """The host of an address in 16 bytes, as a process of a host sees it; None where there is no such host."""
    host = data[4:8]
    if host in (ANY_HOST, LOOPBACK):
        return own
    return host[3] - 1 if host[:3] == NETWORK and 1 <= host[3] <= HOSTS else None


def _address_of(what: Object) -> Address | None:
    """The address that a socket is bound to, or at which somebody listens."""
    if isinstance(what, Socket):
        return what.address()
    return what.address if isinstance(what, Listener) else None


def used_ports(machine: Machine, host: int) -> set[int]:
    """The ports that are used on a host."""
    found = [_address_of(description.object) for description in machine.descriptions.values()]
    for channel in machine.channels.values():
        found += channel.addresses or []
    return {address.port for address in found if address is not None and address.host == host}


def automatic_port(machine: Machine, host: int) -> int | None:
    """The least automatic port that is not used on a host."""
    used = used_ports(machine, host)
    return next((port for port in AUTOMATIC_PORTS if port not in used), None)


def listener_at(machine: Machine, address: Address) -> Listener | None:
    """Who listens at an address."""
    for description in machine.descriptions.values():
        if isinstance(description.object, Listener) and description.object.address == address:
            return description.object
    return None


def _written(address: Address | None) -> bytes:
    return PAIR_ADDRESS if address is None else address_bytes(address)


def own_address(machine: Machine, description: Description) -> bytes:
    """The address of a socket, a listener, an end of a channel or a datagram end."""
    what = description.object
    if isinstance(what, Socket):
        return NO_ADDRESS if what.port is None else address_bytes(what.address())
    if isinstance(what, ChannelEnd):
        addresses = machine.channels[what.channel].addresses
        return _written(addresses and addresses[what.side])
    return _written(_address_of(what))


def other_address(machine: Machine, description: Description) -> bytes:
    """The address of the other side of a channel or of a datagram pair."""
    what = description.object
    if isinstance(what, ChannelEnd):
        addresses = machine.channels[what.channel].addresses
        return _written(addresses and addresses[1 - what.side])
    return PAIR_ADDRESS
