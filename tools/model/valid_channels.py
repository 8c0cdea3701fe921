"""What holds of the channels, sockets and listeners of every state (docs/CALLS.md, "Words", "Closing", "Internet
sockets")."""

from collections import Counter

from .closing import ACCEPTING_SIDE
from .objects import Address, Channel, ChannelEnd, ChannelKind, Direction, Listener, Socket
from .pairs import READING_SIDE
from .rows import CHANNELS_LIMIT
from .sockets import BACKLOG_LIMIT, CONNECTING_SIDE
from .transfers import DIRECTION_LIMIT
from .valid_processes import HOSTS
from .view import Condition, View

SIDES = (0, 1)
PORTS = range(1, 65_536)


def _channels(view: View) -> list[Channel]:
    return list(view.machine.channels.values())


def _directions(view: View) -> list[Direction]:
    return [direction for channel in _channels(view) for direction in channel.directions]


def _listeners(view: View) -> list[Listener]:
    return [listener for _, listener in view.objects(Listener)]


def _ends(view: View) -> bool:
    """An open side is named once, by a description or by a place of a listener's row, and nothing else is named."""
    open_sides = {(name, side): 1 for name, channel in view.machine.channels.items() for side in channel.open_sides}
    return open_sides == view.named_sides


def _closed(view: View) -> bool:
    closed = [(channel, side) for channel in _channels(view) for side in SIDES if side not in channel.open_sides]
    return all(channel.sent_by(side).ended and channel.sent_to(side).unread for channel, side in closed)


def _pipe_fits(channel: Channel) -> bool:
    """A pipe's directions end by closing alone, and the reading side has sent nothing."""
    by_closing = all(
        channel.sent_by(side).ended == channel.sent_to(side).unread == (side not in channel.open_sides)
        for side in SIDES)
    return by_closing and not channel.sent_by(READING_SIDE).data


def _pipes(view: View) -> bool:
    return all(_pipe_fits(channel) for channel in _channels(view) if channel.kind is ChannelKind.PIPE)


def _is_address(address: Address) -> bool:
    return 0 <= address.host < HOSTS and address.port in PORTS


def _addresses(view: View) -> bool:
    has = all((one.kind is ChannelKind.INTERNET) == (one.addresses is not None) for one in _channels(view))
    of_channels = [address for channel in _channels(view) for address in channel.addresses or ()]
    bound = [what.address() for _, what in view.objects(Socket) if what.port is not None]
    listening = [listener.address for listener in _listeners(view)]
    return has and all(_is_address(address) for address in of_channels + bound + listening)


def _end_hosts(view: View) -> bool:
    """An internet end is held on the host of its address, and both ends of a pair or a pipe on one host."""
    known = [(name, what) for name, what in view.objects(ChannelEnd) if what.channel in view.machine.channels]
    ends = {(what.channel, what.side): name for name, what in known}
    for (channel, side), name in ends.items():
        addresses, other = view.machine.channels[channel].addresses, ends.get((channel, 1 - side))
        if addresses is not None and not view.is_held_on(name, addresses[side].host):
            return False
        if addresses is None and other is not None and view.hosts[name] != view.hosts[other]:
            return False
    return True


def _socket_hosts(view: View) -> bool:
    sockets = all(view.is_held_on(name, what.host) for name, what in view.objects(Socket))
    return sockets and all(view.is_held_on(name, what.address.host) for name, what in view.objects(Listener))


def _ports(view: View) -> bool:
    """An address is one socket's, one listener's or one connecting side's; what a listener accepted shares its own."""
    sides = [channel.addresses for channel in _channels(view) if channel.addresses is not None]
    connecting = [addresses[CONNECTING_SIDE] for addresses in sides]
    accepting = {addresses[ACCEPTING_SIDE] for addresses in sides}
    bound = [what.address() for _, what in view.objects(Socket) if what.port is not None]
    listening = [listener.address for listener in _listeners(view)]
    alone = all(count == 1 for count in Counter(connecting + bound + listening).values())
    return alone and not accepting & set(connecting + bound)


def _backlogs(view: View) -> bool:
    return all(1 <= one.backlog <= BACKLOG_LIMIT and len(one.waiting) <= one.backlog for one in _listeners(view))


def _is_new(channel: Channel, address: Address) -> bool:
    """Whether a channel leads to an address, and its accepting side has done nothing yet."""
    answers = channel.sent_by(ACCEPTING_SIDE)
    leads = channel.addresses is not None and channel.addresses[ACCEPTING_SIDE] == address
    return leads and not answers.data and not answers.ended and not channel.sent_to(ACCEPTING_SIDE).unread


def _waiting(view: View) -> bool:
    channels = view.machine.channels
    return all(
        name in channels and _is_new(channels[name], listener.address)
        for listener in _listeners(view) for name in listener.waiting)


CHANNEL_CONDITIONS: dict[str, Condition] = {
    "there are at most 256 channels": lambda view: len(view.machine.channels) <= CHANNELS_LIMIT,
    "a channel has an open side": lambda view: all(channel.open_sides for channel in _channels(view)),
    "an open side is named once, by a description or a listener, and no other side is": _ends,
    "what a closed side sends is ended, and what it is sent is unread": _closed,
    "an unread direction has no bytes": lambda view: all(not one.data for one in _directions(view) if one.unread),
    "a direction has at most 65,536 bytes, of which no more have arrived": lambda view: all(
        0 <= one.arrived <= len(one.data) <= DIRECTION_LIMIT for one in _directions(view)),
    "a pipe's directions end by closing alone, and its reading side sends nothing": _pipes,
    "sides of internet channels, and they alone, have addresses; ports are 1 to 65,535": _addresses,
    "an internet end is held on the host of its address, and other ends on one host": _end_hosts,
    "a socket and a listener are held on their host": _socket_hosts,
    "an address is used once, but for what a listener at it accepts": _ports,
    "a backlog is 1 to 128, and no more connections wait": _backlogs,
    "a connection that waits leads to its listener, which has not touched it": _waiting,
}
