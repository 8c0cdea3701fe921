"""A state as its conditions look at it: who holds each description, and which description is at each side."""

from collections import defaultdict
from dataclasses import dataclass, field
from typing import Callable, TypeVar

from .closing import ACCEPTING_SIDE
from .objects import ChannelEnd, ChannelName, Description, DescriptionName, Listener, Object
from .state import Machine, Process, Zombie

What = TypeVar("What", bound=Object)


@dataclass
class View:
    """A state, with the hosts of the holders of each description, how often each side of a channel is named by a
    description or by a listener's row, and the descriptions by the kind of their objects."""

    machine: Machine
    hosts: dict[DescriptionName, set[int]] = field(default_factory=lambda: defaultdict(set))
    named_sides: dict[tuple[ChannelName, int], int] = field(default_factory=lambda: defaultdict(int))
    by_kind: dict[type, list[tuple[DescriptionName, Object]]] = field(default_factory=lambda: defaultdict(list))

    def __post_init__(self) -> None:
        for name, description in self.machine.descriptions.items():
            self.by_kind[type(description.object)].append((name, description.object))
        for process in self.machine.processes.values():
            for descriptor in process.descriptors.values():
                self.hosts[descriptor.name].add(process.host)
        for _, end in self.objects(ChannelEnd):
            self.named_sides[end.channel, end.side] += 1
        for _, listener in self.objects(Listener):
            for connection in listener.waiting:
                self.named_sides[connection, ACCEPTING_SIDE] += 1

    def objects(self, kind: type[What]) -> list[tuple[DescriptionName, What]]:
        """The objects of a kind, with the names of their descriptions."""
        return self.by_kind[kind]

    def descriptions(self) -> list[tuple[DescriptionName, Description]]:
        """All descriptions with their names."""
        return list(self.machine.descriptions.items())

    def live(self) -> list[Process]:
        """The processes that live."""
        return list(self.machine.processes.values())

    def present(self) -> list[Process | Zombie]:
        """The processes that live and those that have ended and are still there."""
        return [*self.machine.processes.values(), *self.machine.zombies.values()]

    def is_held_on(self, name: DescriptionName, host: int) -> bool:
        """Whether a description is held on a host and nowhere else."""
        return self.hosts[name] == {host}


Condition = Callable[[View], bool]
