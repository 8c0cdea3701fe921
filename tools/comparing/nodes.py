"""Words that say on which nodes a call's hosts are, and what numbers nodes give out (docs/CLI.md, "Nodes")."""

import random
from collections.abc import Sequence
from dataclasses import dataclass

from model.words import HOSTS, NODES, PID_BASE, PORT_BASE, SHIFT

MOST_NODES = len(HOSTS)
SHIFTS = range(MOST_NODES)
PID_BASES = [1, 2, 999, 1000, 2000, 39_999, 40_000, 40_001, 65_535, 999_999_999, 1_000_000_000]
PORT_BASES = [1024, 1025, 20_000, 30_000, 32_767, 32_768, 40_000, 57_343, 57_344]
PIDS, PORTS = range(1, 1_000_000_001), range(1024, 57_345)
SAID = 0.8
"""How often an option stands there."""


@dataclass(frozen=True)
class Nodes:
    """Where the hosts of a restart are: host h on node (h + shift) mod nodes, which gives out numbers of
    processes and ports from the bases on."""

    nodes: int
    shift: int
    pid_base: int
    port_base: int

    def words(self) -> list[str]:
        """The options that say so."""
        numbers = {NODES: self.nodes, SHIFT: self.shift, PID_BASE: self.pid_base, PORT_BASE: self.port_base}
        return [word for name, number in numbers.items() for word in (name, str(number))]


def nodes_needed(words: Sequence[str]) -> int:
    """How many nodes the hosts of a launch need, or more, where a file's name looks like a program."""
    hosts = (HOSTS.get(word.partition(":")[0], 0) for word in words if ":" in word)
    return 1 + max(hosts, default=0)


def options_of_nodes(rng: random.Random, words: Sequence[str]) -> list[tuple[str, int]]:
    """The options of nodes that a call may have, each with some number."""
    if words[:1] == ["launch"]:
        return [(NODES, rng.randint(nodes_needed(words), MOST_NODES))]
    if words[:1] != ["restart"]:
        return []
    pid_base = rng.choice([*PID_BASES, rng.choice(PIDS)])
    port_base = rng.choice([*PORT_BASES, rng.choice(PORTS)])
    nodes, shift = rng.randint(1, MOST_NODES), rng.choice(SHIFTS)
    return [(NODES, nodes), (SHIFT, shift), (PID_BASE, pid_base), (PORT_BASE, port_base)]


def on_nodes(rng: random.Random, words: Sequence[str]) -> list[str]:
    """The same call on other nodes, but for what its words say of them already."""
    chosen = [(name, str(number)) for name, number in options_of_nodes(rng, words)
              if rng.random() < SAID and name not in words]
    rng.shuffle(chosen)
    return [*words[:1], *(word for option in chosen for word in option), *words[1:]]
