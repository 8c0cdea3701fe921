"""A reference model of `dmtcp`, written from its manual alone (docs/, README.md): what a call leaves, byte for byte.

It knows ample memory, and a disk, inputs and sinks that never fail. `validity` says what holds of every state.
"""

from .session import Outcome, Status, run

__all__ = ["Outcome", "Status", "run"]
