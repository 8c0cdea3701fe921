"""What holds of every state that a run reaches from a start: conditions by name, as the manual's words give them.

A set can spell states of which less holds: a mask or what is pending may have any signal there.
"""

from .state import Machine
from .valid_channels import CHANNEL_CONDITIONS
from .valid_descriptions import DESCRIPTION_CONDITIONS
from .valid_processes import PROCESS_CONDITIONS
from .view import Condition, View

CONDITIONS: dict[str, Condition] = {**PROCESS_CONDITIONS, **DESCRIPTION_CONDITIONS, **CHANNEL_CONDITIONS}


def broken(machine: Machine) -> list[str]:
    """The names of the conditions that a state does not meet."""
    view = View(machine)
    return [name for name, holds in CONDITIONS.items() if not holds(view)]
