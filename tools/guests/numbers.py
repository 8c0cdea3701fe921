"""The numbers of calls and signals, and what their arguments may be."""

import enum

from model.numbers import CloneFlag as Clone
from model.numbers import Errno
from model.numbers import Number as Call

__all__ = ["Call", "Clone", "Errno"]

SIGNALS = range(1, 32)
TRAPS = [4, 5, 7, 11]
IGNORED_BY_DEFAULT = [17, 23, 28]
NEVER_SENT = [18, 19, 20, 21, 22]
SA_NODEFER, SA_RESTART = 0x40000000, 0x10000000
PRIVATE, ANONYMOUS = 0x02, 0x20

NEW_THREAD = Clone.VM | Clone.FS | Clone.FILES | Clone.SIGHAND | Clone.THREAD
NUMBERS_TOLD = [Clone.PARENT_SETTID, Clone.CHILD_SETTID, Clone.CHILD_CLEARTID]
THREAD_OPTIONS = [*NUMBERS_TOLD, Clone.SETTLS, Clone.SYSVSEM]
NEW_PROCESS = 17


class How(enum.IntEnum):
    """What rt_sigprocmask does with its set."""

    BLOCK = 0
    UNBLOCK = 1
    SET = 2
