"""A random guest: which snippets its threads are made of, and how it ends."""

import enum
import random
from collections.abc import Callable
from dataclasses import dataclass

from guests import calls, compute, families, memory, nets, sharing, signals, threads, traps
from guests.builder import A0, AREA, SP, T1, TAG, VALUE, Area, Guest, Place
from guests.events import Death, Mark
from guests.handlers import Handler, install, put_handlers
from guests.layout import LINK, layout_of, strip_segments
from guests.numbers import Call
from guests.routines import mix_registers, put_routines
from riscv import store_word

Snippet = Callable[[Guest], None]
WORKERS = 3  # threads of random snippets that the first one makes at most


class Theme(enum.Enum):
    """What a guest does most."""

    ALL = enum.auto()
    CALLS = enum.auto()
    MEMORY = enum.auto()
    SIGNALS = enum.auto()
    TRAPS = enum.auto()
    THREADS = enum.auto()
    DEEP = enum.auto()
    CROWD = enum.auto()
    FULL = enum.auto()
    SHARING = enum.auto()
    FAMILIES = enum.auto()
    NETS = enum.auto()


class Ending(enum.Enum):
    """How the first thread ends."""

    ENDS_ALL = enum.auto()
    LEAVES = enum.auto()
    LEAVES_FIRST = enum.auto()
    DIES = enum.auto()
    WAITS_FOR_EVER = enum.auto()
    RUNS_OFF = enum.auto()


THEMES = [Theme.ALL] * 4 + [Theme.CALLS, Theme.MEMORY, Theme.SIGNALS, Theme.SIGNALS, Theme.TRAPS, Theme.TRAPS] + [
    Theme.THREADS] * 3 + [Theme.DEEP, Theme.CROWD, Theme.FULL]
THEMES_OF_JOBS = [Theme.SHARING] * 2 + [Theme.FAMILIES] * 4 + [Theme.NETS] * 3 + [Theme.ALL]
ENDINGS = [Ending.ENDS_ALL] * 3 + [Ending.LEAVES] * 4 + [Ending.LEAVES_FIRST] * 2 + [Ending.DIES] * 5 + [
    Ending.WAITS_FOR_EVER, Ending.RUNS_OFF]

EVERY: list[Snippet] = [*compute.SNIPPETS, *calls.SNIPPETS, *memory.SNIPPETS, *signals.SNIPPETS, *traps.SNIPPETS]
SNIPPETS: dict[Theme, list[Snippet]] = {
    Theme.ALL: EVERY,
    Theme.CALLS: [*calls.SNIPPETS, compute.compute],
    Theme.MEMORY: [*memory.SNIPPETS, *compute.SNIPPETS],
    Theme.SIGNALS: [*signals.SNIPPETS, calls.mask],
    Theme.TRAPS: [*traps.SNIPPETS, compute.compute, signals.handled],
    Theme.THREADS: [*threads.SNIPPETS, *threads.SNIPPETS, compute.loop, signals.signal_others, calls.futex],
    Theme.DEEP: [compute.compute, calls.local],
    Theme.CROWD: [compute.compute],
    Theme.FULL: [*memory.SNIPPETS],
    Theme.SHARING: [*sharing.SNIPPETS, *sharing.REFUSING, calls.mix_scratch, threads.hand_over],
    Theme.FAMILIES: [*families.SNIPPETS, *families.SNIPPETS, *sharing.SNIPPETS],
    Theme.NETS: [*nets.SNIPPETS, *nets.SNIPPETS, families.serves_itself, families.chats, sharing.mess],
}
SIZES: dict[Theme, tuple[int, int]] = {
    Theme.DEEP: (1, 4), Theme.CROWD: (1, 3), Theme.FULL: (2, 5), Theme.FAMILIES: (2, 8), Theme.NETS: (2, 6)}
USUAL_SIZE = (6, 16)


@dataclass
class Made:
    """A guest's file, and what it was made of."""

    file: bytes
    theme: Theme
    ending: Ending


def put_start(guest: Guest) -> None:
    """The first words: what registers and stack hold, the thread's number, the break, and the first handlers."""
    text = guest.text
    text.label("start")
    text.number(AREA, guest.areas[0])
    mix_registers(guest)
    text.copy(TAG, SP)
    text.number(VALUE, 8)
    text.jump("mix_memory", LINK)
    guest.call(Call.GETTID)
    text.put(store_word("sw", A0, Area.TID, AREA))
    guest.call(Call.BRK, 0)
    text.number(T1, guest.heap)
    text.put(store_word("sw", A0, 0, T1))
    if guest.rng.random() < 0.85:
        traps.guard_all(guest)
    install(guest, guest.nested_signal, Handler.PLAIN.place())


def put_some(guest: Guest, theme: Theme, most: int) -> None:
    """Random snippets, and now and then the records."""
    for _ in range(guest.rng.randint(1, most)):
        guest.rng.choice(SNIPPETS[theme])(guest)
        if guest.rng.random() < 0.15:
            guest.flush()


def put_worker(guest: Guest) -> None:
    """A thread of random snippets."""
    def body() -> None:
        put_some(guest, guest.rng.choice([Theme.ALL, Theme.CALLS, Theme.SIGNALS, Theme.TRAPS]), 5)
        if guest.rng.random() < 0.08:
            end_all(guest)
        else:
            threads.leave(guest)

    joinable = guest.rng.random() < 0.5
    spawned = threads.spawn(guest, body, joinable)
    if joinable and guest.rng.random() < 0.7:
        threads.join(guest, spawned)


def put_theme(guest: Guest, theme: Theme) -> None:
    """The snippets of the first thread."""
    least, most = SIZES.get(theme, USUAL_SIZE)
    chosen: list[Snippet] = [guest.rng.choice(SNIPPETS[theme]) for _ in range(guest.rng.randint(least, most))]
    if theme in (Theme.ALL, Theme.CALLS, Theme.MEMORY, Theme.SIGNALS, Theme.TRAPS):
        chosen += [put_worker] * guest.rng.randint(0, WORKERS)
    if theme is Theme.ALL and guest.rng.random() < 0.5:
        chosen.append(guest.rng.choice(threads.SNIPPETS))
    special = {Theme.DEEP: signals.deep, Theme.CROWD: threads.crowd, Theme.FULL: memory.fill}
    guest.rng.shuffle(chosen)
    if theme in special:
        chosen.insert(guest.rng.randrange(len(chosen) + 1), special[theme])
    for snippet in chosen:
        snippet(guest)
        if guest.rng.random() < 0.1:
            guest.flush()


def end_all(guest: Guest) -> None:
    guest.mark(Mark.ENDS_ALL)
    guest.flush()
    guest.ask(Call.EXIT_GROUP, guest.rng.randrange(256))


def leave_first(guest: Guest) -> None:
    """The first thread ends, and another one goes on and is told of it by the word that the end clears."""
    word = guest.data.word(1)

    def heir() -> None:
        threads.wait(guest, word, 1)
        guest.mark(Mark.OUTLIVES)
        put_some(guest, Theme.ALL, 3)
        threads.leave(guest)

    threads.spawn(guest, heir)
    guest.call(Call.SET_TID_ADDRESS, word)
    threads.yields(guest, guest.rng.randrange(3))
    threads.leave(guest)


def put_ending(guest: Guest, ending: Ending) -> None:
    match ending:
        case Ending.ENDS_ALL:
            end_all(guest)
        case Ending.LEAVES:
            threads.leave(guest)
        case Ending.LEAVES_FIRST:
            leave_first(guest)
        case Ending.DIES:
            traps.die(guest, guest.rng.choice(list(Death)))
            end_all(guest)
        case Ending.WAITS_FOR_EVER:
            guest.mark(Mark.WAITS_FOR_EVER)
            guest.flush()
            threads.wait(guest, guest.data.word(), 0)
            end_all(guest)
        case Ending.RUNS_OFF:
            guest.flush()
            guest.text.jump("end")


def make_guest(rng: random.Random, place: Place = Place(), themes: list[Theme] = THEMES) -> Made:
    """The guest that this source of numbers makes, for a place in a job."""
    theme, ending = rng.choice(themes), rng.choice(ENDINGS)
    guest = Guest(rng, layout_of(rng), place)
    put_start(guest)
    put_theme(guest, theme)
    put_ending(guest, ending)
    guest.put_all_later()
    put_routines(guest)
    put_handlers(guest)
    guest.put_all_later()
    guest.text.label("end")  # what stands there is no instruction
    return Made(guest.file(strip_segments(rng, guest.layout)), theme, ending)
