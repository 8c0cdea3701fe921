"""The trace of a call, told by the model: what stands beside the files of two that differ."""

from pathlib import Path

from comparing.cases import TRACE_FILE, Case
from model import Outcome, session
from model.state import Machine
from model.store import SetDamaged, Store
from model.words import Usage, Verb, read_words
from showing.replay import NoStep, Replay
from showing.traces import read_trace, record_lines, record_text

TOLD_FILE = f"{TRACE_FILE}.told"


def start_of(case: Case) -> Machine | None:
    """The state in which a call begins, where the model knows one."""
    try:
        command = read_words(case.words)
        if command.verb is Verb.LAUNCH:
            return session.launched(command, case.files.get)
        store = Store(case.sets)
        counting = store.counting()
        return store.get_machine(counting.slot) if counting else None
    except (Usage, session.Ended, SetDamaged):
        return None


def told(case: Case, outcome: Outcome) -> list[str]:
    """A line for each record, up to the first that is no step."""
    records, _ = read_trace(outcome.trace or b"")
    start, texts = start_of(case), []
    replay = Replay(start) if start else None
    for record in records:
        try:
            texts.append(replay.step(record) if replay else record_text(record))
        except NoStep as reason:
            return [*record_lines(records, texts), f"no step: {record_text(record)}: {reason}"]
    return record_lines(records, texts)


def tell(case: Case, outcomes: dict[str, Outcome], folder: Path) -> None:
    """Puts what is told of each trace beside it."""
    for name, outcome in outcomes.items():
        (folder / name / TOLD_FILE).write_text("\n".join([*told(case, outcome), ""]))
