#!/usr/bin/env python3
"""Tries the bugs of a crate in few checks: must-fail/*.edit and *.md, and those listed in must-fail/tried.md.

    tools/try_together.py CRATE..         all bugs of these crates
    tools/try_together.py CRATE -n NAME   one of a crate (repeatable)

A function is proved by the contracts of those that it calls. So a check takes one bug of each function,
and what it says of that function alone is what it says of the bug; where a function falls only as one
that it calls does, its bug is tried once more, without the other's. A check goes over the modules alone
in which its bugs stand, with what these call. A bug that belongs to no function, as that of a constant,
has a check of its own, of the whole crate, in which any function may refuse it. `tools/try_edits.py` tries
each edit by itself, as the gate does.

A line is written for each bug, and at the end how many came to what. The status is 1 where one is not
refused, can't be applied or was not tried, and 2 where there is no such crate or bug.
"""

import argparse
import re
import subprocess
import sys
import tempfile
from collections import Counter
from dataclasses import dataclass, field
from pathlib import Path

from try_edits import ANSWERS, LIST, Unknown, copy_crates, folder_of

REFUSED, LET_THROUGH, BAD, UNTRIED = ANSWERS
FUNCTION = re.compile(r"^([ \t]*)(?:pub(?:\([a-z]+\))? )?(?:const )?fn (\w+)", re.M)
IMPL = re.compile(r"^impl(?:<(?:[^<>]|<[^<>]*>)*>)? (?:[^{\n]* for )?&?(\w+)", re.M)
JUDGED = re.compile(r"^fn (\S+): (proved|not proved|no proof|could not tell)(.*)$", re.M)
OF_ANOTHER = "it calls"  # what a check says of a function by whose callee its proof falls
ERROR = re.compile(r"^(?:note: )?(?:\./)?(\S+?):\d+:\d+: (.*)", re.M)
NAMES_ALONE = re.compile(r"proofs/.*(has no field|is not in scope|has no `|was not admitted)")
NOT_COMPILED = re.compile(r"^(?:\./)?(src/\S+?):(\d+):\d+: error", re.M)


@dataclass
class Bug:
    """A bug: which texts it changes, in which functions (as `module::Type::name`, None for none)."""

    name: str
    pairs: list = field(default_factory=list)
    functions: set = field(default_factory=set)
    why: str = ""


@dataclass
class Change:
    """What a bug changes at a place of a file."""

    bug: str
    path: str
    at: int
    old: str
    new: str


def texts_of(folder):
    """The bugs of a crate as texts, by their names: a file each, and a section `## NAME` of the list each."""
    files = sorted(folder.iterdir()) if folder.is_dir() else []
    texts = {it.stem: it.read_text() for it in files if it.suffix in (".edit", ".md") and it.name != LIST}
    listed = (folder / LIST).read_text() if (folder / LIST).is_file() else ""
    for section in listed.split("\n## ")[1:]:
        name, _, text = section.partition("\n")
        texts[name.strip()] = text
    return texts


def function_at(path, text, at):
    """The function in which a place of a file lies: its module, its type where it has one, and its name."""
    found = [it for it in FUNCTION.finditer(text) if it.start() <= at]
    if not found or not found[-1][1] and "\n}" in text[found[-1].start() : at]:
        return None
    parts = path.removeprefix("src/").removesuffix(".rt").split("/")
    module = [it for it in parts if it not in ("lib", "main", "mod")]
    types = [it[1] for it in IMPL.finditer(text) if it.start() <= at] if found[-1][1] else []
    return "::".join([*module, *types[-1:], found[-1][2]])


def read_bug(name, text, crate_folder):
    """Reads a bug: a line `file: PATH`, then pairs of lines `old: TEXT` and `new: TEXT`."""
    bug, path, old, texts = Bug(name), "", "", {}
    for line in text.splitlines():
        if line.startswith("file: "):
            path = line.removeprefix("file: ").strip()
        elif line.startswith("old: "):
            old = line.removeprefix("old: ")
        elif line.startswith("new:"):
            whole = texts.get(path) or (crate_folder / path).read_text()
            if whole.count(old) != 1:
                bug.why = f"an old text is in {path} {whole.count(old)} times, and not once"
                return bug
            bug.pairs.append((path, old, line.removeprefix("new:").removeprefix(" ")))
            line = whole[whole.rfind("\n", 0, whole.index(old)) + 1 :].lstrip()
            if not line.startswith(("use ", "const ")):
                bug.functions.add(function_at(path, whole, whole.index(old)))
            texts[path] = whole.replace(*bug.pairs[-1][1:])
    bug.why = "" if bug.pairs else "it has no pair of an old and a new text"
    return bug


def next_batch(bugs):
    """The bugs for a check: no two of one function, those of no function alone and last."""
    batch, taken = [], set()
    for bug in sorted(bugs, key=lambda it: not it.functions or None in it.functions):
        own = bug.functions or {None}
        if None in taken or None in own and batch or own & taken:
            continue
        batch.append(bug)
        taken |= own
    return batch


def told_of(judged, crate, function):
    """What a check said of a function and its closures. A method is named by its type's module and trait."""
    *module, name = function.split("::")
    kind = module.pop() if module and module[-1][:1].isupper() else ""
    start = r"(?:\w+::)*" if kind else "".join(f"{it}::" for it in module)
    owner = rf"{kind}\w*::" if kind else ""
    wanted = re.compile(rf"{crate}::{start}(?:fn::)?{owner}{name}(?:::.*)?")
    return [it for it in judged if wanted.fullmatch(it[0])]


def names_alone(bug, said):
    """Whether a proof names what it took away, and nothing else speaks against it."""
    folders = tuple(f"proofs/{(one or '').replace('::', '/')}/" for one in bug.functions or {None})
    own = [it[0] for it in ERROR.finditer(said) if it[1].startswith(folders)]
    return bool(own) and all(map(NAMES_ALONE.search, own))


def judge(bug, said, crate):
    """What a check came to for one of its bugs, None where a function falls with one that it calls."""
    judged = JUDGED.findall(said)
    alone = None in (bug.functions or {None})
    told = judged if alone else [it for one in bug.functions for it in told_of(judged, crate, one)]
    if any(verdict in ("not proved", "no proof") and OF_ANOTHER not in more for _, verdict, more in told):
        return REFUSED, ": only as a proof names what it took away" if names_alone(bug, said) else ""
    if any(OF_ANOTHER in more for _, _, more in told):
        return None
    if not told:
        return UNTRIED, f": the check names none of its functions ({', '.join(sorted(bug.functions))})"
    has_limit = any(verdict == "could not tell" for _, verdict, _ in told)
    return (UNTRIED, ": the prover met a limit of its own") if has_limit else (LET_THROUGH, "")


def put_back(whole):
    """Gives the files their own texts, where they have others."""
    for path, text in whole.items():
        if path.read_text() != text:
            path.write_text(text)


def changes_of(bug, crate_folder, whole):
    """What a bug changes in the files' own texts. A pair may change what one before it put in."""
    changes = []
    for path, old, new in bug.pairs:
        before = next((it for it in changes if it.path == path and old in it.new), None)
        if before:
            before.new = before.new.replace(old, new)
        else:
            changes.append(Change(bug.name, path, whole[crate_folder / path].index(old), old, new))
    return changes


def apply_all(bugs, crate_folder, whole):
    """Applies bugs, each to the files' own texts, so that none changes what another one put in. Returns for
    each where its new texts stand, as paths and lines."""
    places, changes = {}, [it for bug in bugs for it in changes_of(bug, crate_folder, whole)]
    for path in {it.path for it in changes}:
        text, done, end = whole[crate_folder / path], "", 0
        for change in sorted((it for it in changes if it.path == path), key=lambda it: it.at):
            done += text[end : change.at]
            places.setdefault(change.bug, []).append((path, done.count("\n") + 1))
            done, end = done + change.new, change.at + len(change.old)
        (crate_folder / path).write_text(done + text[end:])
    return places


def blamed(bugs, places, said):
    """Those of the bugs near whose texts the compiler found an error."""
    wrong = {(path, int(line)) for path, line in NOT_COMPILED.findall(said)}
    near = lambda place: any(place[0] == path and abs(place[1] - line) <= 2 for path, line in wrong)
    return [it for it in bugs if any(map(near, places[it.name]))]


def modules_of(bugs):
    """The modules in which bugs stand, none where a check has to go over the whole crate."""
    if any(None in (bug.functions or {None}) for bug in bugs):
        return []
    paths = {path.removeprefix("src/").removesuffix(".rt") for bug in bugs for path, *_ in bug.pairs}
    return [] if paths & {"lib", "main"} else sorted(it.removesuffix("/mod").replace("/", "::") for it in paths)


def try_batch(bugs, crate, crate_folder, check, whole):
    """Tries bugs in one check, and returns what is known of them. Those that don't compile are taken out."""
    told, left = {}, list(bugs)
    while left:
        put_back(whole)
        places = apply_all(left, crate_folder, whole)
        said = check(crate_folder, modules_of(left))
        if JUDGED.search(said):
            answers = {it.name: judge(it, said, crate) for it in left}
            return told | {name: answer for name, answer in answers.items() if answer}
        bad = blamed(left, places, said) or left[:1] * (len(left) == 1)
        if not bad:
            # (which of them it was is not told: the halves are tried apart)
            half = len(left) // 2
            for part in (left[:half], left[half:]):
                told |= try_batch(part, crate, crate_folder, check, whole)
            return told
        first = next((it for it in said.splitlines() if "error" in it), "nothing was said")
        told |= {it.name: (BAD, f": {first[:160]}") for it in bad}
        left = [it for it in left if it not in bad]
    return told


def try_all(crate, texts, crate_folder, check):
    """Tries the bugs of a crate in a copy of it, and returns what each came to and what is said of it."""
    bugs = [read_bug(name, text, crate_folder) for name, text in texts.items()]
    told = {it.name: (BAD, f": {it.why}") for it in bugs if it.why}
    whole = {path: path.read_text() for path in sorted((crate_folder / "src").rglob("*.rt"))}
    while left := [it for it in bugs if it.name not in told]:
        batch = next_batch(left)
        found = try_batch(batch, crate, crate_folder, check, whole)
        told |= found or {it.name: (UNTRIED, ": it falls with another function") for it in batch}
    put_back(whole)
    return {name: told[name] for name in texts}


def rt_check(crate_folder, modules):
    """Checks modules of a crate, or all of it where none are named, and returns all that was said."""
    how = {"stdout": subprocess.PIPE, "stderr": subprocess.STDOUT, "text": True}
    only = [word for module in modules for word in ("--only", module)]
    return subprocess.run(["rt", "check", *only], cwd=crate_folder, **how).stdout


def asked_for(crate, names):
    texts = texts_of(folder_of(crate))
    unknown = [it for it in names if it not in texts]
    if not texts or unknown:
        what = f"{crate} has no bug {unknown[0]}" if unknown else f"there is no crate {crate} with bugs"
        raise Unknown(what)
    return {name: text for name, text in texts.items() if not names or name in names}


def main():
    raw = argparse.RawDescriptionHelpFormatter
    reader = argparse.ArgumentParser(description=__doc__, formatter_class=raw)
    reader.add_argument("crates", nargs="+", metavar="CRATE")
    reader.add_argument("-n", "--name", action="append", default=[], help="a bug of the crate; none: all")
    options = reader.parse_args()
    counts = Counter()
    try:
        asked = {crate: asked_for(crate, options.name) for crate in options.crates}
    except Unknown as error:
        print(error, file=sys.stderr)
        return 2
    with tempfile.TemporaryDirectory(prefix="try-together-") as name:
        copy_crates(Path(name))
        for crate, texts in asked.items():
            for bug, (answer, said) in try_all(crate, texts, Path(name) / "crates" / crate, rt_check).items():
                counts[answer] += 1
                print(f"{crate}/{bug}: {answer}{said}", flush=True)
    print(f"{counts.total()} bugs: {', '.join(f'{counts[it]} {it.lower()}' for it in ANSWERS)}")
    return 0 if counts[REFUSED] == counts.total() else 1


if __name__ == "__main__":
    sys.exit(main())
