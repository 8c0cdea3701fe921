#!/usr/bin/env python3
"""Tries edits that the check of a crate must refuse, also those that the gate passes over.

An edit is a small change of a crate's code, each a bug. Those that the gate tries stand in
crates/CRATE/must-fail as NAME.edit. NAME.md is one that was tried and refused once, and is kept as a
record. This tries any of them, on a copy of the repository's crates, so that nothing here changes.

    tools/try_edits.py CRATE             all edits of a crate
    tools/try_edits.py CRATE NAME..      these
    tools/try_edits.py CRATE --dropped   those that the gate passes over
    tools/try_edits.py --all             those of every crate; with --dropped, those that the gate passes over

A line is written for each edit, and at the end how many came to what. What an earlier try on this machine
came to is told again where nothing that it stands on has changed; --anew tries it too. The status is 1
where an edit is not refused, cannot be applied or was not tried, and 2 where there is no such one.
"""

import argparse
import re
import shutil
import subprocess
import sys
import tempfile
from collections import Counter
from pathlib import Path

TOP = Path(__file__).resolve().parent.parent
KEPT, DROPPED = ".edit", ".md"
LIST = "tried.md"  # of many bugs, which try_together.py reads
TOLD = re.compile(r"rt: must-fail (\w+)/(\S+)\.edit: (refused|NOT REFUSED|BAD EDIT|NOT TRIED)(.*)")
ANSWERS = ["refused", "NOT REFUSED", "BAD EDIT", "NOT TRIED"]


class Unknown(Exception):
    """There is no such crate or edit."""


def folder_of(crate, top=TOP):
    return top / "crates" / crate / "must-fail"


def edits_of(crate, endings):
    """The edits of a crate, as files with one of these endings, in the order of their names."""
    files = folder_of(crate).iterdir() if folder_of(crate).is_dir() else []
    return sorted((it for it in files if it.suffix in endings and it.name != LIST), key=lambda it: it.stem)


def crates_with_edits():
    return sorted(folder.parent.name for folder in (TOP / "crates").glob("*/must-fail"))


def named(crate, names, edits):
    """Those of the edits that have these names, with or without an ending."""
    found = {edit.stem: edit for edit in edits}
    wanted = [name.removesuffix(KEPT).removesuffix(DROPPED) for name in names]
    for name in wanted:
        if name not in found:
            raise Unknown(f"{crate} has no edit {name} of those asked for")
    return [found[name] for name in dict.fromkeys(wanted)]


def asked_for(options):
    """The edits to try, by their crates."""
    endings = [DROPPED] if options.dropped else [KEPT, DROPPED]
    if options.all:
        edits = {crate: edits_of(crate, endings) for crate in crates_with_edits()}
        return {crate: found for crate, found in edits.items() if found}
    if not (TOP / "crates" / options.crate).is_dir():
        raise Unknown(f"there is no crate {options.crate}")
    edits = edits_of(options.crate, endings)
    edits = named(options.crate, options.names, edits) if options.names else edits
    if not edits:
        raise Unknown(f"{options.crate} has no such edits")
    return {options.crate: edits}


def copy_crates(room):
    """Copies what a check reads, without what was built or proved."""
    shutil.copytree(TOP / "crates", room / "crates", ignore=shutil.ignore_patterns("out"))
    for name in ("crates.txt", "HANDLES"):
        if (TOP / name).exists():
            shutil.copy(TOP / name, room / name)


def lay_out(room, crate, edits):
    """Has the crate's copy no other edits than these, each under the ending that is tried."""
    folder = folder_of(crate, room)
    shutil.rmtree(folder)
    folder.mkdir()
    for edit in edits:
        shutil.copy(edit, folder / f"{edit.stem}{KEPT}")


def try_in(room, crate, edits, is_anew):
    """Tries the edits in the copy, and returns what each came to, with what was said of it."""
    lay_out(room, crate, edits)
    words = ["rt", "must-fail", *(["--anew"] if is_anew else []), crate]
    ran = subprocess.run(words, cwd=room, stdout=subprocess.PIPE, stderr=subprocess.STDOUT, text=True)
    told = {found[2]: (found[3], found[4]) for found in map(TOLD.match, ran.stdout.splitlines()) if found}
    if len(told) < len(edits):
        print(ran.stdout, end="", file=sys.stderr)
    return {edit.stem: told.get(edit.stem, ("NOT TRIED", ": rt said nothing of it")) for edit in edits}


def try_all(edits_by_crate, is_anew):
    """Tries the edits crate by crate, tells what each came to, and returns how many came to what."""
    counts = Counter()
    with tempfile.TemporaryDirectory(prefix="try-edits-") as name:
        room = Path(name)
        copy_crates(room)
        for crate, edits in edits_by_crate.items():
            for edit, (answer, said) in try_in(room, crate, edits, is_anew).items():
                counts[answer] += 1
                print(f"{crate}/{edit}: {answer}{said}", flush=True)
    return counts


def options_of(words):
    reader = argparse.ArgumentParser(description="Tries edits that the check of a crate must refuse.")
    reader.add_argument("crate", nargs="?", metavar="CRATE")
    reader.add_argument("names", nargs="*", metavar="NAME", help="an edit of the crate; none: all")
    reader.add_argument("--all", action="store_true", help="those of every crate")
    reader.add_argument("--dropped", action="store_true", help="only those that the gate passes over")
    reader.add_argument("--anew", action="store_true", help="also those whose answer is known from before")
    options = reader.parse_intermixed_args(words)
    if bool(options.crate) == options.all:
        reader.error("name a crate, or every crate by --all")
    return options


def main():
    try:
        options = options_of(sys.argv[1:])
        counts = try_all(asked_for(options), options.anew)
    except Unknown as error:
        print(error, file=sys.stderr)
        return 2
    told = ", ".join(f"{counts[answer]} {answer.lower()}" for answer in ANSWERS)
    print(f"{counts.total()} edits: {told}")
    return 0 if counts["refused"] == counts.total() else 1


if __name__ == "__main__":
    sys.exit(main())
