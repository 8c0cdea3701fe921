#!/usr/bin/env python3
"""Breaks expected values of the tests, and sees that the tests fail.

    tools/break_values.py [CRATE..]       crates of tests; none: all of them

In each file of tests one number becomes greater by one: the last one of an answer in a table of cases, or
else that of an assertion or a comparison, or else any of a table, first of tables of steps. All files of a
crate are changed at once, in a copy, and its tests are run without proofs (`rt try --test`). Where no test of
a file fails, it is changed alone, since tests of another file may use its table, and then by its next number:
some rows of a table are what tests begin with. The programs among the crates of tests need none of this: what
they print is compared with a file.

A line is written for each file. The status is 1 where no test fails for a file, and 2 where there is no
such crate.
"""

import argparse
import re
import shutil
import subprocess
import sys
import tempfile
from pathlib import Path

TOP = Path(__file__).resolve().parent.parent
TRIES = 4  # of numbers of a file
TABLE = re.compile(r"^(?:pub )?(?:const|static) \w+: &?\[([^=]*)= &?\[(.*?)\n\];", re.M | re.S)
OF_NUMBERS = re.compile(r"[ui](?:8|16|32|64|size)\b")
ASSERTION = re.compile(r"^ +(?:same|came|gives|bytes|same_bytes|found|answers|holds)\w*\(.*\d.*\);$", re.M)
COMPARISON = re.compile(r"^ +.*[!=]= .*\d.*$", re.M)
ANSWER = re.compile(r"(?:Value|Gives|Some|Ok)\(\s*$")
NUMBER = re.compile(r"(?<![\w.])(?:0x[0-9A-Fa-f_]+|\d[\d_]*)(?![\w.])")
FAILED = re.compile(r"^test (\w+)::\S+ \.\.\. FAILED", re.M)


def crates_of_tests():
    """The crates of tests, without the programs and libraries among them."""
    has_tests = lambda folder: any("#[test]" in file.read_text() for file in (folder / "src").glob("*.rt"))
    return [it.name for it in sorted((TOP / "crates").glob("worked_*")) if has_tests(it)]


def can_break(text, found):
    """Whether a number stands in no quotes, is no length of an array, and is small enough."""
    line = text[text.rfind("\n", 0, found.start()) + 1 : found.start()]
    return line.count('"') % 2 == 0 and not line.endswith("; ") and int(found[0].replace("_", ""), 0) < 2**31


def numbers(text, start, end, of_answers, most=1):
    """So many of the last numbers between two places, of those of answers or of any, the last first."""
    found = [it for it in NUMBER.finditer(text, start, end) if can_break(text, it)]
    return [it for it in reversed(found) if not of_answers or ANSWER.search(text[: it.start()])][:most]


def places(text):
    """The numbers that tests expect: of answers in tables, of assertions, then any of tables."""
    found = sorted(TABLE.finditer(text), key=lambda it: bool(OF_NUMBERS.match(it[1])))
    tables = [it.span(2) for it in found]
    for span in tables:
        yield from numbers(text, *span, of_answers=True)
    for found in ASSERTION.finditer(text):
        yield from numbers(text, text.rfind(", ", *found.span()), found.end(), of_answers=False)
    for found in COMPARISON.finditer(text):
        yield from numbers(text, text.find("= ", *found.span()), found.end(), of_answers=False)
    for span in tables:
        yield from numbers(text, *span, of_answers=False, most=TRIES)


def broken(text, nth=0):
    """The text with the nth expected number greater by one, and that number, if there is one."""
    for found in list(places(text))[nth : nth + 1]:
        more = int(found[0].replace("_", ""), 0) + 1
        spelled = hex(more) if found[0].startswith("0x") else str(more)
        return text[: found.start()] + spelled + text[found.end() :], found[0]
    return text, None


def break_files(folder, files, nth=0):
    """Breaks a number in each of these files of a crate, and returns the numbers by the files' names."""
    done = {}
    for file in files:
        changed, done[file.stem] = broken(file.read_text(), nth)
        (folder / "src" / file.name).write_text(changed)
    return done


def failures(folder):
    """The modules of the tests of a crate that fail, once for each test."""
    how = {"stdout": subprocess.PIPE, "stderr": subprocess.STDOUT, "text": True}
    said = subprocess.run(["rt", "try", "--test"], cwd=folder, **how).stdout
    if "test result" not in said:
        print(said[-600:], file=sys.stderr)
    return FAILED.findall(said)


def alone(folder, file, files):
    """Breaks one file alone, by one number after the other, until a test fails."""
    number, count = None, 0
    for nth in range(TRIES):
        for it in files:
            shutil.copy(it, folder / "src" / it.name)
        number = break_files(folder, [file], nth)[file.stem]
        count = len(failures(folder)) if number else 0
        if count or not number:
            break
    return number, count


def try_crate(crate, room):
    """Tells how many tests fail for each file, and returns whether some do for each that was changed."""
    folder, sources = room / "crates" / crate, sorted((TOP / "crates" / crate / "src").glob("*.rt"))
    files = [it for it in sources if "#[test]" in it.read_text()]
    done, failed, is_well = break_files(folder, files), failures(folder), True
    for file in files:
        number, count = done[file.stem], failed.count(file.stem)
        if number and not count:
            number, count = alone(folder, file, files)
        is_well = is_well and bool(count or not done[file.stem])
        what = f"{number} broken, {count} tests fail" if done[file.stem] else "has no such number"
        print(f"{crate}/{file.stem}: {what}", flush=True)
    return is_well


def main():
    raw = argparse.RawDescriptionHelpFormatter
    reader = argparse.ArgumentParser(description=__doc__, formatter_class=raw)
    reader.add_argument("crates", nargs="*", metavar="CRATE")
    wanted = reader.parse_args().crates or crates_of_tests()
    if unknown := [it for it in wanted if it not in crates_of_tests()]:
        print(f"there is no crate of tests {unknown[0]}", file=sys.stderr)
        return 2
    with tempfile.TemporaryDirectory(prefix="break-values-") as name:
        room = Path(name)
        shutil.copytree(TOP / "crates", room / "crates", ignore=shutil.ignore_patterns("out"))
        shutil.copy(TOP / "crates.txt", room / "crates.txt")
        return 0 if all([try_crate(crate, room) for crate in wanted]) else 1


if __name__ == "__main__":
    sys.exit(main())
