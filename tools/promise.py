#!/usr/bin/env python3
"""Writes docs/PROMISE.md: the contract of the top call, and every definition that it rests on.

The contract is read off the source. From its names the script goes to the definitions in the crates' specs/ folders, and
from the names in those to further ones, until no name is left that this repository defines. What the page says of a file
of definitions is the first sentence of that file's head.

    tools/promise.py             writes the page
    tools/promise.py --check     ends with status 1 where the page is not what it would write
    tools/promise.py --faults    lists names that two definitions share, and lines that are too long; status 1 if any
"""

import argparse
import collections
import pathlib
import re
import sys

HOME = pathlib.Path(__file__).resolve().parent.parent
PAGE = HOME / "docs" / "PROMISE.md"
SOURCE, CALL = "crates/dmtcp_top/src/top_call.rt", "dmtcp"
COLUMNS = 110

HEAD = re.compile(r"(?:abbrev|unfoldable)?\s*(?:pub )?(?:record |data )?(\S+)")
DEFINES = re.compile(r"(?:abbrev |unfoldable )(?:pub )?\S|pub (?:record|data) \S|(?:record|data) \S")
MODULE = re.compile(r"module _\b")
IMPORT = re.compile(r"(?:unfoldable )?(?:pub |ghost )?use Rattle\.([\w.]+?)(?:\.\{(.*)\}| as (\w+));?$")
NAME = re.compile(r"[A-Za-z_][\w'-]*(?:\.[A-Za-z_][\w'-]*)*")
HANDED_ON = re.compile(r"\w+\.(specs|proofs)\.Of([A-Z]\w*)\.")

Definition = collections.namedtuple("Definition", "crate path name lines")


class Module:
    """A file of definitions: what it defines, and where the names that it uses stand."""

    def __init__(self, path):
        self.path = path
        self.crate = path.relative_to(HOME / "crates").parts[0]
        lines = path.read_text(encoding="utf-8").splitlines()
        self.says = first_sentence(lines)
        self.imports = imports_of(lines)
        self.definitions = {it.name: it for it in definitions_in(self, lines)}


def first_sentence(lines):
    """Returns the first sentence of the comment at a file's head."""
    said = []
    for line in lines:
        if not line.startswith("--") or line.startswith("--  "):
            break
        said.append(line[2:].strip())
    text = " ".join(said)
    return re.split(r"(?<=[^.])\.(?: |$)", text)[0].rstrip(".:") or "no head"


def home_of(place):
    """Returns the place itself of one that a library hands on: `plain_process.specs.OfElf32.Rules` is `elf32.specs.Rules`."""
    while found := HANDED_ON.match(place):
        name = re.sub("(?<=[^_])(?=[A-Z])", "_", found[2]).lower()
        place = f"{name}.{found[1]}.{place[found.end():]}"
    return place


def imports_of(lines):
    """Returns for each name that a file brings in the module that has it and its name there, None for a module."""
    found = {}
    for line in lines:
        match = IMPORT.match(line.strip())
        if match is None:
            continue
        place, names, alias = match.groups()
        place = home_of(place)
        if alias:
            found[alias] = (place, None)
        for item in filter(None, (it.strip() for it in (names or "").split(","))):
            name, _, called = item.partition(" as ")
            found[called or name] = (place, name)
    return found


def without_modules(lines):
    """Yields the lines of a file as they would stand without its modules that have no name, whose heads are left out."""
    deep, in_head = 0, False
    for line in lines:
        while line.strip() and not in_head and not line.startswith("  " * deep):
            deep -= 1
        rest = line[2 * deep:]
        if MODULE.match(rest):
            in_head = True
        if not in_head:
            yield rest
        elif line.split()[-1:] == ["where"]:
            deep, in_head = deep + 1, False


def definitions_in(module, lines):
    """Yields the definitions of a file, each with its lines that are neither empty nor a comment."""
    held = []
    for line in [*without_modules(lines), "abbrev "]:
        uses = IMPORT.match(line)
        starts = DEFINES.match(line) and not uses or line == "abbrev "
        if (starts or uses) and held:
            yield Definition(module.crate, module.path, HEAD.match(held[0]).group(1), tuple(held))
            held = []
        if starts and line != "abbrev " or held and line.strip() and not line.startswith("--"):
            held.append(line)


def modules():
    """Returns every file of definitions by the place that an import names."""
    found = {}
    for path in sorted((HOME / "crates").glob("*/specs/**/*.antt")):
        crate, _, *rest = path.relative_to(HOME / "crates").with_suffix("").parts
        if path.name != "Lib.antt":
            found[".".join([crate, "specs", *rest])] = Module(path)
    return found


def contract():
    """Returns the imports and the text of the top call's contract, from its head to its body."""
    lines = (HOME / SOURCE).read_text(encoding="utf-8").splitlines()
    begin = next(i for i, line in enumerate(lines) if line.startswith(f"pub fn {CALL}<"))
    end = next(i for i in range(begin, len(lines)) if lines[i] == "{")
    return imports_of(lines), lines[begin:end]


def origin(place, name, known):
    """Returns where a name that may have been handed on is defined, and its name there."""
    while place in known and name not in known[place].definitions and name in known[place].imports:
        place, name = known[place].imports[name]
    return place, name


def words_in(lines, names):
    """Yields the words of some lines, and those of the names that are operators whose signs stand there, or a `do` for them."""
    text = "\n".join(lines)
    signs = set(text.split())
    if "do" in signs:
        signs |= {">>=", ">>"}
    yield from NAME.findall(text)
    yield from (name for name in names if "◌" in name and signs.issuperset(filter(None, name.split("◌"))))


def cited(lines, imports, own, known):
    """Yields the definitions that some lines name."""
    for word in words_in(lines, [*own, *imports]):
        first, *rest = word.split(".")
        if first in own:
            yield own[first]
            continue
        place, name = imports.get(first, (None, None))
        place, name = origin(place, name or (rest[0] if rest else None), known)
        if place in known and name in known[place].definitions:
            yield known[place].definitions[name]


def rests_on(known):
    """Returns the definitions that the contract rests on, each file's together, in the order in which they are met."""
    imports, lines = contract()
    found, waiting = {}, list(cited(lines, imports, {}, known))
    by_path = {it.path: it for it in known.values()}
    while waiting:
        one = waiting.pop(0)
        if (one.path, one.name) in found:
            continue
        found[one.path, one.name] = one
        module = by_path[one.path]
        waiting.extend(cited(one.lines, module.imports, module.definitions, known))
    files = collections.OrderedDict()
    for one in found.values():
        files.setdefault(by_path[one.path], []).append(one)
    return lines, files


def size(definitions):
    return sum(len(it.lines) for it in definitions)


def page(lines, files):
    """Returns the page's text."""
    every = [it for found in files.values() for it in found]
    crates = collections.Counter()
    for one in every:
        crates[one.crate] += len(one.lines)
    said = [
        "# The promise", "",
        "This page is made by `tools/promise.py` from the sources; the gate, where it has Python 3, fails where it is stale.", "",
        "## The contract of the top call", "",
        f"As it stands in `{SOURCE}`:", "", "```text", *lines, "```", "",
        "## What it rests on", "",
        f"{len(every)} definitions, {size(every)} lines without comments, in {len(files)} files of {len(crates)} crates "
        f"({', '.join(f'`{crate}` {count}' for crate, count in crates.most_common())}).",
        "Beside each file stands the number of its definitions that the contract rests on, and of their lines. The order is that in which "
        "a reader of the contract meets them. Not counted is what stands in the crates' `src/`: the types and the constants of the "
        "program that the definitions speak of, and what a contract sees of a value of such a type, as of a trace its records.", "",
        "| File | Definitions | Lines | What it says |", "|---|---|---|---|",
    ]
    for module, found in files.items():
        path = module.path.relative_to(HOME)
        said.append(f"| [{path}](../{path}) | {len(found)} | {size(found)} | {module.says} |")
    return "\n".join(said) + "\n"


def faults(files):
    """Prints the names that two of the definitions share and the lines that are too long, and returns how many."""
    by_name = collections.defaultdict(list)
    too_long = 0
    for found in files.values():
        for one in found:
            by_name[one.name].append(one)
            for line in one.lines:
                if len(line) > COLUMNS:
                    too_long += 1
                    print(f"{one.path.relative_to(HOME)}: {one.name}: {len(line)} columns")
    doubled = {name: them for name, them in by_name.items() if len(them) > 1}
    for name, them in sorted(doubled.items()):
        print(f"{name}: {', '.join(str(it.path.relative_to(HOME)) for it in them)}")
    print(f"{len(doubled)} names of two definitions, {too_long} lines over {COLUMNS} columns")
    return len(doubled) + too_long


def main():
    parser = argparse.ArgumentParser(description=__doc__, formatter_class=argparse.RawDescriptionHelpFormatter)
    parser.add_argument("--check", action="store_true")
    parser.add_argument("--faults", action="store_true")
    asked = parser.parse_args()
    lines, files = rests_on(modules())
    if asked.faults:
        return min(faults(files), 1)
    text = page(lines, files)
    if asked.check:
        if not PAGE.exists() or PAGE.read_text(encoding="utf-8") != text:
            print(f"{PAGE.relative_to(HOME)} is stale: run tools/promise.py", file=sys.stderr)
            return 1
        return 0
    PAGE.write_text(text, encoding="utf-8")
    return 0


if __name__ == "__main__":
    sys.exit(main())
