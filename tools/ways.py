#!/usr/bin/env python3
"""Counts the ways through crates.txt from each crate down to the lowest ones, which `rt ci` follows before it proves
anything, and the files that it reads along them where it makes a sum of each library (docs/PROOFS.md, "What the checks
cost").

    tools/ways.py [--most N]

It writes how many ways and files there are, and the N names (10 where none is told) of a library in a crate's line without
which most files were not read, each where another library of the same line stands on it and can hand it on. Behind it stands
how many files and ways were left.
"""

import argparse
import functools
from pathlib import Path

TOP = Path(__file__).resolve().parent.parent
READ = ["src", "specs", "proofs"]  # the folders of a crate of which a sum is made


def libraries():
    """Returns for each crate of crates.txt those of its libraries that stand there too."""
    lines = (line.partition("#")[0].partition(":") for line in (TOP / "crates.txt").read_text().splitlines())
    named = {head.split()[0]: tail.split() for head, _, tail in lines if head.strip()}
    return {crate: [it for it in below if it in named] for crate, below in named.items()}


def files_of(crates):
    """Returns how many files each crate has of which a sum is made."""
    folder = TOP / "crates"
    return {crate: sum(it.is_file() for part in READ for it in (folder / crate / part).rglob("*")) for crate in crates}


def sum_over_ways(crates, weight, ends):
    """Returns what the crates at the ends of all ways from some crates down weigh, each crate's own place among them."""

    @functools.cache
    def down(crate):
        return weight(crate) + sum(map(down, crates[crate]))

    return sum(map(down, ends))


def ways(crates):
    """Returns how many ways lead down from all crates together."""
    return sum_over_ways(crates, lambda crate: 1, crates)


def reads(crates, files):
    """Returns how many files are read for the sums of all libraries."""
    made = [it for it in crates if not (TOP / "crates" / it / "src" / "main.rt").exists()]
    return sum_over_ways(crates, files.__getitem__, made)


def below(crates):
    """Returns for each crate those on which it stands."""

    @functools.cache
    def of(crate):
        return frozenset(crates[crate]).union(*map(of, crates[crate]))

    return {crate: of(crate) for crate in crates}


def savings(crates, files):
    """Yields for each name that could be left out how many files and ways were left, the crate and the library."""
    lower = below(crates)
    for crate, used in crates.items():
        for one in used:
            if any(one in lower[it] for it in used):
                rest = {**crates, crate: [it for it in used if it != one]}
                yield reads(rest, files), ways(rest), crate, one


def main():
    parser = argparse.ArgumentParser(description=__doc__, formatter_class=argparse.RawDescriptionHelpFormatter)
    parser.add_argument("--most", type=int, default=10, metavar="N")
    crates = libraries()
    files = files_of(crates)
    print(f"{len(crates)} crates, {ways(crates):,} ways, {reads(crates, files):,} files read for sums")
    for left, rest, crate, one in sorted(savings(crates, files))[: parser.parse_args().most]:
        print(f"{crate} names {one}: without it {left:,} files, {rest:,} ways")


if __name__ == "__main__":
    main()
