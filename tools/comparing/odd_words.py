"""Words near the grammar of the command line (docs/CLI.md)."""

import random

GUEST = "g.elf"
NAMES = [GUEST, GUEST, GUEST, "none.elf", "a:b.elf", ":", "dmtcp.trace", "g.elf\n", "\u00e9.elf", "n" * 255, "n" * 256,
         "\u00e9" * 127 + "n", "\u00e9" * 128, "g,elf", ",", "", " ", "--every", "g.elf ", "none/none.elf", "\udcff",
         "g\udc80", "g.elf,", "g.elf,,", "g.elf,a,b", "g.elf," + "x" * 4089, "g.elf," + "x" * 4090, "g.elf,\udcff"]
HOSTS = ["0:", "0:", "0:", "0:", "1:", ":", "", "00:", "0", "+0:", "0 :", "0::", " 0:", "-0:", "15:", "16:", "015:",
         "\u0660:", "9:", "10:", "1.:", "128:", "4294967296:"]
NUMBERS = ["1", "2", "3", "7", "10", "400", "4000000", "4000001", "0", "00", "01", "-1", "+1", "", " 1", "1 ", "1.0",
           "0x1", "1e3", "1_0", "4294967297", "18446744073709551617", "\u0661", "--records", "\udcff",
           "999999999999999999999999", "1\n"]
COUNTED = ["--every", "--records"]
LATER = ["--nodes", "--workers", "--shift", "--pid-base", "--port-base"]  # of what is not built yet
DEFAULTS = {"--nodes": ["1", "16", "16", "2", "01", "0"], "--workers": ["0", "0", "1", "00"],
            "--shift": ["0", "0", "1", ""], "--pid-base": ["2000", "2000", "2001"],
            "--port-base": ["30000", "30000", "0"]}
OPTIONS = ["--every", "--every", "--records", "--records", "--file", "--file", *LATER, "--Every", "-every", "--every=3",
           "--record", "--", "-e", "", "--files", "--file=a"]
VERBS = ["launch", "launch", "launch", "launch", "restart", "restart", "restart", "Launch", "launch ", "", "run",
         "ring", "help", "--help", "--version", "-h", "--help=", "\udcfe"]
FOLDER = ["a:b.elf", ":", "\u00e9.elf", "g.elf\n", "dmtcp.trace", " "]  # names that the guest's file has beside its own
FILES = [*FOLDER, GUEST, "a,b", "--every", "n" * 255]
MORE_FILES = {"a,b": b"with a comma", "--every": b"", "n" * 255: b"long"}
"""What the current folder has beside the guest, as files that `--file` names."""


def number(rng: random.Random) -> str:
    return rng.choice(NUMBERS[:7]) if rng.random() < 0.7 else rng.choice(NUMBERS)


def value_of(rng: random.Random, option: str) -> str:
    """What stands behind an option."""
    if option == "--file":
        return rng.choice(FILES) if rng.random() < 0.7 else rng.choice([*NAMES, *FILES])
    return rng.choice(DEFAULTS[option]) if option in DEFAULTS else number(rng)


def options(rng: random.Random) -> list[str]:
    """None, some or too many options."""
    kind = rng.random()
    if kind < 0.5:
        chosen = rng.sample([*COUNTED, "--file", "--file", rng.choice(LATER)], rng.randrange(4))
    else:
        chosen = [rng.choice(OPTIONS) for _ in range(rng.choice([1, 1, 2, 3]))]
    words: list[str] = []
    for option in chosen:
        words += [option, value_of(rng, option)]
    return words


def good_words(rng: random.Random) -> list[str]:
    """Words of the grammar."""
    pairs = [[option, rng.choice(NUMBERS[:7])] for option in rng.sample(COUNTED, rng.randrange(3))]
    if rng.random() < 0.4:
        pairs += [[name, DEFAULTS[name][0]] for name in rng.sample(LATER[1:], rng.randrange(3))]
        pairs += [["--nodes", "16"]] if rng.random() < 0.3 else []
        rng.shuffle(pairs)
        return ["restart", *(word for pair in pairs for word in pair)]
    hosts = [rng.choice([0, 0, 0, 1, 9, 10, 15]) for _ in range(rng.choice([1, 1, 1, 2, 3]))]
    pairs += [["--file", name] for name in rng.sample(FILES, rng.choice([0, 0, 0, 1, 2, 3]))]
    pairs += [["--nodes", str(max(hosts) + rng.choice([1, 1, 1, 2]))]] if rng.random() < 0.3 else []
    pairs += [["--workers", "0"]] if rng.random() < 0.2 else []
    rng.shuffle(pairs)
    names = [*FOLDER, GUEST, GUEST, GUEST] + ["none.elf"] * (rng.random() < 0.2)
    programs = [f"{host}:{rng.choice(names)}{rng.choice(['', '', ',x', ',,'])}" for host in hosts]
    return ["launch", *(word for pair in pairs for word in pair), *programs]


def many(rng: random.Random) -> list[str]:
    """As many files or programs as there may be, or one more."""
    if rng.random() < 0.5:
        return ["launch", "--records", "300"] + [f"{rng.randrange(16)}:{GUEST}"] * rng.choice([127, 128, 129])
    names = [f"f{index}" for index in range(rng.choice([63, 64, 65]))]
    return ["launch", *(word for name in names for word in ("--file", name)), f"0:{GUEST}"]


def odd_words(rng: random.Random) -> list[str]:
    """Words of the command line, or nearly so."""
    kind = rng.random()
    if kind < 0.35:
        return good_words(rng)
    if kind < 0.4:
        return many(rng)
    verb = rng.choice(VERBS)
    words = [verb, *options(rng)]
    if verb == "launch" or rng.random() < 0.15:
        for _ in range(rng.choice([1, 1, 1, 2])):
            words.append(rng.choice(HOSTS) + rng.choice(NAMES) if rng.random() < 0.6 else "0:" + GUEST)
    if rng.random() < 0.15:
        words.insert(rng.randrange(len(words) + 1), rng.choice([*VERBS, *OPTIONS, *NUMBERS, "0:" + GUEST]))
    if rng.random() < 0.1:
        words.pop(rng.randrange(len(words)))
    return words
