"""The worked cases of the assembler, a part of those of crates/worked_lines: texts, and what is printed."""

import pathlib

import model

HOME = pathlib.Path(__file__).parents[2]
CASES = HOME / "crates/worked_lines/stdin"
PART = b"== what texts assemble to\n"  # is the last one
RING = (HOME / "examples/ring.elf").read_bytes()


def read_cases():
    """The cases: each a name and a text. `= NAME` begins a case, `- NAME` one without its last newline."""
    cases = []
    for line in CASES.read_bytes().partition(PART)[2].split(b"\n")[:-1]:
        if line[:2] in (b"= ", b"- "):
            cases.append([line[2:].decode(), line[:1] == b"-", []])
        else:
            cases[-1][2].append(line)
    return [(name, b"\n".join(lines) + (b"" if cut or not lines else b"\n")) for name, cut, lines in cases]


def said(name, text):
    """The line that tells what a case's text makes."""
    file = model.assembled(text)
    if isinstance(file, int):
        return f"{name}: line {file}"
    entry = int.from_bytes(file[24:28], "little")
    body = file[model.HEADERS :]
    shown = body.hex() if len(body) <= 400 else f"sum {sum(body)}"
    named = ", the ring's program" if file == RING else ""
    return f"{name}: {len(file)} bytes, entry {entry:x}: {shown}{named}"
