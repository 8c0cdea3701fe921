#!/usr/bin/env python3
"""Compares what the assembler's model makes of texts with what the GNU assembler makes of them.

    tools/compare_with_binutils.py [TEXTS [FIRST_SEED]]

It wants `riscv64-unknown-elf-as`, `-ld` and `-objcopy` (Debian's package binutils-riscv64-unknown-elf). The
texts are those of crates/worked_lines/stdin that have a file, and random ones. Each is put into the GNU
assembler's language line by line: `li`, `la` and `call` are written as the instructions that they stand for,
since the GNU assembler chooses others, and `.align` as `.balign 4`. The bytes behind the headers must be the
same. It ends with status 1 where they differ.
"""

import pathlib
import random
import re
import subprocess
import sys
import tempfile

sys.path.insert(0, str(pathlib.Path(__file__).parent / "assembling"))
import model
from cases import read_cases
from texts import random_text

HOME = pathlib.Path(__file__).parent.parent


def for_gnu(text):
    """The text in the GNU assembler's language."""
    lines = [".option norvc", ".option norelax", ".text"]
    for number, line in enumerate(text.decode("latin-1").split("\n")):
        if '"' not in line:
            # A dot alone is a name like others here, and the place itself there; a zero in front makes octal digits there.
            line = re.sub(r"(?<![\w.])\.(?![\w.])", ".Ldot", line)
            line = re.sub(r"(?<![\w.])(-?)0+(?=[0-9])", r"\1", line)
        word, _, rest = line.lstrip(" ").partition(" ")
        operands = [part.strip() for part in rest.split(",")]
        if word == "li":
            value = model.number(operands[1].encode(), -(2**31), 2**32 - 1)
            upper = (value + 0x800) >> 12 & 0xFFFFF
            lower = (value - (upper << 12) + 2**31) % 2**32 - 2**31
            lines += [f"lui {operands[0]}, {upper}", f"addi {operands[0]}, {operands[0]}, {lower}"]
        elif word == "la":
            lines += [f".Lhere{number}: auipc {operands[0]}, %pcrel_hi({operands[1]})"]
            lines += [f"addi {operands[0]}, {operands[0]}, %pcrel_lo(.Lhere{number})"]
        elif word == "call":
            lines.append(f"jal ra, {rest.lstrip(' ')}")
        elif word == ".align":
            lines.append(".balign 4, 0")
        elif word == ".ascii":
            lines.append(".ascii " + rest.lstrip(" ").replace("\\0", "\\000"))
        else:
            lines.append(line)
    return "\n".join(lines) + "\n"


def by_gnu(text, folder):
    source, made, linked, raw = (folder / name for name in ("a.s", "a.o", "a.elf", "a.bin"))
    source.write_bytes(for_gnu(text).encode("latin-1"))
    tool = "riscv64-unknown-elf-"
    run = lambda *words: subprocess.run(words, check=True, stdout=subprocess.PIPE, stderr=subprocess.PIPE)
    run(tool + "as", "-march=rv32im", "-mabi=ilp32", "-o", made, source)
    run(tool + "ld", "-m", "elf32lriscv", "--no-relax", "-e", "0", "-Ttext=0x10054", "-o", linked, made)
    run(tool + "objcopy", "-O", "binary", "-j", ".text", linked, raw)
    return raw.read_bytes()


def main():
    count = int(sys.argv[1]) if len(sys.argv) > 1 else 200
    seed = int(sys.argv[2]) if len(sys.argv) > 2 else 1
    texts = [text for _, text in read_cases()]
    texts += [random_text(random.Random(seed + n)) for n in range(count)]
    compared = 0
    with tempfile.TemporaryDirectory() as name:
        for text in texts:
            file = model.assembled(text)
            if isinstance(file, int) or len(file) == model.HEADERS:
                continue
            gnu = by_gnu(text, pathlib.Path(name))
            compared += 1
            body = file[model.HEADERS :]
            # Trailing zeros may be left out, and a section's end is filled up to a multiple of 4.
            if gnu[: len(body)] != body[: len(gnu)] or any(body[len(gnu) :]) or len(gnu) > len(body) + 3:
                sys.exit(f"these differ:\n{text.decode('latin-1')}\n{gnu.hex()}\n{body.hex()}")
    print(f"{compared} texts have the same bytes by both")


if __name__ == "__main__":
    main()
