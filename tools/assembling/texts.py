"""Random texts for the assembler."""

import model

REGISTERS = list(model.REGISTERS)
LABELS = ["_start", "loop", "a.b", "Data_1", ".end"]


def spaces(draw):
    return " " * draw.choice([0, 0, 1, 1, 2])


def number(draw, low, high):
    value = draw.choice([low, high, 0, 1, -1, draw.randint(low, high)])
    value = min(max(value, low), high)
    if value >= 0 and draw.random() < 0.4:
        return draw.choice(["0x{:x}", "0x{:X}", "0x0{:x}"]).format(value)
    return f"-{-value}" if value < 0 else str(value)


def statement(draw, labels):
    register = lambda: draw.choice(REGISTERS)
    label = lambda: draw.choice(labels)
    kind = draw.randrange(14)
    if kind == 0:
        return draw.choice(list(model.THREE)), [register(), register(), register()]
    if kind == 1:
        return draw.choice(list(model.ARITHMETIC)), [register(), register(), number(draw, -2048, 2047)]
    if kind == 2:
        return draw.choice(list(model.SHIFTS)), [register(), register(), number(draw, 0, 31)]
    if kind == 3:
        return draw.choice(list(model.LOADS) + ["jalr"]), [register(), f"{number(draw, -2048, 2047)}({register()})"]
    if kind == 4:
        return draw.choice(list(model.STORES)), [register(), f"{number(draw, -2048, 2047)}({register()})"]
    if kind == 5:
        return draw.choice(list(model.BRANCHES)), [register(), register(), label()]
    if kind == 6:
        return draw.choice(["lui", "auipc"]), [register(), number(draw, 0, 0xFFFFF)]
    if kind == 7:
        return draw.choice([("jal", [register(), label()]), ("j", [label()]), ("call", [label()])])
    if kind == 8:
        return "li", [register(), number(draw, -(2**31), 2**32 - 1)]
    if kind == 9:
        return "la", [register(), label()]
    if kind == 10:
        return "mv", [register(), register()]
    if kind == 11:
        return ".word", [number(draw, -(2**31), 2**32 - 1)]
    if kind == 12:
        return draw.choice([(".byte", [number(draw, -128, 255)]), (".zero", [number(draw, 0, 9)]), (".align", [])])
    return draw.choice(list(model.WHOLE)), []


DATA = (".byte", ".zero", ".ascii")


def line_of(draw, word, operands):
    text = spaces(draw) + word
    if operands:
        text += " " + spaces(draw) + ("," + spaces(draw)).join(operands)
    return text


def is_data(line):
    return line.lstrip(" ").startswith(DATA)


def random_text(draw):
    """A text that may be of the language: each label once, and most lines at multiples of 4."""
    labels = draw.sample(LABELS, draw.randint(1, len(LABELS)))
    lines = [label + ":" for label in labels]
    for _ in range(draw.randrange(30)):
        lines.insert(draw.randint(0, len(lines)), line_of(draw, *statement(draw, labels)))
    if draw.random() < 0.3:
        lines.insert(draw.randint(0, len(lines)), spaces(draw) + '.ascii "a\\n\\\\ b\\"c\\0,#"')
    out = []
    for line in lines:
        behind_data = bool(out) and is_data(out[-1]) and not is_data(line)
        if (behind_data or line.endswith(":")) and draw.random() < 0.9:
            out.append(".align")
        out.append(line)
    return "\n".join(out).encode() + draw.choice([b"", b"\n"])


def damaged(draw, text):
    """The text with one or two bytes changed, taken out or put in."""
    for _ in range(draw.randint(1, 2)):
        place = draw.randint(0, len(text))
        byte = bytes([draw.choice(b" ,:()#-x0189aAzs_.\"\\\n")])
        front, back = text[:place], text[place:]
        text = draw.choice([front + byte + back[1:], front + back[1:], front + byte + back])
    return text
