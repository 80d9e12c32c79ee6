"""Inputs that several tests share: those of the JSON files of vectors/, wide ones and random ones.

What is random here is drawn from the environment variable DRAWS, and is the same each time.
"""
import json
import os

from program import TOP

import bristol
import cases

VECTORS = TOP / "vectors"
DRAWS = os.environ.get("DRAWS", "0")


def load(name):
    """What a JSON file of vectors/ holds."""
    return json.loads((VECTORS / f"{name}.json").read_text())


def worked_circuits():
    """The names of the JSON files of worked circuits, and what they hold."""
    names = sorted(path.stem for path in VECTORS.glob("*.json"))
    return [(name, load(name)) for name in names if not name.startswith(("bad_", "joined"))]


def by_about(items):
    """Items of a JSON file, each with what it is about."""
    return [(item["about"], item) for item in items]


def draws(count, what):
    """This many draws, each with a name that decides it."""
    names = [f"{DRAWS} {what} {i}" for i in range(count)]
    return [(name, cases.Draws(name)) for name in names]


def text_of(inputs, outputs, gates):
    """A circuit in Bristol Fashion, of these widths and gates. The gates set the wires in order."""
    sides = [" ".join(map(str, [len(widths), *widths])) for widths in (inputs, outputs)]
    return "\n".join([f"{len(gates)} {sum(inputs) + len(gates)}", *sides, "", *gates, ""])


def many_ands(count):
    """AND gates of which none reads what another sets."""
    gates = [f"2 1 {i} {count + i} {2 * count + i} AND" for i in range(count)]
    return text_of([count, count], [count], gates)


def chain_of_ands(count):
    """A circuit of two values of eight wires, and at least this many AND gates, more than a piece of the examples has:
    the conjunction of the two, again and again with the second one."""
    steps = -(-count // 8)
    return text_of([8, 8], [8], [
        f"2 1 {bit + (8 + 8 * step if step else 0)} {8 + bit} {16 + 8 * step + bit} AND"
        for step in range(steps) for bit in range(8)
    ])


def respelled(draw, text):
    """The text with other blanks and more leading zeros."""
    blanks = " ", "  ", "\n", "\t", "\r\n", " \r\t\n "
    tokens = ["0" * draw.choice((0, 0, 0, 1, 12)) + token if token.isdigit() else token
              for token in text.split()]
    spelled = tokens[0] + "".join(draw.choice(blanks) + token for token in tokens[1:])
    return draw.choice(("", *blanks)) + spelled + draw.choice(("", *blanks))


def damaged_text(draw, text):
    """The text after one random edit or two."""
    words = ("0 1 2 3 4 5 6 7 8 9 00 257 16777217 33554433 4294967296 x "
             "XOR AND INV EQ EQW MAND and").split()
    for _ in range(1 + draw.below(2)):
        at, kind = draw.below(len(text) + 1), draw.below(6)
        if kind == 0:
            text = text[:at]
        elif kind == 1:
            text = text[:at] + text[at + 1 + draw.below(3):]
        elif kind == 2:
            text = text[:at] + bytes([draw.choice(b"0123456789 \nADX\v\xff")]) + text[at:]
        elif kind == 3:
            text = text[:at] + bytes([draw.below(256)]) + text[at + 1:]
        elif kind == 4:
            tokens = text.split(b" ")
            tokens[draw.below(len(tokens))] = draw.choice(words).encode()
            text = b" ".join(tokens)
        else:
            lines = text.split(b"\n")
            lines[draw.below(len(lines))] = draw.choice(lines)
            text = b"\n".join(lines)
    return text


def draw_values(draw, circuit):
    """The bits of each input value, and texts for them, binary or hexadecimal."""
    values = [[draw.below(2) for _ in range(width)] for width in circuit.input_widths]
    texts = ["x" + bristol.pack(bits).hex() if draw.below(2) else "".join(map(str, bits))
             for bits in values]
    return values, texts
