# SPDX-License-Identifier: MIT OR Apache-2.0
"""Circuits in the old Bristol format, and those in Bristol Fashion with operations that `halfgates` doesn't have."""

from __future__ import annotations

from itertools import accumulate, chain
from typing import Iterator, List, NamedTuple, Sequence, Set, Tuple

from ._gates import KINDS, Gate, Source, Value, demand

#: A line that has words, with its number.
Line = Tuple[int, List[str]]

#: The kind of gate that each operation is. EQ and MAND stand for several.
OPERATIONS = {"INV": "NOT", "EQW": "BUF", **{it: it for it in "NOT AND NAND OR NOR XOR XNOR".split()}}

MAX_WIRES = 1 << 25
MAX_VALUES = 256


class Head(NamedTuple):
    """What stands before the gates."""

    gates: int
    wires: int
    input_widths: Sequence[int]
    output_widths: Sequence[int]


def read_bristol(text: str) -> Source:
    """The circuit of a text, in which a line is a gate."""
    lines = ((number, line.split()) for number, line in enumerate(text.split("\n"), 1))
    head, lines = read_head(filter(lambda it: it[1], lines))
    inputs = cut(0, head.input_widths)
    reader = Reader(head, set(range(sum(head.input_widths))))
    gates = [gate for number, words in lines for gate in reader.read(number, words)]
    demand(reader.count == head.gates, f"there are {reader.count} gates, and line 1 says {head.gates}")
    outputs = cut(head.wires - sum(head.output_widths), head.output_widths)
    for wire in (wire for value in outputs for wire in value.wires):
        demand(wire in reader.is_set, f"no gate sets wire {wire}, which is an output")
    return Source(inputs, outputs, gates)


def cut(first: int, widths: Sequence[int]) -> List[Value]:
    """Values of these widths, whose wires follow one another."""
    ends = accumulate(widths, initial=first)
    return [Value("", range(end, end + width)) for end, width in zip(ends, widths)]


def read_head(lines: Iterator[Line]) -> Tuple[Head, Iterator[Line]]:
    """What stands before the gates, and the lines that follow it.

    The second line of the old format has the widths of one or two input values and of one output value, and a gate
    follows. In Bristol Fashion two lines have the number of values, and the width of each.
    """
    first, second, third = (next(lines, (0, [])) for _ in range(3))
    demand(second[1], "this is no circuit: it ends before its second line")
    counts, widths = numbers_of(first), numbers_of(second)
    demand(len(counts) == 2, f"line {first[0]} has {len(counts)} numbers, and not those of gates and wires")
    if third[1] and is_number(third[1][-1]):
        inputs, outputs = widths_of(second), widths_of(third)
    else:
        demand(len(widths) in (2, 3), f"line {second[0]} has the widths of neither two nor three values")
        # A party without input has the width 0.
        inputs, outputs = [it for it in widths[:-1] if it], widths[-1:]
        lines = chain([third] if third[1] else [], lines)
    head = Head(counts[0], counts[1], inputs, outputs)
    demand(head.wires <= MAX_WIRES, f"there are {head.wires} wires, and at most {MAX_WIRES} can be")
    for side, of_side in (("input", inputs), ("output", outputs)):
        demand(sum(of_side) <= head.wires, f"the {side} values have more wires than there are")
    return head, lines


def is_number(word: str) -> bool:
    return word.isascii() and word.isdigit() and len(word) <= 20


def numbers_of(line: Line) -> List[int]:
    number, words = line
    for word in words:
        demand(is_number(word), f"line {number}: {word[:20]!r} is no number")
    return [int(word) for word in words]


def widths_of(line: Line) -> List[int]:
    """The widths of a line of Bristol Fashion."""
    count, *widths = numbers_of(line)
    demand(count == len(widths), f"line {line[0]} has {len(widths)} widths, and says {count}")
    demand(count <= MAX_VALUES, f"line {line[0]} has {count} values, and at most {MAX_VALUES} can be")
    return widths


class Reader:
    """Reads gates, and knows which wires are set."""

    def __init__(self, head: Head, is_set: Set[int]) -> None:
        self.head, self.is_set = head, is_set
        self.count = 0

    def read(self, number: int, words: List[str]) -> List[Gate]:
        """The gates that a line stands for."""
        operation = words.pop()
        is_known = operation in (*OPERATIONS, "EQ", "MAND")
        demand(is_known, f"line {number}: {operation[:20]!r} is no operation that can be converted")
        demand(len(words) > 1, f"line {number} doesn't say how many wires {operation} reads and sets")
        reads, sets, *wires = numbers_of((number, words))
        self.demand_shape(number, operation, (reads, sets, len(wires)))
        self.count += 1
        read, made = wires[:reads], wires[reads:]
        if operation != "EQ":
            self.demand_set(number, read)
        self.set(number, made)
        return list(gates_of(number, operation, read, made))

    def demand_shape(self, number: int, operation: str, shape: Tuple[int, int, int]) -> None:
        """A gate reads and sets as many wires as its operation, and names them."""
        reads, sets, named = shape
        if operation == "MAND":
            is_right = reads == 2 * sets
        else:
            is_right = (reads, sets) == (KINDS[OPERATIONS.get(operation, "BUF")].reads, 1)
        demand(is_right, f"line {number}: {operation} doesn't read {reads} wires and set {sets}")
        demand(named == reads + sets, f"line {number} names {named} wires, and says {reads + sets}")

    def demand_set(self, number: int, wires: Sequence[int]) -> None:
        for wire in wires:
            demand(wire in self.is_set, f"line {number}: wire {wire} is read, and nothing sets it before")

    def set(self, number: int, wires: Sequence[int]) -> None:
        for wire in wires:
            demand(wire < self.head.wires, f"line {number}: there is no wire {wire}")
            demand(wire not in self.is_set, f"line {number}: wire {wire} is set twice")
            self.is_set.add(wire)


def gates_of(number: int, operation: str, read: List[int], made: List[int]) -> Iterator[Gate]:
    if operation == "EQ":
        demand(read[0] in (0, 1), f"line {number}: the constant of EQ is {read[0]}, neither 0 nor 1")
        yield Gate(str(read[0]), [], made[0])
    elif operation == "MAND":
        yield from (Gate("AND", pair, wire) for *pair, wire in zip(read, read[len(made) :], made))
    else:
        yield Gate(OPERATIONS[operation], read, made[0])
