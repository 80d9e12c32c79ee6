# SPDX-License-Identifier: MIT OR Apache-2.0
"""The gates of a circuit that is converted: what each computes, and how it is made of gates of Bristol Fashion."""

from __future__ import annotations

from itertools import count
from typing import Callable, Dict, Hashable, List, NamedTuple, Optional, Sequence, Tuple


class ConversionError(ValueError):
    """A text that isn't a circuit that can be converted."""


def demand(condition: object, said: str) -> None:
    if not condition:
        raise ConversionError(said)


class Builder:
    """A circuit in the making. Input wires come first, and each gate sets the next wire."""

    def __init__(self, input_widths: Sequence[int]) -> None:
        self._input_widths = input_widths
        self._input_wires = sum(input_widths)
        self._gates: List[Tuple[str, int, Optional[int]]] = []  # the operation, and what it reads

    def _gate(self, operation: str, a: int, b: Optional[int] = None) -> int:
        self._gates.append((operation, a, b))
        return self._input_wires + len(self._gates) - 1

    def xor(self, a: int, b: int) -> int:
        return self._gate("XOR", a, b)

    def and_(self, a: int, b: int) -> int:
        return self._gate("AND", a, b)

    def inv(self, a: int) -> int:
        return self._gate("INV", a)

    def or_(self, a: int, b: int) -> int:
        return self.inv(self.nor(a, b))

    def nor(self, a: int, b: int) -> int:
        return self.and_(self.inv(a), self.inv(b))

    def mux(self, a: int, b: int, s: int) -> int:
        return self.xor(a, self.and_(s, self.xor(a, b)))

    def constant(self, bit: int) -> int:
        return self._gate("EQ", bit)

    def text(self, outputs: Sequence[Sequence[int]]) -> bytes:
        """The circuit with these output values. Input wires, and wires that repeat, are copied."""
        taken, last = set(range(self._input_wires)), []
        for wire in (wire for value in outputs for wire in value):
            last.append(self._gate("EQW", wire) if wire in taken else wire)
            taken.add(last[-1])
        numbers = self._numbers(last)
        head = [f"{len(self._gates)} {len(numbers)}"]
        head += [" ".join(map(str, [len(it), *it])) for it in (self._input_widths, [len(it) for it in outputs])]
        return "\n".join([*head, "", *self._lines(numbers), ""]).encode()

    def _numbers(self, outputs: Sequence[int]) -> List[int]:
        """The number of each wire in the text: those of inputs come first, and those of outputs last."""
        wires = self._input_wires + len(self._gates)
        last = {wire: wires - len(outputs) + place for place, wire in enumerate(outputs)}
        others = count()
        return [last[it] if it in last else next(others) for it in range(wires)]

    def _lines(self, numbers: List[int]) -> List[str]:
        lines = []
        for wire, (operation, a, b) in enumerate(self._gates, self._input_wires):
            read = a if operation == "EQ" else numbers[a]
            two = "1 1" if b is None else "2 1"
            other = "" if b is None else f" {numbers[b]}"
            lines.append(f"{two} {read}{other} {numbers[wire]} {operation}")
        return lines


class Kind(NamedTuple):
    """A kind of gate."""

    reads: int  #: how many wires it reads
    compute: Callable[..., int]  #: what it computes of integers, bit by bit; their highest bit repeats without end
    build: Callable[..., int]  #: the wire that gates of a builder set to that


#: The kinds of gates. Each takes one AND gate, or none.
KINDS: Dict[str, Kind] = {
    "0": Kind(0, lambda: 0, lambda c: c.constant(0)),
    "1": Kind(0, lambda: -1, lambda c: c.constant(1)),
    "BUF": Kind(1, lambda a: a, lambda c, a: a),
    "NOT": Kind(1, lambda a: ~a, lambda c, a: c.inv(a)),
    "AND": Kind(2, lambda a, b: a & b, lambda c, a, b: c.and_(a, b)),
    "NAND": Kind(2, lambda a, b: ~(a & b), lambda c, a, b: c.inv(c.and_(a, b))),
    "OR": Kind(2, lambda a, b: a | b, lambda c, a, b: c.or_(a, b)),
    "NOR": Kind(2, lambda a, b: ~(a | b), lambda c, a, b: c.nor(a, b)),
    "XOR": Kind(2, lambda a, b: a ^ b, lambda c, a, b: c.xor(a, b)),
    "XNOR": Kind(2, lambda a, b: ~(a ^ b), lambda c, a, b: c.inv(c.xor(a, b))),
    "ANDNOT": Kind(2, lambda a, b: a & ~b, lambda c, a, b: c.and_(a, c.inv(b))),
    "ORNOT": Kind(2, lambda a, b: a | ~b, lambda c, a, b: c.inv(c.and_(c.inv(a), b))),
    "MUX": Kind(3, lambda a, b, s: a & ~s | b & s, lambda c, a, b, s: c.mux(a, b, s)),
    "NMUX": Kind(3, lambda a, b, s: ~(a & ~s | b & s), lambda c, a, b, s: c.inv(c.mux(a, b, s))),
}


class Gate(NamedTuple):
    """A gate of a source: its kind, the wires that it reads, and the one that it sets."""

    kind: str
    read: Sequence[Hashable]
    wire: Hashable


class Value(NamedTuple):
    """An input value or an output value of a source: its name, or "" where it has none, and its wires."""

    name: str
    wires: Sequence[Hashable]


class Source(NamedTuple):
    """A circuit as its source has it. No gate reads a wire that a later one sets, and each wire is set once."""

    inputs: List[Value]
    outputs: List[Value]
    gates: List[Gate]

    @property
    def input_wires(self) -> List[Hashable]:
        return [wire for value in self.inputs for wire in value.wires]

    @property
    def output_wires(self) -> List[Hashable]:
        return [wire for value in self.outputs for wire in value.wires]

    def build(self) -> bytes:
        """The same circuit in Bristol Fashion."""
        builder = Builder([len(value.wires) for value in self.inputs])
        wires = {it: number for number, it in enumerate(self.input_wires)}
        for kind, read, wire in self.gates:
            wires[wire] = KINDS[kind].build(builder, *[wires[it] for it in read])
        return builder.text([[wires[it] for it in value.wires] for value in self.outputs])

    def evaluate(self, inputs: Sequence[int]) -> List[int]:
        """The bits of all output wires for those of all input wires. Bit i of each number belongs to input i."""
        bits = dict(zip(self.input_wires, inputs))
        for kind, read, wire in self.gates:
            bits[wire] = KINDS[kind].compute(*[bits[it] for it in read])
        return [bits[it] for it in self.output_wires]
