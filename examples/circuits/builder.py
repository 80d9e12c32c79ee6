"""A builder of circuits in Bristol Fashion."""

from itertools import count

# The constant 0, in the place of a wire. XOR and AND of it take no gate.
ZERO = None


class Builder:
    """A circuit in the making.

    Input wires come first, and each gate sets the next wire. A value is a list of wires, lowest
    bit first.
    """

    def __init__(self, *input_widths):
        self.input_widths = input_widths
        self.input_wires = sum(input_widths)
        self.wires = self.input_wires
        self.gates = []  # (name, wire that it sets, what it reads, second wire that it reads)
        self.outputs = []

    @property
    def inputs(self):
        """The input values."""
        wires = count()
        return [[next(wires) for _ in range(width)] for width in self.input_widths]

    def gate(self, name, a, b=None):
        """Adds a gate, and returns the wire that it sets."""
        wire = self.wires
        self.wires += 1
        self.gates.append((name, wire, a, b))
        return wire

    def xor(self, a, b):
        if a is ZERO or b is ZERO:
            return b if a is ZERO else a
        return self.gate("XOR", a, b)

    def and_(self, a, b):
        if a is ZERO or b is ZERO:
            return ZERO
        return self.gate("AND", a, b)

    def inv(self, a):
        return self.gate("INV", a)

    def constant(self, bit):
        return self.gate("EQ", bit)

    def copy(self, a):
        return self.gate("EQW", a)

    def xor_bits(self, a, b):
        """XOR of two values, bit by bit."""
        return [self.xor(x, y) for x, y in zip(a, b)]

    def and_bits(self, a, b):
        """AND of two values, bit by bit."""
        return [self.and_(x, y) for x, y in zip(a, b)]

    def xor_constant(self, a, constant):
        """XOR of a value and a number, bit by bit."""
        return [self.inv(x) if constant >> i & 1 else x for i, x in enumerate(a)]

    def output(self, *values):
        """Makes these the output values. Input wires, and wires that repeat, are copied."""
        taken = set(range(self.input_wires))
        for value in values:
            self.outputs.append([])
            for wire in value:
                wire = self.copy(wire) if wire in taken else wire
                taken.add(wire)
                self.outputs[-1].append(wire)

    def write(self, file, times=1, by_depth=False):
        """Writes copies of the circuit, each with values of its own: one after another, or all in
        order of AND depth, as the program's `order` would.
        """
        output_widths = [len(value) for value in self.outputs]
        file.write(f"{times * len(self.gates)} {times * self.wires}\n")
        for widths in (times * list(self.input_widths), times * output_widths):
            file.write(f"{len(widths)} {' '.join(map(str, widths))}\n")
        file.write("\n")
        copies = [self._numbers(copy, times) for copy in range(times)]
        if by_depth:
            parts = [(gates, numbers) for gates in self._by_rank() for numbers in copies]
        else:
            parts = [(self.gates, numbers) for numbers in copies]
        for gates, numbers in parts:
            file.writelines(self._lines(gates, numbers))

    def _by_rank(self):
        """The gates by AND depth, those of one depth in two lists: AND gates, and the others."""
        depths, ranks = [0] * self.wires, {}
        for gate in self.gates:
            name, wire, *read = gate
            wires = [] if name == "EQ" else [it for it in read if it is not None]
            depths[wire] = max((depths[it] for it in wires), default=0) + (name == "AND")
            ranks.setdefault((depths[wire], name != "AND"), []).append(gate)
        return [ranks[rank] for rank in sorted(ranks)]

    def _numbers(self, copy, times):
        """The number that each wire of a copy has in the file: inputs first, and outputs last."""
        outputs = [wire for value in self.outputs for wire in value]
        before_outputs = self.wires - len(outputs)
        numbers = [None] * self.wires
        for wire in range(self.input_wires):
            numbers[wire] = copy * self.input_wires + wire
        for place, wire in enumerate(outputs):
            numbers[wire] = times * before_outputs + copy * len(outputs) + place
        inner = count(times * self.input_wires + copy * (before_outputs - self.input_wires))
        return [next(inner) if number is None else number for number in numbers]

    def _lines(self, gates, numbers):
        """A line for each of these gates."""
        for name, wire, a, b in gates:
            if b is not None:
                yield f"2 1 {numbers[a]} {numbers[b]} {numbers[wire]} {name}\n"
            else:
                read = a if name == "EQ" else numbers[a]
                yield f"1 1 {read} {numbers[wire]} {name}\n"
