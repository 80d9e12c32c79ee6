"""Circuits in Bristol Fashion, and values as texts: reading, spelling and plain evaluation.

It follows the page "Bristol Fashion MPC Circuits" and the project's docs/. Each function that reads
raises the first fault of its input, as a Fault. Of a circuit a fault says where it is.
"""
import re
from collections import namedtuple
from hashlib import sha256

MAX_GATES, MAX_WIRES, MAX_VALUES = 2**24, 2**25, 2**8


class Fault(Exception):
    """The first fault of an input: its number and its name.

    In a circuit's text it is after `at` bytes. It may be a fault of a wire, and one found while a
    gate is read.
    """

    def __init__(self, number, name, at=None, wire=None):
        super().__init__(f"fault {number} {name}")
        self.number, self.name, self.at, self.wire = number, name, at, wire
        self.gate = None


def demand(condition, number, name, at=None, wire=None):
    """Raises this fault unless the condition holds."""
    if not condition:
        raise Fault(number, name, at, wire)


# Circuits in Bristol Fashion.

# `numbers` are the wires that the gate reads, or the constant of EQ; it sets the wire `target`.
Gate = namedtuple("Gate", "operation numbers target")
Circuit = namedtuple("Circuit", "wires input_widths output_widths gates")

FIRST_COUNTS = {"XOR": 2, "AND": 2, "INV": 1, "EQ": 1, "EQW": 1}


class Tokens:
    """The tokens of a text: the longest runs of bytes other than tab, line feed, CR and space.

    The token taken last begins after `start` bytes, and ends after `end` bytes.
    """

    def __init__(self, text):
        self.left, self.size = re.finditer(rb"[^\t\n\r ]+", text), len(text)

    def word(self):
        """The next token."""
        token = next(self.left, None)
        demand(token, 1, "Truncated", self.size)
        self.start, self.end = token.span()
        return token[0]

    def number(self, limit=2**32 - 1):
        """The next token as a number; leading zeros are allowed."""
        digits = self.word()
        demand(re.fullmatch(rb"[0-9]+", digits), 2, "BadNumber", self.start)
        value = int(digits.lstrip(b"0")[:11] or b"0")  # 11 digits are above each limit.
        demand(value < 2**32, 2, "BadNumber", self.start)
        demand(value <= limit, 3, "TooLarge", self.start)
        return value

    def numbers(self, count):
        """The next tokens as numbers, and where they begin."""
        pairs = [(self.number(), self.start) for _ in range(count)]
        return tuple(number for number, _ in pairs), [start for _, start in pairs]


def read_circuit(text):
    """The circuit that the bytes spell."""
    tokens = Tokens(text)
    gate_count = tokens.number(MAX_GATES)
    wires = tokens.number(MAX_WIRES)
    input_widths = read_widths(tokens, wires)
    output_widths = read_widths(tokens, wires)
    circuit = Circuit(wires, input_widths, output_widths, [])
    targets = set()
    for _ in range(gate_count):
        gate = read_gate(tokens, circuit, targets)
        circuit.gates.append(gate)
        targets.add(gate.target)
    for wire in output_wires(circuit):
        demand(is_set(circuit, targets, wire), 10, "OutputUnset", tokens.end, wire)
    trailing = next(tokens.left, None)
    demand(trailing is None, 11, "TrailingTokens", trailing and trailing.start())
    return circuit


def read_widths(tokens, wires):
    """The widths of the input values, or of the output values. Together they exceed no wires."""
    widths = [tokens.number() for _ in range(tokens.number(MAX_VALUES))]
    demand(sum(widths) <= wires, 12, "WidthsExceedWires", tokens.start)
    return widths


def read_gate(tokens, circuit, targets):
    """One gate. Its tokens come first, and then what they mean."""
    try:
        counts, starts = tokens.numbers(2)
        demand(counts in ((1, 1), (2, 1)), 4, "BadShape", starts[0])
        (*numbers, target), starts = tokens.numbers(sum(counts))
        operation = tokens.word().decode("latin-1")
        demand(operation in FIRST_COUNTS, 5, "UnknownOperation", tokens.start)
        demand(FIRST_COUNTS[operation] == counts[0], 4, "BadShape", tokens.start)
        gate = Gate(operation, numbers, target)
        demand(operation != "EQ" or numbers[0] in (0, 1), 6, "BadConstant", starts[0])
        for wire, start in zip(wires_read(gate), starts):
            demand(wire < circuit.wires, 7, "NoSuchWire", start, wire)
            demand(is_set(circuit, targets, wire), 8, "Unset", start, wire)
        demand(target < circuit.wires, 7, "NoSuchWire", starts[-1], target)
        demand(not is_set(circuit, targets, target), 9, "SetTwice", starts[-1], target)
        return gate
    except Fault as fault:
        fault.gate = len(circuit.gates)
        raise


def place_of(text, fault):
    """Where the first fault of a text is: its line and column, and its gate and wire if it has any.

    Lines and columns are counted from 1. A line feed ends a line, and each byte is a column.
    """
    before = text[:fault.at]
    place = {"line": 1 + before.count(b"\n"), "column": len(before) - before.rfind(b"\n")}
    place.update(gate=fault.gate, wire=fault.wire)
    return {name: number for name, number in place.items() if number is not None}


def wires_read(gate):
    """The wires that the gate reads."""
    return [] if gate.operation == "EQ" else gate.numbers


def input_wires(circuit):
    """The first wires, value after value."""
    return range(sum(circuit.input_widths))


def output_wires(circuit):
    """The last wires, value after value."""
    return range(circuit.wires - sum(circuit.output_widths), circuit.wires)


def is_set(circuit, targets, wire):
    """Whether the wire is an input wire, or one of the targets."""
    return wire in input_wires(circuit) or wire in targets


def and_count(circuit):
    """The number of AND gates."""
    return sum(map(is_and, circuit.gates))


def canonical_text(circuit):
    """The one spelling that stands for all spellings of the circuit."""
    lines = [
        [len(circuit.gates), circuit.wires],
        [len(circuit.input_widths), *circuit.input_widths],
        [len(circuit.output_widths), *circuit.output_widths],
        [],
        *([len(g.numbers), 1, *g.numbers, g.target, g.operation] for g in circuit.gates),
    ]
    return "".join(" ".join(map(str, line)) + "\n" for line in lines).encode()


def digest(circuit):
    """The SHA-256 of the canonical text, 32 bytes."""
    return sha256(canonical_text(circuit)).digest()


def walk(circuit, inputs, rule):
    """The value on each set wire: on input wires what is given, and else what the rule gives.

    The rule takes a gate, and the values on the wires that the gate reads.
    """
    on_wires = dict(enumerate(inputs))
    for gate in circuit.gates:
        on_wires[gate.target] = rule(gate, *[on_wires[wire] for wire in wires_read(gate)])
    return on_wires


def plain_bits(circuit, values):
    """The bit of each set wire for the bits of each input value, computed without garbling."""

    def bit_of(gate, a=0, b=0):
        bits = {"XOR": a ^ b, "AND": a & b, "INV": 1 - a, "EQ": gate.numbers[0], "EQW": a}
        return bits[gate.operation]

    return walk(circuit, [bit for bits in values for bit in bits], bit_of)


def plain_eval(circuit, values):
    """The bits on the output wires for the bits of each input value, computed without garbling."""
    on_wires = plain_bits(circuit, values)
    return [on_wires[wire] for wire in output_wires(circuit)]


def is_and(gate):
    """Whether the gate is an AND gate."""
    return gate.operation == "AND"


def depths(circuit, counts):
    """The depth of each set wire, of which input wires have 0.

    A gate that counts sets a wire that is one deeper than the deepest wire that it reads, and any
    other gate sets one as deep as that.
    """
    return walk(circuit, [0 for _ in input_wires(circuit)],
                lambda gate, *read: counts(gate) + max(read, default=0))


def greatest(on_wires):
    """The greatest of the numbers on the wires."""
    return max(on_wires.values(), default=0)


def order_by_depth(circuit):
    """The circuit with its gates in order of AND depth, of one depth the AND gates first.

    Gates of one depth that are both AND, or both others, stay in file order.
    """
    and_depths = depths(circuit, is_and)
    gates = sorted(circuit.gates, key=lambda gate: (and_depths[gate.target], not is_and(gate)))
    return circuit._replace(gates=gates)


def statistics(circuit):
    """The gates by operation, the depths, and the sizes of the garbled files of either version.

    The width of a level is the number of AND gates for each AND depth, rounded down, and 0 where
    there are none. A gate is unread where no gate reads the wire that it sets, and the wire is no
    output.
    """
    numbers = {name.lower(): sum(gate.operation == name for gate in circuit.gates)
               for name in FIRST_COUNTS}
    outputs = output_wires(circuit)
    used = {wire for gate in circuit.gates for wire in wires_read(gate)}.union(outputs)
    and_depth = greatest(depths(circuit, is_and))
    size = 8 + 32 + 4 + 4 + 32 * numbers["and"] + (len(outputs) + 7) // 8 + 32
    return {
        **numbers,
        "depth": greatest(depths(circuit, lambda gate: True)),
        "and_depth": and_depth,
        "level_width": numbers["and"] // and_depth if and_depth else 0,
        "unread": sum(gate.target not in used for gate in circuit.gates),
        "garbled1": size,
        "garbled2": size + 32 * len(outputs),
    }


# Bits, values and seeds as texts.


def pack(bits):
    """Eight bits to a byte, the first bit lowest; bits left over are 0."""
    padded = [*bits, *[0] * (-len(bits) % 8)]
    return bytes(sum(padded[i + j] << j for j in range(8)) for i in range(0, len(bits), 8))


def unpack(data, count):
    """The first bits of these bytes, and whether all others are 0."""
    bits = [byte >> j & 1 for byte in data for j in range(8)]
    return bits[:count], not any(bits[count:])


def read_value(text, width):
    """The bits that a text tells: binary digits in wire order, or x and hexadecimal digits."""
    text = text.encode()
    is_hex = text.startswith(b"x")
    demand(len(text) == (1 + 2 * ((width + 7) // 8) if is_hex else width), 16, "WrongLength")
    demand(re.fullmatch(rb"x[0-9a-fA-F]*" if is_hex else rb"[01]*", text), 15, "BadDigit")
    if not is_hex:
        return [digit - ord("0") for digit in text]
    bits, others_zero = unpack(bytes.fromhex(text[1:].decode()), width)
    demand(others_zero, 17, "SpareBits")
    return bits


def read_values(texts, widths):
    """The bits of each value."""
    demand(len(texts) == len(widths), 14, "WrongCount")
    return [read_value(text, width) for text, width in zip(texts, widths)]


def show_values(bits, widths):
    """A binary text for each value."""
    digits = iter("".join(map(str, bits)))
    return ["".join(next(digits) for _ in range(width)) for width in widths]


def read_seed(text):
    """The 32 bytes of a seed."""
    demand(re.fullmatch("[0-9a-fA-F]{64}", text), 18, "BadSeed")
    return bytes.fromhex(text)
