"""`stats`: the gates of a circuit by operation, its depths and the sizes of its garbled files."""
import unittest

from inputs import draws, respelled, worked_circuits
from program import (
    AND, CONSTANT_AND, EMPTY, FAR_COPY, FULL_ADDER, INV, MANY_WIRES, NO_GATES, ONE, SEED, SQUARE,
    WIDE, XOR, ZERO, ProgramTest, text_of_lines,
)

import bristol
import cases
import reference
import tracing

NAMES = (
    "xor", "and", "inv", "eq", "eqw", "depth", "and_depth", "level_width", "unread", "garbled1",
    "garbled2",
)

# Circuits and their numbers, in the order of their names.
STATISTICS = [
    (XOR, [1, 0, 0, 0, 0, 1, 0, 0, 0, 81, 113]),
    (AND, [0, 1, 0, 0, 0, 1, 1, 1, 0, 113, 145]),
    (INV, [0, 0, 1, 0, 0, 1, 0, 0, 0, 81, 113]),
    (FAR_COPY, [0, 0, 0, 0, 1, 1, 0, 0, 0, 81, 113]),
    (ZERO, [0, 0, 0, 1, 0, 1, 0, 0, 0, 81, 113]),
    (ONE, [0, 0, 0, 1, 0, 1, 0, 0, 0, 81, 113]),
    (CONSTANT_AND, [0, 1, 0, 1, 0, 2, 1, 1, 0, 113, 145]),
    (SQUARE, [0, 1, 0, 0, 0, 1, 1, 1, 0, 113, 145]),
    (FULL_ADDER, [4, 1, 0, 0, 0, 3, 1, 1, 0, 113, 177]),
    # No gates, no values, and values of width 0.
    (NO_GATES, [0, 0, 0, 0, 0, 0, 0, 0, 0, 81, 145]),
    (EMPTY, [0, 0, 0, 0, 0, 0, 0, 0, 0, 80, 80]),
    ("0 0\n2 0 0\n1 0", [0, 0, 0, 0, 0, 0, 0, 0, 0, 80, 80]),
    ("0 5\n0\n0", [0, 0, 0, 0, 0, 0, 0, 0, 0, 80, 80]),
    # Decode bits that fill a byte, and one more.
    ("0 8\n1 8\n1 8", [0, 0, 0, 0, 0, 0, 0, 0, 0, 81, 337]),
    ("0 9\n1 9\n1 9", [0, 0, 0, 0, 0, 0, 0, 0, 0, 82, 370]),
    (WIDE, [0, 0, 0, 0, 1, 1, 0, 0, 0, 82, 498]),
    # No outputs: what nothing reads is unread. Input wires are never unread.
    ("1 3\n1 2\n0\n2 1 0 1 2 AND", [0, 1, 0, 0, 0, 1, 1, 1, 1, 112, 112]),
    (MANY_WIRES, [0, 0, 1, 1, 1, 2, 0, 0, 2, 80, 80]),
    # The constant of EQ reads no wire, and EQ has a depth of its own even behind others.
    ("2 2\n0\n1 1\n1 1 0 0 EQ\n1 1 0 1 EQ", [0, 0, 0, 2, 0, 1, 0, 0, 1, 81, 113]),
    ("2 3\n1 1\n1 1\n1 1 0 1 INV\n1 1 1 2 EQ", [0, 0, 1, 1, 0, 1, 0, 0, 1, 81, 113]),
    # INV, EQW, XOR and EQ are no AND gates, and add nothing to the depth of those behind them.
    (
        "6 8\n2 1 1\n1 1\n2 1 0 1 2 AND\n1 1 2 3 INV\n1 1 3 4 EQW\n2 1 4 0 5 AND\n1 1 5 6 INV\n"
        "2 1 6 3 7 AND",
        [0, 3, 2, 0, 1, 6, 3, 1, 0, 177, 209],
    ),
    (
        "3 5\n2 1 1\n1 1\n2 1 0 1 2 XOR\n2 1 2 0 3 XOR\n2 1 1 3 4 AND",
        [2, 1, 0, 0, 0, 3, 1, 1, 0, 113, 145],
    ),
    # The deepest wire of each kind, where the two are different ones, and neither is an output.
    (
        "5 7\n2 1 1\n1 1\n2 1 0 1 2 AND\n1 1 0 3 INV\n1 1 3 4 INV\n1 1 4 5 EQW\n1 1 1 6 EQW",
        [0, 1, 2, 0, 2, 3, 1, 1, 2, 113, 145],
    ),
    # The deeper of two wires that a gate reads, on the left and on the right.
    (
        "3 5\n1 2\n1 1\n2 1 0 1 2 AND\n2 1 2 0 3 AND\n2 1 0 3 4 AND",
        [0, 3, 0, 0, 0, 3, 3, 1, 0, 177, 209],
    ),
    (
        "3 5\n1 2\n1 1\n2 1 0 1 2 AND\n2 1 1 2 3 AND\n2 1 3 0 4 AND",
        [0, 3, 0, 0, 0, 3, 3, 1, 0, 177, 209],
    ),
    # AND gates for each AND depth: five for two, and three for two.
    (
        "5 8\n1 3\n1 2\n2 1 0 1 3 AND\n2 1 1 2 4 AND\n2 1 0 2 5 AND\n2 1 3 4 6 AND\n2 1 3 5 7 AND",
        [0, 5, 0, 0, 0, 2, 2, 2, 0, 241, 305],
    ),
    (
        "3 5\n1 2\n1 2\n2 1 0 1 2 AND\n2 1 2 0 3 AND\n2 1 1 2 4 AND",
        [0, 3, 0, 0, 0, 2, 2, 1, 0, 177, 241],
    ),
    # A gate sets a lower wire than those before it.
    ("2 4\n2 1 1\n1 2\n2 1 0 1 3 AND\n2 1 3 0 2 AND", [0, 2, 0, 0, 0, 2, 2, 1, 0, 145, 209]),
    # Outputs that are inputs, and an output that a gate reads.
    ("1 3\n1 2\n1 3\n2 1 0 1 2 XOR", [1, 0, 0, 0, 0, 1, 0, 0, 0, 81, 177]),
    ("2 4\n1 2\n1 2\n2 1 0 1 2 AND\n2 1 2 0 3 AND", [0, 2, 0, 0, 0, 2, 2, 1, 0, 145, 209]),
]

FAULTS = [
    ("", "1 Truncated"),
    ("x", "2 BadNumber"),
    ("16777217", "3 TooLarge"),
    (XOR.replace("2 1 0", "2 2 0"), "4 BadShape"),
    (XOR.replace("XOR", "NAND"), "5 UnknownOperation"),
    (ONE.replace("1 1 1 0", "1 1 2 0"), "6 BadConstant"),
    (INV.replace("0 1 INV", "2 1 INV"), "7 NoSuchWire"),
    (INV.replace("0 1 INV", "1 1 INV"), "8 Unset"),
    (INV.replace("0 1 INV", "0 0 INV"), "9 SetTwice"),
    ("0 2\n1 1\n1 1", "10 OutputUnset"),
    (INV + " 1", "11 TrailingTokens"),
    ("0 2\n1 3\n1 1", "12 WidthsExceedWires"),
]


def lines_of(numbers):
    """What `stats` prints of these numbers."""
    return text_of_lines(f"{name} {number}" for name, number in zip(NAMES, numbers))


class Reference(unittest.TestCase):
    """What the reference of vectors/ says, held against rows written by hand, and its own files."""

    def test_numbers(self):
        for text, numbers in STATISTICS:
            lines = text_of_lines(tracing.stats(text.encode()))
            self.assertEqual(lines, lines_of(numbers), text)

    def test_sizes(self):
        for name, draw in draws(20, "size"):
            text = cases.random_circuit(draw, draw.below(12), draw.below(30), draw.below(2))
            circuit = bristol.read_circuit(text.encode())
            garbling = reference.garble(circuit, bytes(32))
            sizes = [len(reference.garbled_file(circuit, garbling, version)) for version in (1, 2)]
            numbers = bristol.statistics(circuit)
            self.assertEqual([numbers["garbled1"], numbers["garbled2"]], sizes, name)


class Stats(ProgramTest):
    """`stats`, held against rows written by hand, and against the reference."""

    def assert_numbers(self, text, numbers):
        self.put("c.txt", text)
        self.assert_prints(lines_of(numbers), "stats", "c.txt")

    def test_numbers(self):
        for text, numbers in STATISTICS:
            with self.subTest(text):
                self.assert_numbers(text, numbers)

    def test_the_circuits_of_vectors(self):
        for name, vector in worked_circuits():
            with self.subTest(name):
                self.assertEqual(tuple(vector["statistics"]), NAMES)
                self.assert_numbers("\n".join(vector["circuit"]), vector["statistics"].values())

    def test_random_circuits(self):
        for name, draw in draws(100, "statistics"):
            inputs, gates, unset = draw.below(9), draw.below(61), draw.below(2) * draw.below(9)
            text = respelled(draw, cases.random_circuit(draw, inputs, gates, unset))
            with self.subTest(name):
                self.put("c.txt", text)
                lines = text_of_lines(tracing.stats(text.encode()))
                self.assert_prints(lines, "stats", "c.txt")

    def test_sizes_of_garbled_files(self):
        for text, numbers in STATISTICS:
            self.put("c.txt", text)
            for version, size in zip("12", numbers[-2:]):
                words = "c.txt", SEED, "g", "--format", version
                self.assert_prints(f"wrote {size}\n", "garble", *words)

    def test_a_bad_circuit(self):
        for text, fault in FAULTS:
            self.put("c.txt", text)
            self.assert_fault(fault, "stats", "c.txt")
        for name in "no file", ".":
            self.assert_fault("50 CannotRead", "stats", name)

    def test_a_hundred_thousand_gates(self):
        self.make("chains", 64, 1500)
        size = 48 + 32 * 96000 + 8 + 32
        numbers = 0, 96000, 0, 0, 0, 1500, 1500, 64, 0, size, size + 32 * 64
        self.assert_prints(lines_of(numbers), "stats", "chains")
        self.make("sha256")
        lines = text_of_lines(tracing.stats(self.bytes_of("sha256")))
        self.assert_prints(lines, "stats", "sha256")


if __name__ == "__main__":
    unittest.main()
