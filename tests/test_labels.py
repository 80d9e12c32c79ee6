"""`labels`: the zero label, the active label and the bit of each set wire."""
import unittest
from hashlib import sha256

from inputs import draw_values, draws, respelled, worked_circuits
from program import (
    AND, EMPTY, FAR_COPY, FULL_ADDER, INV, NO_GATES, ONE, SEED, XOR, ZERO, ProgramTest, ending_of,
    text_of_lines,
)

import bristol
import cases
import tracing

# Under a seed of zeros: the offset, and the labels of the first two input wires.
OFFSET = "77b8e0ada0f13d90405d6ae55386bd28"
ZERO_0 = "bdd219b8a08ded1aa836efcc8b770dc7"
ONE_0 = "ca6af915007cd08ae86b8529d8f1b0ef"
ZERO_1 = "da41597c5157488d7724e03fb8d84a37"
ONE_1 = "adf9b9d1f1a6751d37798adaeb5ef71f"
# Those of the wire that an XOR gate sets, and of the wire that an AND gate sets.
ZERO_XOR = "679340c4f1daa597df120ff333af47f0"
ONE_XOR = "102ba069512b98079f4f65166029fad8"
ZERO_AND = "4da3522f101cbfa705f185f57f1b9538"
ONE_AND = "3a1bb282b0ed823745acef102c9d2810"
NO_BITS = 32 * "0"

# Circuits, values, and the lines.
LINES = [
    (
        XOR,
        ["1", "0"],
        [f"0 {ZERO_0} {ONE_0} 1", f"1 {ZERO_1} {ZERO_1} 0", f"2 {ZERO_XOR} {ONE_XOR} 1"],
    ),
    (
        XOR,
        ["x01", "x01"],
        [f"0 {ZERO_0} {ONE_0} 1", f"1 {ZERO_1} {ONE_1} 1", f"2 {ZERO_XOR} {ZERO_XOR} 0"],
    ),
    (
        AND,
        ["0", "1"],
        [f"0 {ZERO_0} {ZERO_0} 0", f"1 {ZERO_1} {ONE_1} 1", f"2 {ZERO_AND} {ZERO_AND} 0"],
    ),
    (
        AND,
        ["1", "1"],
        [f"0 {ZERO_0} {ONE_0} 1", f"1 {ZERO_1} {ONE_1} 1", f"2 {ZERO_AND} {ONE_AND} 1"],
    ),
    (INV, ["0"], [f"0 {ZERO_0} {ZERO_0} 0", f"1 {ONE_0} {ZERO_0} 1"]),
    (INV, ["1"], [f"0 {ZERO_0} {ONE_0} 1", f"1 {ONE_0} {ONE_0} 0"]),
    # Wires 1 and 2 are not set.
    (FAR_COPY, ["1"], [f"0 {ZERO_0} {ONE_0} 1", f"3 {ZERO_0} {ONE_0} 1"]),
    # The label that stands for a constant is all zeros.
    (ONE, [], [f"0 {OFFSET} {NO_BITS} 1"]),
    (ZERO, [], [f"0 {NO_BITS} {NO_BITS} 0"]),
    ("1 2\n1 1\n1 1\n2 1 0 0 1 XOR", ["1"], [f"0 {ZERO_0} {ONE_0} 1", f"1 {NO_BITS} {NO_BITS} 0"]),
    (NO_GATES, ["01"], [f"0 {ZERO_0} {ZERO_0} 0", f"1 {ZERO_1} {ONE_1} 1"]),
    # Gates that set higher wires first.
    (
        "2 3\n1 1\n1 1\n1 1 0 2 INV\n1 1 2 1 INV",
        ["1"],
        [f"0 {ZERO_0} {ONE_0} 1", f"1 {ZERO_0} {ONE_0} 1", f"2 {ONE_0} {ONE_0} 0"],
    ),
    # No outputs, values of width 0, and no wire that is set.
    ("0 2\n3 0 1 0\n0", ["", "1", "x"], [f"0 {ZERO_0} {ONE_0} 1"]),
    ("0 3\n2 0 0\n1 0", ["", ""], []),
    (EMPTY, [], []),
]

# A circuit that sets the wires 0, 1, 5 and 8, values for it, options, and the wires printed.
SPARSE = "2 9\n1 2\n1 1\n2 1 0 1 5 AND\n2 1 5 1 8 AND"
MOST = 2**32 - 1
WINDOWS = [
    ({}, [0, 1, 5, 8]),
    ({"first": 0}, [0, 1, 5, 8]),
    ({"first": 1}, [1, 5, 8]),
    ({"first": 2}, [5, 8]),
    ({"first": 5}, [5, 8]),
    ({"first": 6}, [8]),
    ({"first": 8}, [8]),
    ({"first": 9}, []),
    ({"first": MOST}, []),
    ({"count": 0}, []),
    ({"count": 1}, [0]),
    ({"count": 3}, [0, 1, 5]),
    ({"count": 4}, [0, 1, 5, 8]),
    ({"count": 5}, [0, 1, 5, 8]),
    ({"count": MOST}, [0, 1, 5, 8]),
    ({"first": 0, "count": 0}, []),
    ({"first": 1, "count": 2}, [1, 5]),
    ({"first": 2, "count": 1}, [5]),
    ({"first": 2, "count": 2}, [5, 8]),
    ({"first": 2, "count": 3}, [5, 8]),
    ({"first": 5, "count": MOST}, [5, 8]),
    ({"first": 8, "count": 1}, [8]),
    ({"first": 9, "count": 1}, []),
    ({"first": MOST, "count": MOST}, []),
]

# Circuits, seeds and values, and the first fault.
FAULTS = [
    ("", "0", ["2"], "1 Truncated"),
    (XOR + " 1", "0", [], "11 TrailingTokens"),
    (FULL_ADDER, "0", ["2"], "18 BadSeed"),
    (FULL_ADDER, 63 * "0" + "g", ["1", "0", "1"], "18 BadSeed"),
    (FULL_ADDER, SEED, ["2"], "14 WrongCount"),
    (FULL_ADDER, SEED, [], "14 WrongCount"),
    (FULL_ADDER, SEED, ["1", "0", "1", "0"], "14 WrongCount"),
    (FULL_ADDER, SEED, ["1", "11", "2"], "16 WrongLength"),
    (FULL_ADDER, SEED, ["1", "2", ""], "15 BadDigit"),
    (FULL_ADDER, SEED, ["x02", "2", "1"], "17 SpareBits"),
    (EMPTY, SEED, [""], "14 WrongCount"),
]


def wires_of(lines):
    """The wires of these lines."""
    return [int(line.split()[0]) for line in lines]


def options(first=None, count=None):
    """The words for the first wire and for the number of lines."""
    words = [] if first is None else ["--from", first]
    return words + ([] if count is None else ["--count", count])


class Reference(unittest.TestCase):
    """What the reference of vectors/ says, held against rows written by hand and its own files."""

    def test_lines(self):
        for text, values, lines in LINES:
            self.assertEqual(tracing.labels(text.encode(), SEED, values), lines, text)

    def test_windows(self):
        for window, wires in WINDOWS:
            lines = tracing.labels(SPARSE.encode(), SEED, ["10"], **window)
            self.assertEqual(wires_of(lines), wires, window)

    def test_labels_of_worked_circuits(self):
        for name, vector in worked_circuits():
            text = "\n".join(vector["circuit"]).encode()
            outputs = bristol.output_wires(bristol.read_circuit(text))
            for evaluation in vector["evaluations"]:
                lines = tracing.labels(text, vector["seed"], evaluation["values"])
                zeros = dict(line.split()[:2] for line in lines)
                self.assertEqual(zeros, vector["zero_labels"], name)
                rest = {int(wire): [active, bit] for wire, _, active, bit in map(str.split, lines)}
                active = evaluation["active_output_labels"]
                bits = "".join(evaluation["outputs"])
                self.assertEqual([rest[it] for it in outputs], list(map(list, zip(active, bits))))


class Labels(ProgramTest):
    """`labels`, held against rows written by hand, and against the reference."""

    def test_lines(self):
        for text, values, lines in LINES:
            with self.subTest(text):
                self.put("c.txt", text)
                self.assert_prints(text_of_lines(lines), "labels", "c.txt", SEED, *values)

    def test_windows(self):
        self.put("c.txt", SPARSE)
        lines = tracing.labels(SPARSE.encode(), SEED, ["10"])
        by_wire = dict(zip(wires_of(lines), lines))
        for window, wires in WINDOWS:
            printed = text_of_lines(by_wire[wire] for wire in wires)
            words = "labels", "c.txt", SEED, *options(**window), "10"
            self.assert_prints(printed, *words)

    def test_options_stand_anywhere(self):
        self.put("c.txt", XOR)
        line = f"1 {ZERO_1} {ZERO_1} 0\n"
        for words in [
            ("--from=1", "--count=1", "c.txt", SEED, "1", "0"),
            ("c.txt", "--count", 1, SEED, "1", "--from", 1, "0"),
            ("--from", 1, "c.txt", SEED, "--count", 1, "--", "1", "0"),
        ]:
            self.assert_prints(line, "labels", *words)

    def test_the_circuits_of_vectors(self):
        for name, vector in worked_circuits():
            text = self.put("c.txt", "\n".join(vector["circuit"]))
            for evaluation in vector["evaluations"]:
                for values in evaluation["values"], evaluation["hex_values"]:
                    with self.subTest(name, values=values):
                        words = vector["seed"], values
                        lines = tracing.labels(self.bytes_of(text), *words)
                        self.assert_prints(text_of_lines(lines), "labels", text, words[0], *values)

    def test_random_circuits(self):
        for name, draw in draws(60, "labels"):
            inputs, gates, unset = draw.below(9), draw.below(61), draw.below(2) * draw.below(9)
            text = respelled(draw, cases.random_circuit(draw, inputs, gates, unset)).encode()
            circuit, seed = bristol.read_circuit(text), sha256(name.encode()).hexdigest()
            _, values = draw_values(draw, circuit)
            self.put("c.txt", text)
            window = {
                "first": draw.choice([None, draw.below(circuit.wires + 2)]),
                "count": draw.choice([None, draw.below(circuit.wires + 2)]),
            }
            given = {name: number for name, number in window.items() if number is not None}
            with self.subTest(name):
                lines = tracing.labels(text, seed, values, **given)
                words = "labels", "c.txt", seed, *options(**window), "--", *values
                self.assert_prints(text_of_lines(lines), *words)

    def test_first_faults(self):
        for text, seed, values, fault in FAULTS:
            self.put("c.txt", text)
            for words in [], ["--count", 0], ["--from", MOST]:
                self.assert_fault(fault, "labels", "c.txt", seed, *words, *values)
            ending = ending_of(lambda: tracing.labels(text.encode(), seed, values))
            self.assert_ends(ending, "labels", "c.txt", seed, *values)
        self.assert_fault("50 CannotRead", "labels", "no file", "0", "2")

    def test_words_that_are_no_numbers(self):
        self.put("c.txt", XOR)
        for option in "--from", "--count":
            for number in "", "x", "-1", "1.5", "0x1", "4294967296", 40 * "9":
                self.assert_usage("labels", "c.txt", SEED, f"{option}={number}", "1", "0")

    def test_there_are_no_workers(self):
        self.put("c.txt", XOR)
        self.assert_usage("labels", "c.txt", SEED, "--workers=2", "1", "0")

    def test_a_hundred_thousand_gates(self):
        self.make("sha256")
        values = 512 * "0", 128 * "10"
        window = {"first": 100_000, "count": 200}
        lines = tracing.labels(self.bytes_of("sha256"), SEED, values, **window)
        words = "labels", "sha256", SEED, *values
        self.assert_prints(text_of_lines(lines), *words, *options(**window))
        status, printed, _ = self.run_program(*words)
        self.assertEqual((status, printed.count("\n")), (0, 512 + 256 + 116_269))
        self.assertIn(text_of_lines(lines), printed)


if __name__ == "__main__":
    unittest.main()
