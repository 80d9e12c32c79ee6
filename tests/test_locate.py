"""`locate`: where the first fault of a circuit is."""
import re
import unittest

from inputs import by_about, damaged_text, draws, load, respelled, worked_circuits
from program import (
    EMPTY, FAR_COPY, FULL_ADDER, NO_GATES, ONE, WIDE, ProgramTest, prints, text_of_lines,
)

import bristol
import cases
import tracing

# The header of a circuit of one gate, which stands in line 4. Its output is wire 4.
HEAD = "1 5\n2 1 1\n1 1\n"

# A circuit whose second gate stands in line 5.
SECOND = "2 5\n2 1 1\n1 1\n2 1 0 1 2 AND\n"


def located(fault, line, column, gate=None, wire=None):
    """The lines for a fault in this place, and for its gate and its wire if it has any."""
    lines = [f"fault {fault}", f"line {line}", f"column {column}"]
    lines += [] if gate is None else [f"gate {gate}"]
    lines += [] if wire is None else [f"wire {wire}"]
    return text_of_lines(lines)


# Texts that are no circuits, and the places of their first faults.
PLACES = [
    # The end of the text, in a header.
    ("", located("1 Truncated", 1, 1)),
    (" \t\r\n", located("1 Truncated", 2, 1)),
    ("1", located("1 Truncated", 1, 2)),
    ("0001 \t", located("1 Truncated", 1, 7)),
    ("1\r", located("1 Truncated", 1, 3)),
    ("1\n\n", located("1 Truncated", 3, 1)),
    ("1 5\n2 1", located("1 Truncated", 2, 4)),
    ("1 5\r\n2 1 1\r\n", located("1 Truncated", 3, 1)),
    ("0 0\n0", located("1 Truncated", 2, 2)),
    # The end of the text, in a gate, and where the next gate is due.
    ("1 5\n2 1 1\n1 1", located("1 Truncated", 3, 4, gate=0)),
    (HEAD, located("1 Truncated", 4, 1, gate=0)),
    (HEAD + "2", located("1 Truncated", 4, 2, gate=0)),
    (HEAD + "2 1 0 9 4", located("1 Truncated", 4, 10, gate=0)),
    (HEAD + "2 1 0 1 4 ", located("1 Truncated", 4, 11, gate=0)),
    (SECOND[:-1], located("1 Truncated", 4, 14, gate=1)),
    (SECOND, located("1 Truncated", 5, 1, gate=1)),
    (SECOND + "\n \r\n", located("1 Truncated", 7, 1, gate=1)),
    (SECOND + "1 1 2\n4\n\t", located("1 Truncated", 7, 2, gate=1)),
    # The token that is no number.
    ("x", located("2 BadNumber", 1, 1)),
    ("  x", located("2 BadNumber", 1, 3)),
    ("\t\r\tx", located("2 BadNumber", 1, 4)),
    ("1 +5", located("2 BadNumber", 1, 3)),
    ("1\r5x", located("2 BadNumber", 1, 3)),
    ("1\v5 0", located("2 BadNumber", 1, 1)),
    ("1\n\n\u0661 5", located("2 BadNumber", 3, 1)),
    ("0001 5.0", located("2 BadNumber", 1, 6)),
    ("4294967296 5", located("2 BadNumber", 1, 1)),
    ("1 5\n1 4294967296", located("2 BadNumber", 2, 3)),
    ("1 5\n2 1 AND", located("2 BadNumber", 2, 5)),
    ("1 5\n1 6x", located("2 BadNumber", 2, 3)),
    (HEAD + "two", located("2 BadNumber", 4, 1, gate=0)),
    (HEAD + "3 x", located("2 BadNumber", 4, 3, gate=0)),
    (HEAD + "2 1 0 -1 4 NAND\n", located("2 BadNumber", 4, 7, gate=0)),
    (SECOND + "AND", located("2 BadNumber", 5, 1, gate=1)),
    (SECOND + "1 1 2 4294967296 INV", located("2 BadNumber", 5, 7, gate=1)),
    # The number that is too large. It belongs to no gate.
    ("16777217", located("3 TooLarge", 1, 1)),
    (" 00016777217 x", located("3 TooLarge", 1, 2)),
    ("1\t33554433", located("3 TooLarge", 1, 3)),
    ("1 5\n257", located("3 TooLarge", 2, 1)),
    ("1 5\n2 1 1\n\n\t4294967295", located("3 TooLarge", 4, 2)),
    # A gate's first count, where the counts are those of no operation.
    (HEAD + "0 1", located("4 BadShape", 4, 1, gate=0)),
    (HEAD + "3 1 x", located("4 BadShape", 4, 1, gate=0)),
    (HEAD + " 1 0 0 INV", located("4 BadShape", 4, 2, gate=0)),
    (HEAD + "2\n002\n", located("4 BadShape", 4, 1, gate=0)),
    (SECOND + "\r\n4 2 0 1 1 0 3 4 MAND", located("4 BadShape", 6, 1, gate=1)),
    # The operation, where the counts are not its own.
    (HEAD + "1 1 0 4 XOR", located("4 BadShape", 4, 9, gate=0)),
    (HEAD + "2 1 7\n8 9\n EQW\n", located("4 BadShape", 6, 2, gate=0)),
    (SECOND + "2 1 0 1 3 INV", located("4 BadShape", 5, 11, gate=1)),
    # The operation that is none.
    (HEAD + "2 1 0 1 4 and\n", located("5 UnknownOperation", 4, 11, gate=0)),
    (HEAD + "1 1 0 4 \u00c9Q", located("5 UnknownOperation", 4, 9, gate=0)),
    (SECOND + "2 1 7 8 9   OR", located("5 UnknownOperation", 5, 13, gate=1)),
    # The constant.
    (HEAD + "1 1 2 4 EQ", located("6 BadConstant", 4, 5, gate=0)),
    (SECOND + "1 1 0004294967295 0 EQ", located("6 BadConstant", 5, 5, gate=1)),
    # The wire, even where there is no such wire, in decimal without leading zeros.
    (HEAD + "2 1 5 1 4 XOR", located("7 NoSuchWire", 4, 5, gate=0, wire=5)),
    (HEAD + "2 1 0 4294967295 0 AND", located("7 NoSuchWire", 4, 7, gate=0, wire=4294967295)),
    (HEAD + "2 1 0 1 0005 AND", located("7 NoSuchWire", 4, 9, gate=0, wire=5)),
    (SECOND + "1 1 1\t5 EQ", located("7 NoSuchWire", 5, 7, gate=1, wire=5)),
    ("1 1\n0\n1 1\n1 1 1 1 EQ", located("7 NoSuchWire", 4, 7, gate=0, wire=1)),
    ("1 0\n0\n0\n1 1 0 0 EQW", located("7 NoSuchWire", 4, 5, gate=0, wire=0)),
    (HEAD + "2 1 3 1 4 XOR", located("8 Unset", 4, 5, gate=0, wire=3)),
    (HEAD + "2 1 2 5 4 XOR", located("8 Unset", 4, 5, gate=0, wire=2)),
    (HEAD + "2 1 0 3 0 AND", located("8 Unset", 4, 7, gate=0, wire=3)),
    (HEAD + "2\t1\r\n 0\r\n\t003 4 AND", located("8 Unset", 6, 2, gate=0, wire=3)),
    (SECOND + "1 1 4 4 INV", located("8 Unset", 5, 5, gate=1, wire=4)),
    (HEAD + "2 1 0 1 1 AND", located("9 SetTwice", 4, 9, gate=0, wire=1)),
    (HEAD + "1 1 0 0 EQ", located("9 SetTwice", 4, 7, gate=0, wire=0)),
    (SECOND + "1  1  0  02  EQW", located("9 SetTwice", 5, 10, gate=1, wire=2)),
    # The end of the last gate's operation, and the lowest output wire that isn't set.
    (HEAD + "2 1 0 1 2 AND\n", located("10 OutputUnset", 4, 14, wire=4)),
    (HEAD + "2 1 0 1 2\n AND", located("10 OutputUnset", 5, 5, wire=4)),
    (HEAD + "2 1 0 1 2 AND \t\n\n1", located("10 OutputUnset", 4, 14, wire=4)),
    ("1 5\n2 1 1\n2 1 1\n2 1 0 1 4 AND\n", located("10 OutputUnset", 4, 14, wire=3)),
    ("1 6\n2 1 1\n1 3\n2 1 0 1 4 AND\n", located("10 OutputUnset", 4, 14, wire=3)),
    ("1 6\n2 1 1\n1 3\n2 1 0 1 3 AND\n", located("10 OutputUnset", 4, 14, wire=4)),
    # The end of the header, where there is no gate.
    ("0 1\n0\n1 1\n", located("10 OutputUnset", 3, 4, wire=0)),
    ("0 1\n0\n1 1 \n2 1 0 1 4 AND", located("10 OutputUnset", 3, 4, wire=0)),
    ("0 1\n0\n2 1 0\r\n", located("10 OutputUnset", 3, 6, wire=0)),
    ("0 3\n1 1\n1 3", located("10 OutputUnset", 3, 4, wire=1)),
    # The first token that is left.
    (HEAD + "2 1 0 1 4 AND\n1 1 2 4 INV", located("11 TrailingTokens", 5, 1)),
    (HEAD + "2 1 0 1 4 AND  end of it", located("11 TrailingTokens", 4, 16)),
    (HEAD + "2 1 0 1 4 AND\r\n\r\n\t\u0661", located("11 TrailingTokens", 6, 2)),
    ("0 0 0 0 0", located("11 TrailingTokens", 1, 9)),
    ("0 0\n0\n0\n\n \t\rx", located("11 TrailingTokens", 5, 4)),
    # The last width of a side.
    ("1 5\n1 6", located("12 WidthsExceedWires", 2, 3)),
    ("1 5\n2 3 3", located("12 WidthsExceedWires", 2, 5)),
    ("1 5\n2 6 0", located("12 WidthsExceedWires", 2, 5)),
    ("1 5\n1 4294967295 x", located("12 WidthsExceedWires", 2, 3)),
    ("1 5\n2 1 1\n2 5\n\t0001", located("12 WidthsExceedWires", 4, 2)),
    ("0 0\n1\t1", located("12 WidthsExceedWires", 2, 3)),
    ("0 0\n0\n1 1", located("12 WidthsExceedWires", 3, 3)),
]

ACCEPTED = [
    FULL_ADDER,
    FULL_ADDER.strip(),
    FULL_ADDER.replace("\n", " \t\r\n") + " \n\n\t",
    FAR_COPY,
    ONE,
    WIDE,
    NO_GATES,
    EMPTY,
    "1 3\n1 2\n0\n2 1 0 1 2 AND",
    "0 0\n2 0 0\n1 0",
]

NO_FAULT = "no fault\n"


def place_in(bad):
    """The lines for an entry of bad_circuits.json."""
    place = (bad.get(name) for name in ("line", "column", "gate", "wire"))
    return located(f"{bad['fault']} {bad['name']}", *place)


class Reference(unittest.TestCase):
    """What the reference of vectors/ says, held against rows written by hand."""

    def assert_lines(self, text, lines):
        self.assertEqual(text_of_lines(tracing.locate(text.encode())), lines, text)

    def test_places(self):
        for text, lines in PLACES:
            self.assert_lines(text, lines)

    def test_rows_have_each_fault(self):
        faults = {int(lines.split()[1]) for _, lines in PLACES}
        self.assertEqual(faults, set(range(1, 13)))

    def test_circuits_without_a_fault(self):
        for text in ACCEPTED:
            self.assert_lines(text, NO_FAULT)


class Locate(ProgramTest):
    """`locate`, held against rows written by hand, and against the reference."""

    def assert_lines(self, text, lines):
        self.put("c.txt", text)
        self.assert_ends(prints(lines), "locate", "c.txt")

    def test_places(self):
        for text, lines in PLACES:
            with self.subTest(text):
                self.assert_lines(text, lines)

    def test_circuits_without_a_fault(self):
        for text in ACCEPTED:
            self.assert_lines(text, NO_FAULT)

    def test_the_circuits_of_vectors(self):
        for name, bad in by_about(load("bad_circuits")):
            with self.subTest(name):
                self.assert_lines(bad["text"], place_in(bad))
        for name, vector in worked_circuits():
            with self.subTest(name):
                self.assert_lines("\n".join(vector["circuit"]), NO_FAULT)

    def test_damaged_texts(self):
        for name, draw in draws(300, "place"):
            text = cases.random_circuit(draw, draw.below(6), draw.below(10), draw.below(2))
            text = damaged_text(draw, respelled(draw, text).encode())
            with self.subTest(name):
                self.assert_lines(text, text_of_lines(tracing.locate(text)))

    def test_a_fault_in_any_operation(self):
        """In a circuit in any spelling, an operation becomes a word that is none."""
        for name, draw in draws(60, "operation"):
            text = cases.random_circuit(draw, 1 + draw.below(6), 1 + draw.below(30), 0)
            text = respelled(draw, text)
            gates = len(bristol.read_circuit(text.encode()).gates)
            pieces = re.split("(XOR|AND|INV|EQW|EQ)", text)
            gate = draw.below(gates)
            pieces[2 * gate + 1] = "NOR"
            before = "".join(pieces[:2 * gate + 1])
            *lines, last = before.split("\n")
            expected = located("5 UnknownOperation", len(lines) + 1, len(last) + 1, gate)
            with self.subTest(name):
                self.assert_lines("".join(pieces), expected)

    def test_files_that_cannot_be_read(self):
        for name in "no file", ".":
            self.assert_fault("50 CannotRead", "locate", name)

    def test_the_last_of_a_hundred_thousand_gates(self):
        self.make("sha256")
        text = self.bytes_of("sha256").decode()
        self.assert_lines(text, NO_FAULT)
        lines = text.splitlines()
        gates, last = int(lines[0].split()[0]), lines[-1].split()
        column = 1 + len(" ".join(last[:-2])) + 1
        lines[-1] = " ".join([*last[:-2], "0", last[-1]])
        expected = located("9 SetTwice", len(lines), column, gates - 1, 0)
        self.assert_lines("\n".join(lines), expected)


if __name__ == "__main__":
    unittest.main()
