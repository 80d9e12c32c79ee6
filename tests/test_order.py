"""`order`: a circuit with its gates in order of AND depth, which computes the same."""
import json
import os
import stat
import unittest

from inputs import draw_values, draws, many_ands, respelled, worked_circuits
from program import (
    EMPTY, EXAMPLES, FULL_ADDER, NO_GATES, SEED, XOR, ProgramTest, fails, text_of_lines,
)
from test_out import small_files
from test_stats import FAULTS
from test_workers import layered

import bristol
import cases

# Circuits and the texts of the same in order of AND depth.
ORDERED = [
    (EMPTY, "0 0\n0\n0\n\n"),
    (NO_GATES, "0 2\n1 2\n1 2\n\n"),
    # The last XOR gate but one reads no AND gate's wire.
    (
        FULL_ADDER,
        "5 8\n3 1 1 1\n1 2\n\n2 1 0 2 3 XOR\n2 1 1 2 4 XOR\n2 1 3 1 6 XOR\n2 1 3 4 5 AND\n"
        "2 1 5 2 7 XOR\n",
    ),
    # Of one depth AND gates come first, and each kind is in file order, whatever the wires.
    (
        "6 8\n1 2\n1 6\n2 1 0 1 7 AND\n1 1 7 6 INV\n1 1 6 5 EQW\n2 1 1 0 4 AND\n2 1 4 7 3 XOR\n"
        "2 1 1 1 2 AND",
        "6 8\n1 2\n1 6\n\n2 1 0 1 7 AND\n2 1 1 0 4 AND\n2 1 1 1 2 AND\n1 1 7 6 INV\n1 1 6 5 EQW\n"
        "2 1 4 7 3 XOR\n",
    ),
    ("2 4\n1 2\n1 2\n1 1 0 3 INV\n1 1 1 2 INV", "2 4\n1 2\n1 2\n\n1 1 0 3 INV\n1 1 1 2 INV\n"),
    # EQ has depth 0 even behind AND gates, and so has what reads it alone.
    (
        "4 6\n1 2\n1 1\n2 1 0 1 2 AND\n1 1 1 3 EQ\n1 1 3 4 INV\n2 1 2 4 5 AND",
        "4 6\n1 2\n1 1\n\n1 1 1 3 EQ\n1 1 3 4 INV\n2 1 0 1 2 AND\n2 1 2 4 5 AND\n",
    ),
    # The deeper of two wires that a gate reads, on the left and on the right.
    (
        "6 8\n1 2\n1 6\n2 1 0 1 2 AND\n2 1 2 0 3 AND\n2 1 3 0 4 XOR\n2 1 0 3 5 XOR\n2 1 2 0 6 XOR\n"
        "2 1 0 2 7 AND",
        "6 8\n1 2\n1 6\n\n2 1 0 1 2 AND\n2 1 2 0 6 XOR\n2 1 2 0 3 AND\n2 1 0 2 7 AND\n"
        "2 1 3 0 4 XOR\n2 1 0 3 5 XOR\n",
    ),
    # Wires that nothing sets, and a gate that nothing reads.
    (
        "3 9\n2 1 1\n1 1\n2 1 0 1 3 AND\n1 1 1 5 EQW\n1 1 3 8 INV",
        "3 9\n2 1 1\n1 1\n\n1 1 1 5 EQW\n2 1 0 1 3 AND\n1 1 3 8 INV\n",
    ),
]

# Circuits of examples/make_circuits.py.
MADE = [
    ("full_adder",), ("add64",), ("less8",), ("sort8x8",), ("mul32",), ("aes128",), ("sha256",),
    ("less8", "--times", "3"), ("chains", "5", "40"),
]

ANSWERS = json.loads((EXAMPLES / "answers.json").read_text())

# Its gates are in order already, so its ordered text is the canonical one.
XOR_TEXT = "1 3\n2 1 1\n1 1\n\n2 1 0 1 2 XOR\n"


def ordered_text(text):
    """The canonical text of the circuit with its gates in order, by the reference of vectors/."""
    return bristol.canonical_text(bristol.order_by_depth(bristol.read_circuit(text)))


class Reference(unittest.TestCase):
    """The reference of vectors/, held against texts written by hand."""

    def test_by_hand(self):
        for text, ordered in ORDERED:
            self.assertEqual(ordered_text(text.encode()).decode(), ordered)


class OrderTest(ProgramTest):
    def assert_orders(self, text):
        """The program writes the circuit in order, and in order it stays. Its statistics are the same."""
        data = text if isinstance(text, bytes) else text.encode()
        ordered = ordered_text(data)
        self.put("c.txt", data)
        self.assert_writes(ordered, "ordered", "order", "c.txt", "ordered")
        self.assert_writes(ordered, "again", "order", "ordered", "again")
        self.assertEqual(self.run_program("stats", "ordered"), self.run_program("stats", "c.txt"))


class Ordered(OrderTest):
    """The circuit that is written."""

    def test_by_hand(self):
        for text, ordered in ORDERED:
            with self.subTest(text):
                self.put("c.txt", text)
                self.assert_writes(ordered.encode(), "ordered", "order", "c.txt", "ordered")
                self.assert_orders(text)

    def test_the_circuits_of_vectors(self):
        for name, vector in worked_circuits():
            with self.subTest(name):
                self.assert_orders("\n".join(vector["circuit"]))

    def test_random_circuits(self):
        """In any spelling. In the clear the ordered circuit has the same outputs."""
        for name, draw in draws(100, "order"):
            inputs, gates, unset = draw.below(9), draw.below(61), draw.below(2) * draw.below(9)
            text = respelled(draw, cases.random_circuit(draw, inputs, gates, unset))
            with self.subTest(name):
                self.assert_orders(text)
                self.assert_computes_same(draw, bristol.read_circuit(text.encode()))

    def assert_computes_same(self, draw, circuit):
        for _ in range(3):
            values, texts = draw_values(draw, circuit)
            outputs = bristol.show_values(bristol.plain_eval(circuit, values), circuit.output_widths)
            for name in "c.txt", "ordered":
                self.assert_prints(text_of_lines(outputs), "plain", name, *texts)

    def test_circuits_of_many_depths(self):
        for name, draw in draws(5, "order of layers"):
            for groups in [200 * [1]], 3 * [20 * [10]], [[1, 500, 1, 500]]:
                with self.subTest(name, groups=groups):
                    text = layered(draw, groups)
                    self.assert_orders(text)
                    self.assert_computes_same(draw, bristol.read_circuit(text.encode()))

    def test_one_depth(self):
        text = many_ands(3000)
        self.assertEqual(ordered_text(text.encode()), text.encode())
        self.assert_orders(text)

    def test_circuits_of_the_script(self):
        """The script can write them in order itself."""
        for words in MADE:
            with self.subTest(words):
                self.make(*words)
                self.assert_orders(self.bytes_of(words[0]))
                self.make(*words, "--by-depth")
                self.assertEqual(self.bytes_of(words[0]), self.bytes_of("ordered"))


class Garbled(OrderTest):
    """Two parties who have the ordered circuit."""

    def assert_evaluates(self, outputs, values, *options):
        """Garbled, dealt and evaluated, the ordered circuit has these outputs. The files are honest."""
        words = "ordered", SEED
        self.assertEqual(self.run_program("garble", *words, "g", *options)[0], 0)
        labels = [f"l{index}" for index in range(len(values))]
        for index, (value, name) in enumerate(zip(values, labels)):
            self.assertEqual(self.run_program("deal", *words, index, value, name)[0], 0)
        self.assert_prints(outputs, "eval", "ordered", "g", *labels, *options)
        self.assertEqual(self.run_program("audit", *words, "g", *labels)[0], 0)
        self.assert_prints(outputs, "run", *words, *values, *options)

    def test_random_circuits(self):
        for name, draw in draws(20, "garbled order"):
            text = cases.random_circuit(draw, 1 + draw.below(8), draw.below(61), draw.below(2))
            with self.subTest(name):
                self.assert_orders(text)
                circuit = bristol.read_circuit(text.encode())
                values, texts = draw_values(draw, circuit)
                outputs = bristol.show_values(bristol.plain_eval(circuit, values), circuit.output_widths)
                self.assert_evaluates(text_of_lines(outputs), texts, "--workers", draw.choice((1, 2, 64)))

    def test_published_answers(self):
        for name in "aes128", "sha256", "mul32", "add64":
            self.make(name)
            self.assertEqual(self.run_program("order", name, "ordered")[0], 0)
            for answer in ANSWERS[name][:2]:
                with self.subTest(circuit=name, answer=answer["name"]):
                    outputs = self.run_program("plain", name, *answer["inputs"])[1]
                    for workers in 1, 4:
                        self.assert_evaluates(outputs, answer["inputs"], "--workers", workers)

    def test_files_of_the_other_order(self):
        """The ordered circuit has another digest: neither circuit takes a garbled file of the other."""
        self.put("c.txt", FULL_ADDER)
        self.run_program("order", "c.txt", "ordered")
        for name in "c.txt", "ordered":
            self.run_program("garble", name, SEED, f"{name}.garbled")
        for name, other in ("c.txt", "ordered"), ("ordered", "c.txt"):
            self.assert_fault("40 OtherCircuit", "eval", name, f"{other}.garbled")


class Files(OrderTest):
    """The circuit's file and OUT."""

    def setUp(self):
        super().setUp()
        self.put("c.txt", XOR)

    def names(self):
        return sorted(path.name for path in self.folder.iterdir())

    def test_a_circuit_that_cannot_be_read(self):
        """Whether OUT can be written or not."""
        self.put("kept", "old")
        for name in "no file", ".", "no folder/c.txt":
            for out in "kept", "new", "no folder/out", ".", name:
                self.assert_fault("50 CannotRead", "order", name, out)
        self.assertEqual((self.bytes_of("kept"), self.names()), (b"old", ["c.txt", "kept"]))

    def test_a_bad_circuit(self):
        self.put("kept", "old")
        for text, fault in FAULTS:
            self.put("c.txt", text)
            for out in "kept", "new", "no folder/out", "c.txt", "/dev/stdout":
                self.assert_fault(fault, "order", "c.txt", out)
            self.assertEqual(self.bytes_of("c.txt"), text.encode())
        self.assertEqual((self.bytes_of("kept"), self.names()), (b"old", ["c.txt", "kept"]))

    def test_out_that_cannot_be_written(self):
        (self.folder / "link").symlink_to("c.txt")
        for out in "no folder/out", ".", "/dev/full", "/dev/stdout", "c.txt", "./c.txt", "link":
            self.assert_fault("51 CannotWrite", "order", "c.txt", out)
        self.assertEqual((self.bytes_of("c.txt"), self.names()), (XOR.encode(), ["c.txt", "link"]))

    def test_a_disk_that_fills_up(self):
        self.put("c.txt", many_ands(20))
        self.put("kept", "old")
        for out in "kept", "new":
            ending = self.run_program("order", "c.txt", out, preexec_fn=small_files)
            self.assertEqual(ending, fails("51 CannotWrite"))
        self.assertEqual((self.bytes_of("kept"), self.names()), (b"old", ["c.txt", "kept"]))

    def test_out_is_replaced(self):
        """The old file keeps its bytes under its other name, and the new one has its permissions."""
        self.put("out", "old")
        (self.folder / "out").chmod(0o640)
        os.link(self.folder / "out", self.folder / "other")
        self.assert_writes(XOR_TEXT.encode(), "out", "order", "c.txt", "out")
        self.assertEqual(self.bytes_of("other"), b"old")
        self.assertEqual(stat.S_IMODE((self.folder / "out").stat().st_mode), 0o640)
        self.assertEqual(self.names(), ["c.txt", "other", "out"])

    def test_a_hard_link_to_the_circuit(self):
        """It is replaced, and the circuit's file stays as it is."""
        self.put("c.txt", FULL_ADDER)
        os.link(self.folder / "c.txt", self.folder / "out")
        self.assert_writes(ORDERED[2][1].encode(), "out", "order", "c.txt", "out")
        self.assertEqual(self.bytes_of("c.txt"), FULL_ADDER.encode())

    def test_a_device(self):
        self.assert_prints(f"wrote {len(XOR_TEXT)}\n", "order", "c.txt", "/dev/null")


if __name__ == "__main__":
    unittest.main()
