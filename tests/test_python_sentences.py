"""What the package for Python says of a fault: the sentence on a text, and the sizes of a buffer."""
import pickle
import re
import unittest
from unittest import mock

from inputs import damaged_text, draws, worked_circuits
from library import import_package
from program import EXAMPLES, FULL_ADDER, ProgramTest
from test_explain import CIRCUITS

halfgates = import_package()
Circuit, Fault = halfgates.Circuit, halfgates.Fault

OFFSET = b"\1" * 16


class Texts(ProgramTest):
    """The sentence on the first fault of a text is the one that the program prints with --explain."""

    def assert_says(self, text, fault, line):
        """The sentence is what the program prints after the place, LINE:COLUMN:, and the exception says it."""
        row, column, sentence = re.fullmatch(r"(\d+):(\d+): (.*)", line).groups()
        self.assertEqual(halfgates.explain(text), sentence)
        with self.assertRaises(Fault) as caught:
            Circuit.read(text)
        self.assertEqual(str(caught.exception), f"fault {fault}: line {row}, column {column}: {sentence}")

    def test_each_fault(self):
        for text, fault, line in CIRCUITS:
            with self.subTest(line):
                self.assert_says(text if isinstance(text, bytes) else text.encode(), fault, line)

    def test_circuits(self):
        for name in "full_adder", "adder64", "less8":
            self.assertEqual(halfgates.explain((EXAMPLES / f"{name}.txt").read_bytes()), "")

    def test_damaged_texts(self):
        texts, faulty = ["\n".join(vector["circuit"]).encode() for _, vector in worked_circuits()], 0
        for name, draw in draws(100, "sentences"):
            text = damaged_text(draw, draw.choice(texts))
            self.put("c", text)
            printed = self.run_program("check", "c", "--explain")[2]
            found = re.fullmatch(r"halfgates: fault (.*)\nhalfgates: c:(.*)\n", printed)
            with self.subTest(name):
                if found:
                    faulty += 1
                    self.assert_says(text, *found.groups())
                else:
                    self.assertEqual((printed, halfgates.explain(text)), ("", ""))
        self.assertGreater(faulty, 20)

    def test_a_text_that_is_not_read_again(self):
        """If memory runs out meanwhile, or the text changes, the fault says what its code means."""
        other = halfgates._library.Place()
        for answer in {"side_effect": halfgates.MemoryFault(13)}, {"return_value": other}:
            with mock.patch.object(halfgates._texts, "_place_in", **answer):
                with self.assertRaises(Fault) as caught:
                    Circuit.read(b"x")
            self.assertEqual((caught.exception.code, caught.exception.detail), (2, ""))
            self.assertEqual(str(caught.exception), f"fault 2 BadNumber: {halfgates.Code.BAD_NUMBER.meaning}")

    def test_all_bytes_after_a_sentence_are_zeros(self):
        sentence = halfgates._library.Sentence()
        for text, expected in (b"x", b"expected a number from 0 to 4294967295"), (FULL_ADDER.encode(), b""):
            code = halfgates._library.library.halfgates_explain(text, len(text), sentence)
            self.assertEqual((code, bytes(sentence)), (0, expected.ljust(256, b"\0")))


class Sizes(unittest.TestCase):
    """A fault 61 or 66 names the parameter, and says how many bytes it has and how many are expected."""

    def setUp(self):
        self.circuit = Circuit.from_text(FULL_ADDER)
        self.garbling = self.circuit.garble(bytes(32))

    def assert_says(self, code, detail, call, *words):
        with self.assertRaises(Fault) as caught:
            call(*words)
        fault = caught.exception
        self.assertEqual((fault.code, fault.detail), (code, detail))
        self.assertEqual(str(fault), f"fault {code} {fault.name}: {detail}")

    def test_wrong_sizes(self):
        circuit = self.circuit
        for call in circuit.garble_from, circuit.garbler_from:
            self.assert_says(66, "zero_labels has 47 bytes, and 48 are expected", call, OFFSET, bytes(47))
        self.assert_says(66, "labels has 49 bytes, and 48 are expected", circuit.evaluator, 0, bytes(49))
        self.assert_says(66, "labels has 0 bytes, and 16 are expected", circuit.label_file, 2, b"")
        evaluate = circuit.evaluate_labels
        self.assert_says(66, "rows has 33 bytes, and 32 are expected", evaluate, bytes(33), bytes(47))
        self.assert_says(66, "labels has 47 bytes, and 48 are expected", evaluate, bytes(32), bytes(47))
        self.assert_says(66, "labels has 16 bytes, and 32 are expected", self.garbling.open, 0, bytes(16))
        self.assert_says(66, "rows has 31 bytes, and 32 are expected", self.garbling.audit_rows, bytes(31), [0, 1])
        self.assert_says(66, "labels has 32 bytes, and 48 are expected", halfgates.decode, bytes(32), [0, 1, 1])

    def test_too_little_room(self):
        rooms = bytearray(31), bytearray(176)
        self.assert_says(61, "buffer has 31 bytes, and at least 32 are expected", self.garbling.rows_into, rooms[0])
        self.assert_says(61, "buffer has 176 bytes, and at least 177 are expected", self.garbling.write_into, rooms[1])
        with self.circuit.garbler(bytes(32)) as garbler:
            self.assert_says(61, "buffer has 31 bytes, and at least 32 are expected", garbler.rows_into, rooms[0])

    def test_other_faults_have_no_detail(self):
        with self.assertRaises(Fault) as caught:
            self.circuit.label_file(3, b"")
        self.assertEqual((caught.exception.code, caught.exception.detail), (42, ""))
        self.assertEqual(caught.exception.args, (42,))

    def test_copies(self):
        for fault in Fault(8), Fault(66, "rows has 1 bytes, and 32 are expected"):
            again = pickle.loads(pickle.dumps(fault))
            self.assertEqual((again.code, again.detail, str(again)), (fault.code, fault.detail, str(fault)))


if __name__ == "__main__":
    unittest.main()
