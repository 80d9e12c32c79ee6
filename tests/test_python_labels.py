"""Garblings from offsets and labels of one's own, joined circuits and labels out, by the package `halfgates` for
Python: what vectors/joined.json and the reference say, and each refusal.
"""
import threading
import unittest
from hashlib import sha256

from inputs import by_about, draw_values, draws, load
from library import import_package
from program import FULL_ADDER

import bristol
import cases
import reference

halfgates = import_package()
Circuit, Fault = halfgates.Circuit, halfgates.Fault

SEED, LABEL = bytes(range(32)), 16
LIMIT = 2**62


def joined(texts):
    """The bytes of labels in hexadecimal digits."""
    return bytes.fromhex("".join(texts))


def bits_of(text):
    return bytes(map(int, text))


def pieces(data, size=LABEL):
    return [bytes(data[at : at + size]) for at in range(0, len(data), size)]


class LabelsTest(unittest.TestCase):
    def assert_fault(self, fault, call, *words):
        with self.assertRaises(Fault) as caught:
            call(*words)
        self.assertEqual(f"{caught.exception.code} {caught.exception.name}", fault)


class Vectors(LabelsTest):
    def each_link(self, hold):
        """Holds each circuit of a chain against what the file says of it."""
        for about, chain in by_about(load("joined")):
            for number, link in enumerate(chain["links"]):
                with self.subTest(about, number=number), Circuit.from_text("\n".join(link["circuit"])) as circuit:
                    hold(circuit, bytes.fromhex(chain["offset"]), int(link["first"]), link)

    def test_garblings(self):
        self.each_link(self.hold_garbling)

    def test_evaluations(self):
        self.each_link(self.hold_evaluation)

    def test_files_under_the_first_number_0(self):
        self.each_link(self.hold_files)

    def hold_garbling(self, circuit, offset, first, link):
        with circuit.garble_from(offset, joined(link["input_zero_labels"]), first) as garbling:
            self.assertEqual(garbling.offset, offset)
            self.assertEqual(garbling.rows(), joined(link["rows"]))
            self.assertEqual(garbling.decode_bits(), bits_of(link["decode_bits"]))
            zeros, ones = link["output_zero_labels"], link["output_one_labels"]
            self.assertEqual(self.labels_of(garbling.output_labels, circuit.output_widths),
                             (joined(zeros), joined(ones)))
            zeros = joined(link["input_zero_labels"])
            ones = b"".join(reference.xor(it, offset) for it in pieces(zeros))
            self.assertEqual(self.labels_of(garbling.input_labels, circuit.input_widths), (zeros, ones))
            self.assertEqual([garbling.zero_label(it) for it in range(len(zeros) // LABEL)], pieces(zeros))

    def labels_of(self, call, widths):
        """The labels of all values, and that each value has those of its wires."""
        pairs = [call(index) for index in range(len(widths))]
        for width, pair in zip(widths, pairs):
            self.assertEqual([*map(len, pair)], [LABEL * width] * 2)
        return tuple(b"".join(it[one] for it in pairs) for one in (0, 1))

    def hold_evaluation(self, circuit, _, first, link):
        rows, labels = joined(link["rows"]), joined(link["active_input_labels"])
        outputs = circuit.evaluate_labels(rows, labels, first)
        self.assertEqual(outputs, joined(link["active_output_labels"]))
        bits = halfgates.decode(outputs, bits_of(link["decode_bits"]))
        self.assertEqual(bits, bits_of(link["outputs"]))
        self.assertEqual(circuit.plain(bits_of(link["bits"])), bits)

    def test_chains(self):
        """The library alone, from one circuit's outputs to the next one's inputs."""
        for about, chain in by_about(load("joined")):
            offset, zeros, active = bytes.fromhex(chain["offset"]), [], []
            for number, link in enumerate(chain["links"]):
                take = lambda own, before: b"".join(
                    bytes.fromhex(mine) if output is None else before[output]
                    for output, mine in zip(link["joint"], own))
                text, first = "\n".join(link["circuit"]), int(link["first"])
                with self.subTest(about, number=number), Circuit.from_text(text) as circuit:
                    with circuit.garble_from(offset, take(link["input_zero_labels"], zeros), first) as garbling:
                        labels = take(link["active_input_labels"], active)
                        active = pieces(circuit.evaluate_labels(garbling.rows(), labels, first))
                        bits = halfgates.decode(b"".join(active), garbling.decode_bits())
                        self.assertEqual(bits, bits_of(link["outputs"]))
                        values = [garbling.output_labels(it) for it in range(len(circuit.output_widths))]
                        zeros = pieces(b"".join(zero for zero, _ in values))

    def hold_files(self, circuit, offset, _, link):
        zeros = joined(link["input_zero_labels"])
        parsed = bristol.read_circuit("\n".join(link["circuit"]).encode())
        expected = reference.garble_from(parsed, offset, pieces(zeros), 0)
        values = reference.split(map(int, link["bits"]), parsed.input_widths)
        with circuit.garble_from(offset, zeros) as garbling:
            for version in (1, 2):
                file = garbling.write(version)
                self.assertEqual(file, reference.garbled_file(parsed, expected, version))
                self.assertTrue(garbling.audit(file))
            files = [garbling.deal(*it) for it in enumerate(values)]
            self.assertEqual(files, reference.deal(parsed, expected, values))
            with circuit.bind(file, files) as job:
                self.assertEqual(job.evaluate(), bits_of(link["outputs"]))
                labels = reference.evaluate_labels(
                    parsed, expected.rows, reference.bind(
                        parsed, reference.read_garbled(bytes(file)), map(reference.read_label_file, files)), 0)
                self.assertEqual(job.output_labels(), b"".join(labels))

    def test_random_circuits(self):
        for name, draw in draws(60, "labels"):
            text = cases.random_circuit(draw, draw.below(12), draw.below(40), draw.below(3))
            circuit = bristol.read_circuit(text.encode())
            chain = cases.Chain(name, 0, (text, []))
            first = draw.choice((0, 1, 2**32, LIMIT - bristol.and_count(circuit)))
            zeros = chain.labels(bristol.input_wires(circuit))
            expected = reference.garble_from(circuit, chain.offset, zeros, first)
            values = draw_values(draw, circuit)[0]
            active = [reference.encode(expected, wire, bit) for wire, bit in enumerate(sum(values, []))]
            outputs = reference.evaluate_labels(circuit, expected.rows, active, first)
            with self.subTest(name), Circuit.from_text(text) as it:
                with it.garble_from(chain.offset, b"".join(zeros), first) as garbling:
                    self.assertEqual(garbling.rows(), b"".join(map(b"".join, expected.rows)))
                    self.assertEqual(list(garbling.decode_bits()), reference.decode_bits(circuit, expected))
                    labels = it.evaluate_labels(garbling.rows(), b"".join(active), first)
                    self.assertEqual(labels, b"".join(outputs))
                    bits = halfgates.decode(labels, garbling.decode_bits())
                    self.assertEqual(list(bits), bristol.plain_eval(circuit, values))


class UnderASeed(LabelsTest):
    """Garblings under a seed have the same calls."""

    def setUp(self):
        self.circuit = Circuit.from_text(FULL_ADDER)
        self.garbling = self.circuit.garble(SEED)
        for handle in (self.circuit, self.garbling):
            self.addCleanup(handle.close)

    def test_garbling_again_from_its_labels(self):
        zeros = b"".join(self.garbling.input_labels(it)[0] for it in range(3))
        with self.circuit.garble_from(self.garbling.offset, zeros) as garbling:
            for version in (1, 2):
                self.assertEqual(garbling.write(version), self.garbling.write(version))

    def test_labels_that_were_received(self):
        files = []
        for index, bit in enumerate((1, 0, 1)):
            label = self.garbling.input_labels(index)[bit]
            files.append(self.circuit.label_file(index, label))
            self.assertEqual(files[-1], self.circuit.deal(SEED, index, [bit]))
            self.assertEqual(files[-1], self.garbling.deal(index, [bit]))
        with self.circuit.bind(self.garbling.write(), files) as job:
            labels = job.output_labels()
            self.assertEqual(halfgates.decode(labels, self.garbling.decode_bits()), job.evaluate())
            self.assertEqual(pieces(labels), [self.garbling.output_labels(0)[bit][LABEL * wire : LABEL * wire + LABEL]
                                              for wire, bit in enumerate(job.evaluate())])


class Refusals(LabelsTest):
    def setUp(self):
        self.circuit = Circuit.from_text(FULL_ADDER)
        self.addCleanup(self.circuit.close)
        self.offset, self.zeros = b"\1" * LABEL, bytes(range(48))

    def test_garbling(self):
        garble = self.circuit.garble_from
        for first in (LIMIT, LIMIT + 1, 2**63, 2**64 - 1):
            self.assert_fault("60 BadArgument", garble, self.offset, self.zeros, first)
        garble(self.offset, self.zeros, LIMIT - 1).close()
        self.assert_fault("60 BadArgument", garble, b"\2" + b"\1" * 15, self.zeros)
        for size in (0, 32, 47, 49, 64):
            self.assert_fault("66 WrongSize", garble, self.offset, bytes(size))
        for size in (0, 15, 17):
            self.assertRaisesRegex(ValueError, "^an offset has 16 bytes", garble, b"\1" * size, self.zeros)
        for first in (-1, 2**64):
            self.assertRaises(OverflowError, garble, self.offset, self.zeros, first)

    def test_a_first_number_other_than_0_has_no_files(self):
        with self.circuit.garble_from(self.offset, self.zeros) as garbling:
            file = garbling.write()
        with self.circuit.garble_from(self.offset, self.zeros, 1) as garbling:
            for version in (1, 2):
                self.assert_fault("60 BadArgument", garbling.write, version)
            self.assert_fault("60 BadArgument", garbling.audit, file)

    def test_evaluating(self):
        with self.circuit.garble_from(self.offset, self.zeros) as garbling:
            rows = garbling.rows()
        evaluate = self.circuit.evaluate_labels
        for first in (LIMIT, 2**64 - 1):
            self.assert_fault("60 BadArgument", evaluate, rows, self.zeros, first)
        for size in (0, 31, 33, 64):
            self.assert_fault("66 WrongSize", evaluate, bytes(size), self.zeros)
        for size in (0, 32, 47, 49):
            self.assert_fault("66 WrongSize", evaluate, rows, bytes(size))
        self.assertEqual(len(evaluate(rows, self.zeros, LIMIT - 1)), 32)

    def test_values(self):
        with self.circuit.garble(SEED) as garbling:
            for call, none in ((garbling.input_labels, 3), (garbling.output_labels, 1)):
                for index in (none, none + 1, 2**32 - 1):
                    self.assert_fault("42 NoSuchValue", call, index)
            self.assert_fault("42 NoSuchValue", garbling.deal, 3, [1])
            self.assert_fault("16 WrongLength", garbling.deal, 0, [1, 0])
            self.assert_fault("15 BadDigit", garbling.deal, 0, [2])
        self.assert_fault("42 NoSuchValue", self.circuit.label_file, 3, bytes(LABEL))
        for size in (0, 15, 17, 32):
            self.assert_fault("66 WrongSize", self.circuit.label_file, 0, bytes(size))

    def test_decoding(self):
        decode = halfgates.decode
        self.assertEqual(decode(b"", []), b"")
        self.assertEqual(decode(b"\1" * 16 + b"\2" * 16, [0, 1]), b"\1\1")
        self.assert_fault("15 BadDigit", decode, bytes(16), [2])
        for size in (0, 15, 17, 32):
            self.assert_fault("66 WrongSize", decode, bytes(size), [1])

    def test_codes_of_memory(self):
        memory = {code for code in range(-1, 100) if halfgates.is_memory(code)}
        self.assertEqual(memory, {13, 23, 36, 46, 62})

    def test_closed_handles(self):
        garbling = self.circuit.garble(SEED)
        garbling.close()
        for call in (lambda: garbling.offset, garbling.rows, garbling.decode_bits, lambda: garbling.input_labels(0)):
            self.assertRaisesRegex(ValueError, "is closed$", call)


class Sharing(LabelsTest):
    def test_handles_of_one_circuit(self):
        with Circuit.from_text(FULL_ADDER) as circuit:
            expected = circuit.garble(SEED).write()
            shared = circuit.share()
            self.assertEqual((shared.digest, shared.gates, shared.input_widths), (circuit.digest, 5, (1, 1, 1)))
            circuit.close()
            self.assertRaises(ValueError, circuit.share)
            with shared, shared.share() as third:
                self.assertEqual(shared.garble(SEED).write(), expected)
            self.assertRaises(ValueError, shared.garble, SEED)
            self.assertRaises(ValueError, third.garble, SEED)

    def test_an_ordered_circuit(self):
        """The AND gate comes after the gates of AND depth 0."""
        lines = FULL_ADDER.splitlines(keepends=True)
        lines[6], lines[7] = lines[7], lines[6]
        with Circuit.from_text(FULL_ADDER) as circuit, circuit.order() as ordered:
            self.assertEqual(circuit.text(), FULL_ADDER.encode())
            self.assertEqual(ordered.text(), "".join(lines).encode())
            self.assertEqual(ordered.digest, sha256(ordered.text()).digest())
            self.assertEqual((ordered.gates, ordered.and_gates, ordered.input_widths), (5, 1, (1, 1, 1)))
            self.assertEqual(ordered.order().text(), ordered.text())
            for n in range(8):
                bits = halfgates.to_bits(n, 3)
                self.assertEqual(ordered.plain(bits), circuit.plain(bits))
        self.assertRaises(ValueError, circuit.order)
        self.assertRaises(ValueError, circuit.text)

    def test_several_threads(self):
        found = []
        with Circuit.from_text(FULL_ADDER) as circuit:

            def work(mine):
                with mine:
                    found.extend(bytes(mine.garble(SEED).write()) for _ in range(50))

            threads = [threading.Thread(target=work, args=[circuit.share()]) for _ in range(4)]
            for thread in threads:
                thread.start()
            for thread in threads:
                thread.join()
            self.assertEqual(found, [circuit.garble(SEED).write()] * 200)


if __name__ == "__main__":
    unittest.main()
