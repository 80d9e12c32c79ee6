"""Circuits without a digest, and audits of row pairs and decode bits, by the package `halfgates` for Python: what the
reference and other calls say, and each refusal.
"""
import threading
import unittest

from inputs import draw_values, draws
from library import import_package
from program import FULL_ADDER

import bristol
import cases
import reference

halfgates = import_package()
Circuit, Fault = halfgates.Circuit, halfgates.Fault

SEED, PAIR = bytes(range(32)), 32
TEXT = FULL_ADDER.encode()
NO_DIGEST = "68 NoDigest"


def rows_of(garbled):
    """The row pairs of a garbling of the reference, one after another."""
    return b"".join(b"".join(pair) for pair in garbled.rows)


class DigestTest(unittest.TestCase):
    def assert_fault(self, fault, call, *words):
        with self.assertRaises(Fault) as caught:
            call(*words)
        self.assertEqual(f"{caught.exception.code} {caught.exception.name}", fault)


class Digests(DigestTest):
    def setUp(self):
        self.circuit = Circuit.read(TEXT)
        self.garbling = self.circuit.garble(SEED)
        self.garbled = self.garbling.write()
        self.files = [self.circuit.deal(SEED, index, [1]) for index in range(3)]

    def assert_has_none(self, circuit):
        self.assert_fault(NO_DIGEST, lambda: circuit.digest)
        self.assert_fault(NO_DIGEST, circuit.bind, self.garbled, self.files)
        self.assert_fault(NO_DIGEST, circuit.bind, b"", [])

    def assert_has_no_files(self, garbling):
        for version in (1, 2):
            self.assert_fault(NO_DIGEST, garbling.write, version)
            self.assert_fault(NO_DIGEST, garbling.write_into, bytearray(177), version)
            self.assert_fault(NO_DIGEST, garbling.write_into, bytearray(), version)
            for garblings in ([garbling], [self.garbling, garbling], [garbling, self.garbling]):
                self.assert_fault(NO_DIGEST, halfgates.write_many, garblings, version)
        self.assert_fault("60 BadArgument", garbling.write, 3)
        for file in (self.garbled, self.garbled[1:], b""):
            self.assert_fault(NO_DIGEST, garbling.audit, file)

    def makers(self):
        yield Circuit.read(TEXT, digest=False)
        yield Circuit.from_text(FULL_ADDER, digest=False)
        gates = [(0, 0, 2, 3), (0, 1, 2, 4), (1, 3, 4, 5), (0, 3, 1, 6), (0, 5, 2, 7)]
        yield Circuit.from_gates(gates, 8, [1, 1, 1], [2], digest=False)

    def test_refused_until_it_is_taken(self):
        for circuit in self.makers():
            garbling, shared = circuit.garble(SEED), circuit.share()
            many = circuit.garble_many([SEED] * 3)
            own = circuit.garble_from(self.garbling.offset, b"".join(map(self.garbling.zero_label, range(3))))
            for it in (circuit, shared):
                self.assert_has_none(it)
            for it in (garbling, own, *many):
                self.assert_has_no_files(it)
            for _ in range(2):
                circuit.take_digest()
                self.assertEqual(circuit.digest, self.circuit.digest)
            self.assert_has_none(shared)
            for it in (garbling, own, *many):
                self.assert_has_no_files(it)
            with circuit.garble(SEED) as later, circuit.bind(later.write(), self.files) as job:
                self.assertEqual(later.write(), self.garbled)
                self.assertTrue(later.audit(self.garbled))
                self.assertEqual(job.evaluate(), b"\1\1")
            self.assertEqual(circuit.share().digest, self.circuit.digest)

    def test_a_first_number_other_than_0_comes_first(self):
        circuit = Circuit.read(TEXT, digest=False)
        with circuit.garble_from(b"\1" * 16, bytes(48), 1) as later, circuit.garble(SEED) as garbling:
            self.assert_fault("60 BadArgument", later.write)
            self.assert_fault("60 BadArgument", later.audit, self.garbled)
            self.assert_fault("60 BadArgument", halfgates.write_many, [later, garbling])

    def test_orders(self):
        with Circuit.read(TEXT, digest=False) as circuit, circuit.order() as ordered:
            self.assert_fault(NO_DIGEST, lambda: ordered.digest)
            ordered.take_digest()
            self.assertEqual(ordered.digest, self.circuit.order().digest)
            self.assert_fault(NO_DIGEST, lambda: circuit.digest)

    def test_closed_circuits(self):
        circuit = Circuit.read(TEXT, digest=False)
        circuit.close()
        self.assertRaisesRegex(ValueError, "is closed$", circuit.take_digest)
        self.assert_fault(NO_DIGEST, lambda: circuit.digest)
        self.assertEqual(circuit.gates, 5)

    def test_random_circuits(self):
        """The digests are those of the reference, and all that needs none is the same without."""
        for number, draw in draws(20, "digests in Python"):
            text = cases.random_circuit(draw, draw.below(9), draw.below(60), draw.below(2)).encode()
            known = bristol.read_circuit(text)
            values, _ = draw_values(draw, known)
            with self.subTest(number), Circuit.read(text, digest=False) as circuit, circuit.garble(SEED) as garbling:
                self.assertEqual(garbling.rows(), rows_of(reference.garble(known, SEED)))
                self.assertEqual(circuit.text(), bristol.canonical_text(known))
                self.assertEqual(circuit.plain(sum(values, [])), bytes(bristol.plain_eval(known, values)))
                circuit.take_digest()
                self.assertEqual(circuit.digest, bristol.digest(known))

    def test_faults_of_reading_are_the_same(self):
        for text in (b"", b"1 x", TEXT + b"1", TEXT.replace(b"3 4 5 AND", b"3 6 5 AND")):
            said = []
            for digest in (True, False):
                with self.assertRaises(Fault) as caught:
                    Circuit.read(text, digest=digest)
                said.append(str(caught.exception))
            self.assertEqual(said[0], said[1])
        with self.assertRaises(halfgates.GateFault) as caught:
            Circuit.from_gates([(1, 0, 5, 2)], 3, [2], [1], digest=False)
        self.assertEqual((caught.exception.code, caught.exception.gate, caught.exception.wire), (7, 0, 5))

    def test_threads(self):
        """While others garble, one takes the digest: nobody waits, and no garbling is half done."""
        circuit, found = Circuit.read(TEXT, digest=False), []

        def garble():
            for _ in range(200):
                with circuit.garble(SEED) as garbling:
                    found.append(bytes(garbling.rows()))

        threads = [threading.Thread(target=it) for it in (garble, garble, circuit.take_digest, circuit.take_digest)]
        for thread in threads:
            thread.start()
        for thread in threads:
            thread.join()
        self.assertEqual(set(found), {bytes(self.garbling.rows())})
        self.assertEqual(circuit.garble(SEED).write(), self.garbled)


class Rows(DigestTest):
    def test_random_circuits(self):
        """The reference's rows and decode bits are honest for any first number, and those with a bit flipped aren't."""
        for number, draw in draws(20, "audited rows in Python"):
            text = cases.random_circuit(draw, 1 + draw.below(9), draw.below(60), draw.below(2)).encode()
            known, first = bristol.read_circuit(text), draw.below(3) * 2**30
            zeros = [bytes(draw.below(256) for _ in range(16)) for _ in bristol.input_wires(known)]
            offset = bytes([draw.below(256) | 1, *(draw.below(256) for _ in range(15))])
            garbled = reference.garble_from(known, offset, zeros, first)
            rows = bytearray(rows_of(garbled))
            bits = bytearray(reference.decode_bits(known, garbled))
            digest = bool(draw.below(2))
            with self.subTest(number), Circuit.read(text, digest=digest) as circuit:
                with circuit.garble_from(offset, b"".join(zeros), first) as garbling:
                    self.check_honest(garbling, rows, bits)
                    self.check_flipped(draw, known, garbling, rows, bits)
                    self.check_label_files(draw, known, garbled, garbling)

    def check_honest(self, garbling, rows, bits):
        report = garbling.audit_rows(rows, bits)
        self.assertEqual(report, (True, None, None, None, False, False, None))
        self.assertTrue(report)
        self.assertEqual(garbling.audit_rows(bytes(rows), list(bits)), report)

    def check_flipped(self, draw, known, garbling, rows, bits):
        ands = [(gate, it) for gate, it in enumerate(known.gates) if bristol.is_and(it)]
        for _ in range(min(len(rows), 40)):
            place, bit = draw.below(len(rows)), draw.below(8)
            gate, it = ands[place // PAIR]
            rows[place] ^= 1 << bit
            halves = place % PAIR < 16, place % PAIR >= 16
            found = garbling.audit_rows(rows, bits)
            self.assertEqual(found, (False, place // PAIR, gate, it.target, *halves, None))
            self.assertFalse(found)
            rows[place] ^= 1 << bit
        for output in range(len(bits)):
            bits[output] ^= 1
            self.assertEqual(garbling.audit_rows(rows, bits), (False, None, None, None, False, False, output))
            bits[output] ^= 1

    def check_label_files(self, draw, known, garbled, garbling):
        for index, bits in enumerate(draw_values(draw, known)[0]):
            report = garbling.audit_labels(reference.label_file(known, garbled, index, bits))
            self.assertEqual((report.verdict, report.index, report.bits), ("Ok", index, bytes(bits)))

    def test_several_differences(self):
        """Of row pairs and of decode bits the first is named."""
        with Circuit.from_text(FULL_ADDER) as circuit, circuit.garble(SEED) as garbling:
            other = circuit.garble(bytes(32))
            rows, bits = garbling.rows(), garbling.decode_bits()
            flipped = bytes(it ^ 1 for it in bits)
            self.assertEqual(garbling.audit_rows(other.rows(), flipped), (False, 0, 2, 5, True, True, 0))
            self.assertEqual(garbling.audit_rows(rows[:16] + other.rows()[16:], bits)[4:], (False, True, None))

    def test_refusals(self):
        with Circuit.from_text(FULL_ADDER) as circuit, circuit.garble(SEED) as garbling:
            rows, bits = garbling.rows(), garbling.decode_bits()
            for size in (0, 31, 33, 64):
                self.assert_fault("66 WrongSize", garbling.audit_rows, bytes(size), [2])
            for wrong in ([], [0], [0, 1, 2]):
                self.assert_fault("16 WrongLength", garbling.audit_rows, rows, wrong)
            for wrong in ([0, 2], b"01", [255, 1]):
                self.assert_fault("15 BadDigit", garbling.audit_rows, bytes(PAIR), wrong)
            with self.assertRaises(Fault) as caught:
                garbling.audit_rows(rows[1:], bits)
            self.assertEqual(caught.exception.detail, "rows has 31 bytes, and 32 are expected")
            self.assertRaises(TypeError, garbling.audit_rows, "rows", bits)
        self.assertRaisesRegex(ValueError, "is closed$", garbling.audit_rows, rows, bits)


if __name__ == "__main__":
    unittest.main()
