"""Garbling and evaluating in pieces, circuits from gates, ranges of row pairs, opened labels and lists of jobs that may
fail, by the package `halfgates` for Python: what the reference and the calls that do all at once say, and each refusal.
"""
import array
import copy
import pickle
import signal
import socket
import struct
import threading
import unittest

from inputs import by_about, draw_values, draws, load, many_ands
from library import import_package
from program import FULL_ADDER, label_file
from test_python_handles import patched

import bristol
import cases
import reference

halfgates = import_package()
Circuit, Fault, Gate, Operation = halfgates.Circuit, halfgates.Fault, halfgates.Gate, halfgates.Operation
Garbler, Evaluator = halfgates.Garbler, halfgates.Evaluator

SEED, LABEL, PAIR = bytes(range(32)), 16, 32
LIMIT = 2**62
FULL_ADDER_GATES = [
    Gate(Operation.XOR, 0, 2, 3), Gate(Operation.XOR, 1, 2, 4), Gate(Operation.AND, 3, 4, 5),
    Gate(Operation.XOR, 3, 1, 6), Gate(Operation.XOR, 5, 2, 7),
]


def joined(texts):
    return bytes.fromhex("".join(texts))


def full_adder():
    return Circuit.read(FULL_ADDER.encode())


def gates_of(text):
    """The gates of a circuit's text, in numbers."""
    lines = text.decode().splitlines()[4:]
    for line in lines:
        _, _, *wires, name = line.split()
        *read, wire = map(int, wires)
        yield Operation[name], *(read + [0])[:2], wire


class StreamingTest(unittest.TestCase):
    def assert_fault(self, fault, call, *words):
        with self.assertRaises(Fault) as caught:
            call(*words)
        self.assertEqual(f"{caught.exception.code} {caught.exception.name}", fault)


class Pieces(StreamingTest):
    """However a circuit is cut, its pieces are together the rows, and lead to the labels."""

    def hold(self, circuit, begin, garbling, first, labels):
        rows, outputs = garbling.rows(), circuit.evaluate_labels(garbling.rows(), labels, first)
        for count in (1, 2, 3, 1000, max(circuit.and_gates, 1)):
            with begin() as garbler, circuit.evaluator(first, labels) as evaluator:
                self.hold_inputs(garbler, garbling, circuit)
                found = bytearray()
                for piece in garbler.pieces(count):
                    self.assertEqual(len(piece), PAIR * min(count, circuit.and_gates - len(found) // PAIR))
                    self.assertEqual(evaluator.feed(piece), len(piece))
                    found += piece
                self.assertEqual((found, list(garbler.pieces())), (rows, []))
                self.hold_inputs(garbler, garbling, circuit)
                for index in range(len(circuit.output_widths)):
                    self.assertEqual(garbler.output_labels(index), garbling.output_labels(index))
                self.assertEqual(garbler.decode_bits(), garbling.decode_bits())
                self.assertEqual(evaluator.output_labels(), outputs)

    def hold_inputs(self, garbler, garbling, circuit):
        self.assertEqual(garbler.offset, garbling.offset)
        for index in range(len(circuit.input_widths)):
            self.assertEqual(garbler.input_labels(index), garbling.input_labels(index))

    def test_worked_chains(self):
        for about, chain in by_about(load("joined")):
            for number, link in enumerate(chain["links"]):
                circuit = Circuit.from_text("\n".join(link["circuit"]))
                words = bytes.fromhex(chain["offset"]), joined(link["input_zero_labels"]), int(link["first"])
                with self.subTest(about, number=number), circuit, circuit.garble_from(*words) as garbling:
                    self.assertEqual(garbling.rows(), joined(link["rows"]))
                    self.hold(circuit, lambda: circuit.garbler_from(*words), garbling, words[-1], words[1])

    def test_random_circuits(self):
        for number, draw in draws(20, "pieces in Python"):
            text = cases.random_circuit(draw, draw.below(9), draw.below(200), draw.below(2)).encode()
            with self.subTest(number), Circuit.read(text) as circuit, circuit.garble(SEED) as garbling:
                values = draw_values(draw, bristol.read_circuit(text))[0]
                pairs = [garbling.input_labels(it) for it in range(len(values))]
                labels = b"".join(
                    pair[bit][LABEL * wire : LABEL * (wire + 1)]
                    for pair, value in zip(pairs, values) for wire, bit in enumerate(value)
                )
                self.hold(circuit, lambda: circuit.garbler(SEED), garbling, 0, labels)
                expected = reference.garble(bristol.read_circuit(text), SEED).rows
                self.assertEqual(garbling.rows(), b"".join(map(b"".join, expected)))

    def test_a_last_number(self):
        with full_adder() as circuit:
            words = bytes([1]) * LABEL, bytes(3 * LABEL), LIMIT - 1
            with circuit.garble_from(*words) as garbling:
                self.hold(circuit, lambda: circuit.garbler_from(*words), garbling, LIMIT - 1, bytes(range(48)))

    def test_a_circuit_without_and_gates(self):
        with Circuit.from_text("1 3\n1 2\n1 1\n\n2 1 0 1 2 XOR\n") as circuit, circuit.garble(SEED) as garbling:
            with circuit.garbler(SEED) as garbler, circuit.evaluator(0, bytes(32)) as evaluator:
                self.assertEqual(garbler.decode_bits(), garbling.decode_bits())
                self.assertEqual(garbler.output_labels(0), garbling.output_labels(0))
                self.assertEqual(evaluator.output_labels(), bytes(LABEL))
            self.hold(circuit, lambda: circuit.garbler(SEED), garbling, 0, bytes(32))

    def test_a_buffer_of_ones_own(self):
        with Circuit.read(many_ands(10).encode()) as circuit, circuit.garble(SEED) as garbling:
            with circuit.garbler(SEED) as garbler, circuit.evaluator(0, bytes(20 * LABEL)) as evaluator:
                room, rows = bytearray(3 * PAIR + 5), garbling.rows()
                for at in range(0, 10 * PAIR, 3 * PAIR):
                    room[:] = b"\xa5" * len(room)
                    written = garbler.rows_into(room)
                    self.assertEqual(room, rows[at : at + written] + b"\xa5" * (len(room) - written))
                    self.assertEqual(evaluator.feed(memoryview(room)[: written + 5]), written)
                self.assertEqual(garbler.rows_into(room), 0)
                self.assertEqual(garbler.rows_into(bytearray()), 0)

    def test_pieces_that_end_within_a_row_pair(self):
        """As they come from a connection: what isn't taken is fed again with what follows."""
        with Circuit.read(many_ands(100).encode()) as circuit, circuit.garbler(SEED) as garbler:
            labels = b"".join(garbler.input_labels(index)[0] for index in range(2))
            rows, received, at = b"".join(garbler.pieces(7)), bytearray(), 0
            with circuit.evaluator(0, labels) as evaluator:
                for size in range(1, 200):
                    received += rows[at : at + size]
                    at += size
                    del received[: evaluator.feed(received)]
                    self.assertLess(len(received), PAIR)
                self.assertEqual(evaluator.output_labels(), circuit.evaluate_labels(rows, labels))

    def test_over_a_connection(self):
        with Circuit.read(many_ands(20_000).encode()) as circuit, circuit.garbler(SEED) as garbler:
            labels = b"".join(garbler.input_labels(index)[1] for index in range(2))
            here, there = socket.socketpair()

            def send():
                with here:
                    for rows in garbler.pieces(1000):
                        here.sendall(rows)

            sender = threading.Thread(target=send)
            sender.start()
            received = bytearray()
            with there, circuit.evaluator(0, labels) as evaluator:
                for data in iter(lambda: there.recv(65_000), b""):
                    received += data
                    del received[: evaluator.feed(received)]
                sender.join()
                bits = halfgates.decode(evaluator.output_labels(), garbler.decode_bits())
            self.assertEqual(bits, bytes([1]) * 20_000)


class RefusedPieces(StreamingTest):
    def setUp(self):
        self.circuit = full_adder()
        self.garbler = self.circuit.garbler(SEED)
        self.evaluator = self.circuit.evaluator(0, bytes(48))
        for handle in (self.circuit, self.garbler, self.evaluator):
            self.addCleanup(handle.close)

    def test_beginning(self):
        offset, zeros = bytes([1] * LABEL), bytes(48)
        for seed in (b"", bytes(31), bytes(33)):
            self.assertRaises(ValueError, self.circuit.garbler, seed)
        for begin in (self.circuit.garbler_from, self.circuit.garble_from):
            self.assertRaises(ValueError, begin, bytes(15), zeros)
            self.assert_fault("66 WrongSize", begin, bytes(LABEL), bytes(47), LIMIT)
            self.assert_fault("60 BadArgument", begin, bytes(LABEL), zeros)
            self.assert_fault("60 BadArgument", begin, offset, zeros, LIMIT)
        self.assert_fault("66 WrongSize", self.circuit.evaluator, LIMIT, bytes(47))
        self.assert_fault("60 BadArgument", self.circuit.evaluator, LIMIT, zeros)
        for number in (-1, 2**64):
            self.assertRaises(OverflowError, self.circuit.garbler_from, offset, zeros, number)
            self.assertRaises(OverflowError, self.circuit.evaluator, number, zeros)

    def test_before_the_end(self):
        for call in (lambda: self.garbler.output_labels(9), self.garbler.decode_bits, self.evaluator.output_labels):
            self.assert_fault("67 Unfinished", call)
        self.assert_fault("42 NoSuchValue", self.garbler.input_labels, 3)
        self.assert_fault("61 SmallBuffer", self.garbler.rows_into, bytearray(31))
        self.assert_fault("66 WrongSize", self.evaluator.feed, bytes(64))
        self.assertEqual(self.evaluator.feed(bytes(31)), 0)
        with self.circuit.garble(SEED) as garbling:
            self.assertEqual(list(self.garbler.pieces()), [garbling.rows()])
        self.assert_fault("42 NoSuchValue", self.garbler.output_labels, 1)
        self.assertEqual(self.evaluator.feed(bytes(63)), 32)
        self.assert_fault("66 WrongSize", self.evaluator.feed, bytes(32))
        self.assertEqual(len(self.evaluator.output_labels()), 32)

    def test_pieces_of_nothing(self):
        for count in (0, -1):
            self.assertRaises(ValueError, self.garbler.pieces, count)
        self.assertRaises(TypeError, self.garbler.pieces, 1.5)
        self.assertRaises(BufferError, self.garbler.rows_into, bytes(32))
        self.assertRaises(TypeError, self.evaluator.feed, "rows")

    def test_closed_handles(self):
        pieces = self.garbler.pieces()
        calls = [(self.garbler, self.garbler.decode_bits), (self.garbler, lambda: next(pieces))]
        calls += [(self.evaluator, lambda: self.evaluator.feed(b""))]
        for handle, call in calls:
            handle.close()
            handle.close()
            self.assertRaisesRegex(ValueError, "^this (Garbler|Evaluator) is closed$", call)

    def test_handles(self):
        size = "5 gates, 1 AND gates, 3 input wires, 2 output wires"
        for handle in (self.garbler, self.evaluator):
            name = type(handle).__name__
            self.assertEqual(repr(handle), f"<{name}: {size}>")
            for make in (copy.copy, copy.deepcopy, pickle.dumps):
                self.assertRaisesRegex(TypeError, "can't be copied or pickled$", make, handle)
            self.assertRaisesRegex(TypeError, "^a Circuit comes from Circuit.read, ", type(handle))

    def test_they_outlive_their_circuit(self):
        self.circuit.close()
        [rows] = self.garbler.pieces()
        self.assertEqual(self.evaluator.feed(rows), 32)
        self.assertEqual(len(self.evaluator.output_labels()), 32)


class OneAtATime(StreamingTest):
    """A garbler and an evaluator are used by one call at a time, whatever threads do."""

    def test_threads_take_turns(self):
        at_work, most = [], []

        def watch(real, *words):
            at_work.append(1)
            most.append(len(at_work))
            try:
                return real(*words)
            finally:
                at_work.pop()

        found = []
        with Circuit.read(many_ands(2000).encode()) as circuit, circuit.garbler(SEED) as garbler:
            with patched("garbler_next", watch), patched("garbler_offset", watch):
                threads = [threading.Thread(target=lambda: found.extend(garbler.pieces(3))) for _ in range(4)]
                threads += [threading.Thread(target=lambda: [garbler.offset for _ in range(200)]) for _ in range(2)]
                for thread in threads:
                    thread.start()
                for thread in threads:
                    thread.join()
            with circuit.garble(SEED) as garbling:
                rows = garbling.rows()
        self.assertEqual(max(most), 1)
        self.assertEqual(sorted(found), sorted(rows[at : at + 3 * PAIR] for at in range(0, len(rows), 3 * PAIR)))

    def test_a_signal_handler_that_uses_the_handle(self):
        offsets = []
        with Circuit.read(many_ands(20_000).encode()) as circuit, circuit.garbler(SEED) as garbler:
            handler = signal.signal(signal.SIGALRM, lambda *_: offsets.append(garbler.offset))
            self.addCleanup(signal.signal, signal.SIGALRM, handler)
            signal.setitimer(signal.ITIMER_REAL, 1e-4, 1e-4)
            try:
                rows = b"".join(garbler.pieces(10))
            finally:
                signal.setitimer(signal.ITIMER_REAL, 0)
            with circuit.garble(SEED) as garbling:
                self.assertEqual(rows, garbling.rows())
                self.assertLessEqual(set(offsets), {garbling.offset})


class Gates(StreamingTest):
    WIDTHS = [1, 1, 1], [2]

    def test_the_full_adder(self):
        flat = array.array("I", [number for gate in FULL_ADDER_GATES for number in gate])
        table = memoryview(flat.tobytes()).cast("I", [5, 4])
        odd = memoryview(b"\xa5" + flat.tobytes())[1:].cast("I")
        for gates in (FULL_ADDER_GATES, iter(FULL_ADDER_GATES), map(tuple, FULL_ADDER_GATES), flat, table, odd):
            with full_adder() as circuit, Circuit.from_gates(gates, 8, *self.WIDTHS) as made:
                self.assertEqual((made.digest, made.text()), (circuit.digest, circuit.text()))
                self.assertEqual((made.input_widths, made.output_widths), ((1, 1, 1), (2,)))

    def test_random_circuits(self):
        for number, draw in draws(30, "gates in Python"):
            text = cases.random_circuit(draw, draw.below(9), draw.below(60), draw.below(2)).encode()
            with self.subTest(number), Circuit.read(text) as circuit:
                words = gates_of(circuit.text()), circuit.wires, circuit.input_widths, circuit.output_widths
                with Circuit.from_gates(*words) as made:
                    self.assertEqual(made.digest, circuit.digest)

    def test_faults(self):
        gates = list(FULL_ADDER_GATES)
        gates[2] = Gate(Operation.AND, 3, 7, 5)
        for bad, wires, inputs, outputs, code, gate, wire in (
            (gates, 8, [1, 1, 1], [2], 8, 2, 7),
            ([(5, 0, 1, 2)], 3, [2], [1], 5, 0, None),
            ([(Operation.EQ, 2, 0, 0)], 1, [], [1], 6, 0, None),
            ([], 1, [], [1], 10, None, 0),
            ([], 1, [2], [], 12, None, None),
            ([], 2**25 + 1, [], [], 3, None, None),
        ):
            with self.assertRaises(halfgates.GateFault) as caught:
                Circuit.from_gates(bad, wires, inputs, outputs)
            fault = caught.exception
            self.assertEqual((fault.code, fault.gate, fault.wire), (code, gate, wire))
            self.assertIsInstance(fault, Fault)
            again = pickle.loads(pickle.dumps(fault))
            self.assertEqual((again.code, again.gate, str(again)), (code, gate, str(fault)))
        with self.assertRaises(halfgates.GateFault) as caught:
            Circuit.from_gates(gates, 8, [1, 1, 1], [2])
        self.assertTrue(str(caught.exception).endswith("(gate 2, wire 7)"), caught.exception)

    def test_what_is_no_gate(self):
        words = 8, *self.WIDTHS
        for gates in ([(1, 0, 1)], [(1, 0, 1, 2, 3)]):
            self.assertRaises(ValueError, Circuit.from_gates, gates, *words)
        for gates in ([(1, 0, 1, -1)], [(1, 0, 1, 2**32)]):
            self.assertRaises(OverflowError, Circuit.from_gates, gates, *words)
        for gates in (5, [5], [("AND", 0, 1, 2)], bytes(16), array.array("I", range(5)), array.array("Q", range(4)),
                      array.array("f", range(4)), array.array("i", range(4))):
            self.assertRaises(TypeError, Circuit.from_gates, gates, *words)
        self.assertRaises(OverflowError, Circuit.from_gates, [], -1, [], [])
        self.assertRaises(OverflowError, Circuit.from_gates, [], 1, [-1], [])
        with Circuit.from_gates([], 0, [], []) as circuit:
            self.assertEqual(circuit.wires, 0)


class Gaps(StreamingTest):
    """Ranges of row pairs, opened labels, and lists of jobs of which some fail."""

    def test_ranges(self):
        with Circuit.read(many_ands(10).encode()) as circuit, circuit.garble(SEED) as garbling:
            rows = garbling.rows()
            for start in range(11):
                self.assertEqual(garbling.rows_range(start), rows[PAIR * start :])
                for count in range(11 - start):
                    expected = rows[PAIR * start : PAIR * (start + count)]
                    self.assertEqual(garbling.rows_range(start, count), expected)
                    room = bytearray(b"\xa5" * (PAIR * count + 3))
                    self.assertEqual(garbling.rows_into(room, start, count), PAIR * count)
                    self.assertEqual(room, expected + b"\xa5" * 3)
            for start, count in ((11, None), (11, 0), (5, 6), (0, 11), (0, -1), (2**32 - 1, 2**32 - 1)):
                self.assert_fault("60 BadArgument", garbling.rows_range, start, count)
                self.assert_fault("60 BadArgument", garbling.rows_into, bytearray(999), start, count)
            self.assert_fault("61 SmallBuffer", garbling.rows_into, bytearray(PAIR * 10 - 1))
            for start in (-1, 2**32):
                self.assertRaises(OverflowError, garbling.rows_range, start)

    def test_opening(self):
        with full_adder() as circuit, circuit.garble(SEED) as garbling:
            zero, one = garbling.output_labels(0)
            for bits in range(4):
                labels = (one if bits & 1 else zero)[:LABEL] + (one if bits & 2 else zero)[LABEL:]
                self.assertEqual(garbling.open(0, labels), struct.pack("2B", bits & 1, bits >> 1))
            for labels in (bytes(32), zero[:LABEL] + zero[:LABEL], one[LABEL:] + zero[:LABEL]):
                self.assert_fault("63 WrongLabel", garbling.open, 0, labels)
            for labels in (b"", zero[:31], zero + one):
                self.assert_fault("66 WrongSize", garbling.open, 0, labels)
            self.assert_fault("42 NoSuchValue", garbling.open, 1, zero)
            self.assertRaises(OverflowError, garbling.open, -1, zero)

    def test_lists_of_jobs(self):
        with full_adder() as circuit, circuit.garble(SEED) as garbling:
            files = [garbling.deal(index, [1]) for index in range(3)]
            garbled, forged = garbling.write(), [label_file(0, bytes(LABEL)), *files[1:]]
            with circuit.bind(garbled, files) as honest, circuit.bind(garbled, forged) as wrong:
                self.assertEqual(halfgates.evaluate_each([]), [])
                self.assertEqual(halfgates.evaluate_each(iter([honest] * 9)), [b"\1\1"] * 9)
                for place in range(9):
                    jobs = [honest] * 9
                    jobs[place] = wrong
                    found = halfgates.evaluate_each(jobs)
                    fault = found.pop(place)
                    self.assertIsInstance(fault, Fault)
                    self.assertEqual((fault.code, found), (48, [b"\1\1"] * 8))
                for other in (garbling, circuit, None, b""):
                    self.assertRaises(TypeError, halfgates.evaluate_each, [honest, other])
                wrong.close()
                self.assertRaisesRegex(ValueError, "is closed$", halfgates.evaluate_each, [honest, wrong])


if __name__ == "__main__":
    unittest.main()
