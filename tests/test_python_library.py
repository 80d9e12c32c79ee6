"""The package `halfgates` for Python: the same files and answers as the vectors and the program have,
and each of its exceptions."""
import array
import mmap
import re
import subprocess
import sys
import tempfile
import typing
import unittest
from pathlib import Path

from inputs import by_about, damaged_text, draws, load, worked_circuits
from library import environment_of_python, import_package
from program import EXAMPLES, FULL_ADDER, SEED, TOP, ProgramTest, label_file, sealed

import bristol

halfgates = import_package()
Circuit, Fault = halfgates.Circuit, halfgates.Fault
to_bits, from_bits = halfgates.to_bits, halfgates.from_bits

ZEROS = bytes(32)


def bits_of(text):
    """The bits of a text of digits 0 and 1, such as an input value or all outputs."""
    return bytes(map(int, text))


def text_of(vector):
    return "\n".join(vector["circuit"]).encode()


def deal_all(circuit, seed, values):
    return [circuit.deal(seed, *it) for it in enumerate(values)]


class LibraryTest(unittest.TestCase):
    def assert_fault(self, fault, call, *words, detail=""):
        """The call raises a Fault of this code and this name, which says this or what its code means."""
        with self.assertRaises(Fault) as caught:
            call(*words)
        raised = caught.exception
        self.assertEqual(f"{raised.code} {raised.name}", fault)
        self.assertEqual(str(raised), f"fault {fault}: {detail or halfgates.Code(raised.code).meaning}")


class Vectors(LibraryTest):
    def test_circuits(self):
        for name, vector in worked_circuits():
            with self.subTest(name), Circuit.read(text_of(vector)) as circuit:
                self.assertEqual(circuit.digest.hex(), vector["digest"])
                for number in ("gates", "and_gates", "wires"):
                    self.assertEqual(getattr(circuit, number), vector[number])
                for widths in ("input_widths", "output_widths"):
                    self.assertEqual(getattr(circuit, widths), tuple(vector[widths]))
                for version in (1, 2):
                    size = vector["statistics"][f"garbled{version}"]
                    self.assertEqual(circuit.garbled_size(version), size)

    def test_garblings(self):
        for name, vector in worked_circuits():
            seed = bytes.fromhex(vector["seed"])
            with self.subTest(name), Circuit.read(text_of(vector)) as circuit:
                with circuit.garble(seed) as garbling:
                    self.check_garbling(vector, garbling)

    def test_garblings_side_by_side(self):
        for name, vector in worked_circuits():
            with self.subTest(name), Circuit.read(text_of(vector)) as circuit:
                for count in range(6):
                    seeds = [bytes.fromhex(vector["seed"]), *(bytes([it]) * 32 for it in range(count))][:count]
                    garblings = circuit.garble_many(seeds)
                    self.assertEqual(len(garblings), count)
                    for seed, garbling in zip(seeds, garblings):
                        with garbling, circuit.garble(seed) as alone:
                            self.assertEqual(garbling.write(), alone.write())
                            self.assertEqual(garbling.offset, alone.offset)
                    for garbling in garblings[:1]:
                        self.assertRaisesRegex(ValueError, "closed", garbling.write)
                self.assertRaises(ValueError, circuit.garble_many, [bytes(32), bytes(31)])

    def check_garbling(self, vector, garbling):
        for version in (1, 2):
            file = bytes.fromhex("".join(vector[f"garbled_file_{version}"]))
            self.assertEqual(garbling.write(version), file)
            self.assertTrue(garbling.audit(file).honest)
        self.assertEqual(garbling.write(), file)
        for wire, label in vector["zero_labels"].items():
            self.assertEqual(garbling.zero_label(int(wire)).hex(), label)
        decode_bits = [garbling.decode_bit(it) for it in range(len(vector["decode_bits"]))]
        self.assertEqual(bytes(decode_bits), bits_of(vector["decode_bits"]))

    def test_evaluations(self):
        for name, vector in worked_circuits():
            seed = bytes.fromhex(vector["seed"])
            with self.subTest(name), Circuit.read(text_of(vector)) as circuit:
                with circuit.garble(seed) as garbling:
                    for evaluation in vector["evaluations"]:
                        self.check_evaluation(circuit, garbling, seed, evaluation)

    def check_evaluation(self, circuit, garbling, seed, evaluation):
        values = [bits_of(text) for text in evaluation["values"]]
        files = [bytes.fromhex(file) for file in evaluation["label_files"]]
        outputs = bits_of("".join(evaluation["outputs"]))
        self.assertEqual(deal_all(circuit, seed, values), files)
        self.assertEqual(circuit.plain(b"".join(values)), outputs)
        for version in (1, 2):
            with circuit.bind(garbling.write(version), files[::-1]) as job:
                self.assertEqual(job.evaluate(), outputs)
                self.assertEqual(job.evaluate(), outputs)
        for index, (file, bits) in enumerate(zip(files, values)):
            report = garbling.audit_labels(file)
            self.assertEqual((report.verdict, report.index, report.bits), ("Ok", index, bits))
            self.assertTrue(report.honest)
        active = [it.active.hex() for it in garbling.labels(b"".join(values))]
        first = circuit.wires - len(outputs)
        self.assertEqual(active[first:], evaluation["active_output_labels"])

    def test_lists_of_garblings(self):
        """Of one circuit, and of several: the file that each garbling writes alone."""
        mixed = []
        for name, vector in worked_circuits():
            with self.subTest(name), Circuit.read(text_of(vector)) as circuit:
                garblings = circuit.garble_many([bytes.fromhex(vector["seed"]), *(bytes([i] * 32) for i in range(8))])
                for version in (1, 2):
                    alone = [it.write(version) for it in garblings]
                    for count in range(10):
                        self.assertEqual(halfgates.write_many(garblings[:count], version), alone[:count])
                self.assertEqual(halfgates.write_many(garblings), alone)
            mixed += garblings[:3]
        for version in (1, 2):
            self.assertEqual(halfgates.write_many(iter(mixed), version), [it.write(version) for it in mixed])

    def test_lists_of_jobs(self):
        """Of one circuit, and of several: what each job is evaluated to alone."""
        mixed = []
        for name, vector in worked_circuits():
            seed = bytes.fromhex(vector["seed"])
            jobs = []
            with self.subTest(name), Circuit.read(text_of(vector)) as circuit:
                with circuit.garble(seed) as garbling:
                    garbled = garbling.write()
                for evaluation in vector["evaluations"][:3]:
                    values = [bits_of(text) for text in evaluation["values"]]
                    jobs.append(circuit.bind(garbled, deal_all(circuit, seed, values)))
                for count in range(10):
                    listed = [jobs[i % len(jobs)] for i in range(count)]
                    self.assertEqual(halfgates.evaluate_many(listed), [it.evaluate() for it in listed])
            mixed += [jobs[0], *jobs, *jobs]
        self.assertEqual(halfgates.evaluate_many(iter(mixed)), [it.evaluate() for it in mixed])

    def test_faults_of_circuits(self):
        for about, bad in by_about(load("bad_circuits")):
            with self.subTest(about):
                text, fault = bad["text"].encode(), f"{bad['fault']} {bad['name']}"
                said = f"line {bad['line']}, column {bad['column']}: {halfgates.explain(text)}"
                self.assert_fault(fault, Circuit.read, text, detail=said)
                located = halfgates.locate(text)._asdict()
                located["fault"] = located.pop("code")
                place = {key: bad.get(key) for key in ("fault", "name", "line", "column", "gate", "wire")}
                self.assertEqual(located, place)

    def test_faults_of_files(self):
        vectors = load("bad_files")
        with Circuit.read(text_of(vectors)) as circuit:
            for about, bad in by_about(vectors["files"]):
                with self.subTest(about):
                    files = [bytes.fromhex(file) for file in bad["labels"]]
                    garbled, fault = bytes.fromhex(bad["garbled"]), f"{bad['fault']} {bad['name']}"
                    if bad["fault"] != 48:
                        self.assert_fault(fault, circuit.bind, garbled, files)
                        continue
                    with circuit.bind(garbled, files) as job:
                        self.assert_fault(fault, job.evaluate)
                        self.assert_fault(fault, job.evaluate)

    def test_locate_damaged_texts(self):
        texts = [text_of(vector) for _, vector in worked_circuits()]
        for name, draw in draws(200, "library"):
            text = damaged_text(draw, draw.choice(texts))
            with self.subTest(name):
                located = halfgates.locate(text)
                try:
                    bristol.read_circuit(text)
                    self.assertIsNone(located)
                except bristol.Fault as fault:
                    place = {"code": fault.number, "gate": None, "wire": None}
                    place = {**place, "name": fault.name, **bristol.place_of(text, fault)}
                    self.assertEqual(located._asdict(), place)


# The circuits of the examples, and texts of values for them.
ON_PROGRAM = [
    ("full_adder", ["1", "0", "1"]),
    ("adder64", ["10" * 32, "0110" * 16]),
    ("less8", ["11100000", "10010000"]),
    ("aes128", ["01" * 64, "0011" * 32]),
]


class BesideTheProgram(ProgramTest):
    """The files that the program writes, and what it prints."""

    def test_files(self):
        for name, values in ON_PROGRAM:
            with self.subTest(name):
                text = self.text_of(name)
                self.put("c", text)
                with Circuit.read(text) as circuit:
                    self.check_files(circuit, values)

    def text_of(self, name):
        if name == "aes128":
            self.make("aes128")
            return self.bytes_of("aes128")
        return (EXAMPLES / f"{name}.txt").read_bytes()

    def make(self, name):
        script = [sys.executable, EXAMPLES / "make_circuits.py", name, self.folder / name]
        subprocess.run(script, check=True)

    def check_files(self, circuit, values):
        seed = bytes(range(32))
        with circuit.garble(seed) as garbling:
            for version in (2, 1):
                words = "garble", "c", seed.hex(), "g", "--format", version
                self.assert_writes(garbling.write(version), "g", *words)
        bits, files = [bits_of(text) for text in values], []
        for index, value in enumerate(bits):
            file, name = circuit.deal(seed, index, value), f"l{index}"
            self.assert_writes(file, name, "deal", "c", seed.hex(), index, values[index], name)
            files.append(file)
        with circuit.bind(self.bytes_of("g"), files) as job:
            outputs = job.evaluate()
        self.assertEqual(circuit.plain(b"".join(bits)), outputs)
        printed = self.lines("eval", "c", "g", *[f"l{i}" for i in range(len(values))])
        self.assertEqual(outputs, bits_of("".join(printed)))

    def lines(self, *words):
        status, printed, _ = self.run_program(*words)
        self.assertEqual(status, 0)
        return printed.split("\n")[:-1]

    def test_labels(self):
        for name, values in ON_PROGRAM[:3]:
            text, bits = self.text_of(name), bits_of("".join(values))
            self.put("c", text)
            with self.subTest(name), Circuit.read(text) as circuit, circuit.garble(ZEROS) as garbling:
                printed = self.lines("labels", "c", SEED, *values)
                found = garbling.labels(bits)
                lines = [f"{i} {it.zero.hex()} {it.active.hex()} {it.bit}" for i, it in enumerate(found)]
                self.assertEqual(lines, printed)
                self.assertEqual(garbling.labels(bits, 3), found[3:])
                self.assertEqual(garbling.labels(bits, 2, 3), found[2:5])
                self.assertEqual(garbling.labels(bits, circuit.wires), [])

    def test_audits(self):
        """Of files with a bit flipped in each part: the digest, a row, a decode bit, an entry."""
        text = FULL_ADDER.encode()
        self.put("c", text)
        with Circuit.read(text) as circuit, circuit.garble(ZEROS) as garbling:
            for version in (1, 2):
                file = garbling.write(version)
                for place in range(8, len(file) - 32):
                    body = bytearray(file[:-32])
                    body[place] ^= 1
                    spoiled = sealed(bytes(body))
                    self.put("g", spoiled)
                    status, printed, fault = self.run_program("audit", "c", SEED, "g")
                    if status == 1:
                        with self.assertRaises(Fault) as caught:
                            garbling.audit(spoiled)
                        said = f"fault {caught.exception.code} {caught.exception.name}"
                        self.assertEqual(f"halfgates: {said}\n", fault)
                    else:
                        self.assertEqual(self.lines_of(garbling.audit(spoiled)), printed)

    def lines_of(self, it):
        """What the program prints of an audit of this report."""
        verdict = lambda wrong, more="": f"wrong {more}" if wrong else "right"
        halves = ["TG"] * it.generator + ["TE"] * it.evaluator
        row = f"{it.row} gate {it.gate} wire {it.wire} {' '.join(halves)}"
        lines = [f"digest {verdict(not it.digest).strip()}", f"counts {verdict(not it.counts).strip()}"]
        if it.counts:
            lines.append(f"rows {verdict(it.row is not None, row)}")
            lines.append(f"bits {verdict(it.decode_bit is not None, it.decode_bit)}")
            if it.version == 2:
                entry = f"{it.entry} {it.entry_colour}"
                lines.append(f"entries {verdict(it.entry is not None, entry)}")
        return "\n".join([*lines, "honest" if it.honest else "dishonest", ""])


class Refusals(LibraryTest):
    def setUp(self):
        self.circuit = Circuit.read(FULL_ADDER.encode())
        self.garbling = self.circuit.garble(ZEROS)
        self.files = deal_all(self.circuit, ZEROS, [[1], [0], [1]])
        for handle in (self.circuit, self.garbling):
            self.addCleanup(handle.close)

    def test_bits(self):
        for bits, fault in (
            ([], "16 WrongLength"), ([1, 0], "16 WrongLength"), ([1, 0, 1, 1], "16 WrongLength"),
            ([2, 0, 1], "15 BadDigit"), (b"101", "15 BadDigit"), (b"\0\1\xff", "15 BadDigit"),
        ):
            self.assert_fault(fault, self.circuit.plain, bits)
            self.assert_fault(fault, self.garbling.labels, bits)
        for bits, fault in (([], "16 WrongLength"), ([1, 1], "16 WrongLength"), ([2], "15 BadDigit")):
            self.assert_fault(fault, self.circuit.deal, ZEROS, 2, bits)

    def test_bits_that_are_no_bytes(self):
        for bits in (array.array("Q", [1]), array.array("i", [1, 0, 1]), range(3), "101"):
            self.assertRaises(TypeError, self.circuit.plain, bits)
            self.assertRaises(TypeError, self.circuit.deal, ZEROS, 0, bits)
        self.assertEqual(self.circuit.plain(array.array("B", [1, 0, 1])), b"\0\1")

    def test_bits_that_use_the_circuit(self):
        class Bit:
            def __index__(bit):
                return self.circuit.plain([1, 0, 0])[0]

        self.assertEqual(self.circuit.plain([Bit(), 0, 1]), b"\0\1")

    def test_numbers(self):
        garbling = self.garbling
        self.assert_fault("42 NoSuchValue", self.circuit.deal, ZEROS, 3, [1])
        for call in (garbling.zero_label, garbling.write):
            self.assert_fault("60 BadArgument", call, 8)
            self.assert_fault("60 BadArgument", call, 2**32 - 1)
        self.assert_fault("60 BadArgument", garbling.write, 0)
        self.assert_fault("60 BadArgument", garbling.decode_bit, 2)
        self.assert_fault("60 BadArgument", garbling.labels, [1, 0, 1], 9)
        for start, count in ((7, 2), (0, 9), (0, -1), (0, 2**60)):
            self.assert_fault("60 BadArgument", garbling.labels, [1, 0, 1], start, count)
        for version in (0, 3, 2**32 - 1):
            self.assert_fault("60 BadArgument", self.circuit.garbled_size, version)

    def test_numbers_of_more_bits(self):
        calls = [self.garbling.zero_label, self.garbling.decode_bit, self.garbling.write]
        calls += [self.circuit.garbled_size, lambda it: self.circuit.deal(ZEROS, it, [1])]
        calls += [lambda it: self.garbling.labels([1, 0, 1], it, 1)]
        for call in calls:
            for number in (-1, 2**32, 2**64):
                self.assertRaises(OverflowError, call, number)
            self.assertRaises(TypeError, call, "1")

    def test_seeds(self):
        for size in (0, 31, 33):
            self.assertRaises(ValueError, self.circuit.garble, bytes(size))
            self.assertRaises(ValueError, self.circuit.deal, bytes(size), 0, [1])
        self.assertRaises(TypeError, self.circuit.garble, SEED)

    def test_files(self):
        garbled, files = self.garbling.write(), self.files
        bind = self.circuit.bind
        self.assert_fault("30 BadMagic", bind, b"X", files)
        self.assert_fault("31 Truncated", bind, garbled[:-1], files)
        self.assert_fault("31 Truncated", bind, b"", files)
        self.assert_fault("32 Trailing", bind, garbled + b"\0", files)
        self.assert_fault("31 Truncated", bind, garbled, [*files[:2], files[2][:-1]])
        self.assert_fault("31 Truncated", bind, garbled, [*files, b""])
        self.assert_fault("30 BadMagic", bind, garbled, [files[0], garbled])
        self.assert_fault("45 MissingValue", bind, garbled, [])
        self.assert_fault("44 DoubleValue", bind, garbled, [*files, files[0]])
        self.assert_fault("43 WrongWidth", bind, garbled, [label_file(0)])
        self.assert_fault("42 NoSuchValue", bind, garbled, [label_file(3)])
        with Circuit.read(b"0 1\n0\n0") as other:
            self.assert_fault("40 OtherCircuit", other.bind, garbled, files)

    def test_reports_on_label_files(self):
        audit = self.garbling.audit_labels
        wrong = label_file(1, bytes(16))
        for file, expected in (
            (wrong, ("WrongLabel", 1, None, 1)),
            (label_file(0), ("WrongWidth", 0, None, None)),
            (label_file(3, bytes(16)), ("NoSuchValue", 3, None, None)),
        ):
            self.assertEqual(audit(file), expected)
            self.assertFalse(audit(file).honest)
        for size in range(len(wrong)):
            self.assert_fault("31 Truncated", audit, wrong[:size])
        self.assert_fault("32 Trailing", audit, wrong + b"\0")

    def test_closed_handles(self):
        job = self.circuit.bind(self.garbling.write(), self.files)
        calls = [(job, job.evaluate), (self.garbling, self.garbling.write)]
        calls += [(self.circuit, lambda: self.circuit.garble(ZEROS))]
        for handle, call in calls:
            with handle:
                call()
            with self.assertRaisesRegex(ValueError, "is closed$"):
                call()
            handle.close()
        self.assertEqual(self.circuit.gates, 5)

    def test_lists_of_garblings(self):
        write_many = halfgates.write_many
        for version in (0, 3):
            for garblings in ([], [self.garbling]):
                self.assert_fault("60 BadArgument", write_many, garblings, version)
        self.assertRaises(OverflowError, write_many, [], -1)
        with self.circuit.garble_from(bytes([1] * 16), bytes(48), 1) as later:
            for place in range(9):
                garblings = [self.garbling] * 9
                garblings[place] = later
                self.assert_fault("60 BadArgument", write_many, garblings)
        for other in (self.circuit, None, b""):
            self.assertRaises(TypeError, write_many, [self.garbling, other])
        with self.assertRaisesRegex(ValueError, "is closed$"):
            write_many([self.garbling, later])
        self.assertEqual(write_many([self.garbling]), [self.garbling.write()])

    def test_lists_of_jobs(self):
        garbled, evaluate_many = self.garbling.write(), halfgates.evaluate_many
        forged = [label_file(0, bytes(16)), *self.files[1:]]
        with self.circuit.bind(garbled, self.files) as honest, self.circuit.bind(garbled, forged) as wrong:
            for place in range(9):
                jobs = [honest] * 9
                jobs[place] = wrong
                self.assert_fault("48 UnknownOutputLabel", evaluate_many, jobs)
            for other in (self.garbling, self.circuit, None, b""):
                self.assertRaises(TypeError, evaluate_many, [honest, other])
            wrong.close()
            with self.assertRaisesRegex(ValueError, "is closed$"):
                evaluate_many([honest, wrong])
            self.assertEqual(evaluate_many([honest]), [b"\0\1"])

    def test_what_memory_faults_are(self):
        for code in (13, 23, 36, 46, 62):
            self.assertEqual(halfgates._library.name_of(code), "Memory")
            with self.assertRaises(MemoryError) as caught:
                halfgates._library.check(code)
            self.assertEqual((caught.exception.code, caught.exception.name), (code, "Memory"))
            self.assertIsInstance(caught.exception, Fault)


class Buffers(LibraryTest):
    """Bytes are read and written where they lie, whatever object has them."""

    def kinds(self, data):
        """Objects that have these bytes."""
        with tempfile.TemporaryFile() as file:
            file.write(data)
            file.flush()
            mapped = mmap.mmap(file.fileno(), 0, access=mmap.ACCESS_READ)
        self.addCleanup(mapped.close)
        wide = memoryview(b"xx" + data + b"x")[2:-1]
        return [data, bytearray(data), memoryview(data), wide, array.array("B", data), mapped]

    def test_inputs(self):
        with Circuit.read(FULL_ADDER.encode()) as circuit, circuit.garble(ZEROS) as garbling:
            garbled, file = bytes(garbling.write()), bytes(circuit.deal(ZEROS, 0, [1]))
            rest = deal_all(circuit, ZEROS, [[1], [0], [1]])[1:]
            for text in self.kinds(FULL_ADDER.encode()):
                with Circuit.read(text) as it:
                    self.assertEqual(it.digest, circuit.digest)
            for seed in self.kinds(ZEROS):
                with circuit.garble(seed) as it:
                    self.assertEqual(it.write(), garbled)
            for kind, labels in zip(self.kinds(garbled), self.kinds(file)):
                self.assertTrue(garbling.audit(kind).honest)
                with circuit.bind(kind, [labels, *rest]) as job:
                    self.assertEqual(job.evaluate(), b"\0\1")
            for bits in (*self.kinds(b"\1\0\1"), [1, 0, 1], (True, False, True)):
                self.assertEqual(circuit.plain(bits), b"\0\1")

    def test_buffers_that_add(self):
        """Bytes are taken as they are lent, also of an object with an addition of its own, such as NumPy's arrays."""

        class Adding(bytearray):
            def __add__(self, other):
                return Adding(a ^ b for a, b in zip(self, other))

            __radd__ = __iadd__ = __mul__ = __rmul__ = __add__

        seeds = [bytes([it]) * 32 for it in range(3)]
        with Circuit.read(Adding(FULL_ADDER.encode())) as circuit:
            garblings = circuit.garble_many([Adding(it) for it in seeds])
            self.assertEqual(len(garblings), 3)
            for seed, garbling in zip(seeds, garblings):
                with garbling, circuit.garble(Adding(seed)) as alone:
                    self.assertEqual(bytes(garbling.write()), bytes(alone.write()))
                    files = [Adding(garbling.deal(index, Adding([1]))) for index in range(3)]
                    with circuit.bind(Adding(garbling.write()), files) as job:
                        self.assertEqual(job.evaluate(), b"\1\1")

    def test_written_buffers(self):
        with Circuit.read(FULL_ADDER.encode()) as circuit, circuit.garble(ZEROS) as garbling:
            file = garbling.write()
            for room in (bytearray(len(file)), bytearray(len(file) + 3), mmap.mmap(-1, 4096)):
                self.assertEqual(garbling.write_into(room), len(file))
                self.assertEqual(room[: len(file)], file)
                self.assertEqual(set(room[len(file) :]) - {0}, set())
            self.assertEqual(garbling.write_into(memoryview(room)[100:], 1), len(garbling.write(1)))
            self.assertEqual(room[100 : 100 + 113], garbling.write(1))
            short = bytearray(len(file) - 1)
            said = f"buffer has {len(short)} bytes, and at least {len(file)} are expected"
            self.assert_fault("61 SmallBuffer", garbling.write_into, short, detail=said)
            self.assertEqual(short, bytes(len(file) - 1))
            self.assertRaises(BufferError, garbling.write_into, bytes(len(file)))

    def test_what_has_no_bytes_in_a_row(self):
        for call in (Circuit.read, halfgates.locate, halfgates.explain):
            self.assertRaises(TypeError, call, "1")
            self.assertRaises(TypeError, call, 1)
            self.assertRaises(BufferError, call, memoryview(b"1234")[::2])

    def test_nothing_stays_lent(self):
        text = bytearray(FULL_ADDER.encode())
        with Circuit.read(text) as circuit:
            text.clear()  # A BufferError where somebody has the bytes.
            self.assertEqual(circuit.plain([1, 1, 1]), b"\1\1")
            bits = bytearray([1, 1, 2])
            try:
                circuit.plain(bits)
            except Fault:
                bits.clear()  # while the exception still has the frames of the call
            self.assertEqual(bits, b"")


class Conveniences(LibraryTest):
    def test_bits_and_numbers(self):
        self.assertEqual(to_bits(6, 4), b"\0\1\1\0")
        self.assertEqual(to_bits(1, 4), b"\1\0\0\0")
        self.assertEqual(to_bits(1, 4, highest_first=True), b"\0\0\0\1")
        self.assertEqual((to_bits(0, 0), from_bits(b""), from_bits([])), (b"", 0, 0))
        for width in (0, 1, 7, 8, 64, 100_000):
            for number in (0, 1, 5, 2**width - 1, 2**width // 3):
                if number < 2**width:
                    for named in ({}, {"highest_first": False}, {"highest_first": True}):
                        bits = to_bits(number, width, **named)
                        self.assertEqual((len(bits), from_bits(bits, **named)), (width, number))
        for kind in (list, tuple, bytearray, memoryview):
            self.assertEqual(from_bits(kind(b"\1\1\0")), 3)
            self.assertEqual(from_bits(kind(b"\1\1\0"), highest_first=True), 6)

    def test_bits_and_numbers_that_are_none(self):
        for number, width in ((-1, 4), (16, 4), (1, 0), (-(2**70), 64)):
            self.assertRaises(OverflowError, to_bits, number, width)
        self.assertRaises(ValueError, to_bits, 0, -1)
        self.assertRaises(TypeError, to_bits, 1.0, 4)
        self.assertRaises(TypeError, to_bits, 1, 4, True)
        for bits in (b"\2", b"01", [1, 0, 3], [-1], [256]):
            self.assertRaises(ValueError, from_bits, bits)
        for bits in "01", 5, array.array("I", [1, 0]):
            self.assertRaises(TypeError, from_bits, bits)

    def test_reading(self):
        with Circuit.open(EXAMPLES / "full_adder.txt") as circuit:
            with Circuit.open(str(EXAMPLES / "full_adder.txt")) as same, Circuit.from_text(FULL_ADDER) as other:
                self.assertEqual((same.digest, other.digest), (circuit.digest, circuit.digest))
        self.assertRaises(FileNotFoundError, Circuit.open, EXAMPLES / "none.txt")
        self.assertRaises(TypeError, Circuit.from_text, FULL_ADDER.encode())
        said = "line 1, column 1: expected a number from 0 to 4294967295"
        self.assert_fault("2 BadNumber", Circuit.from_text, "\u0661 5", detail=said)
        with tempfile.NamedTemporaryFile() as file:
            Path(file.name).write_bytes(b"\xff 3")  # which isn't UTF-8
            self.assert_fault("2 BadNumber", Circuit.open, file.name, detail=said)

    def test_reports_are_true_where_they_are_honest(self):
        with Circuit.from_text(FULL_ADDER) as circuit:
            with circuit.garble(ZEROS) as garbling, circuit.garble(b"\1" * 32) as other:
                self.assertTrue(garbling.audit(garbling.write()))
                self.assertFalse(garbling.audit(other.write()))
                self.assertTrue(garbling.audit_labels(circuit.deal(ZEROS, 0, [0])))
                self.assertFalse(other.audit_labels(circuit.deal(ZEROS, 0, [0])))

    def test_binding_any_iterable(self):
        with Circuit.from_text(FULL_ADDER) as circuit, circuit.garble(ZEROS) as garbling:
            garbled, values = garbling.write(), [[1], [0], [1]]
            files = deal_all(circuit, ZEROS, values)
            for labels in (files, tuple(files), iter(files), dict.fromkeys(map(bytes, files)),
                           (circuit.deal(ZEROS, index, bits) for index, bits in enumerate(values))):
                with circuit.bind(garbled, labels) as job:
                    self.assertEqual(job.evaluate(), b"\0\1")
            self.assert_fault("45 MissingValue", circuit.bind, garbled, iter([]))
            self.assertRaises(TypeError, circuit.bind, garbled, files[0])

    def test_garblings_and_jobs_outlive_their_circuit(self):
        with Circuit.from_text(FULL_ADDER) as circuit:
            garbling = circuit.garble(ZEROS)
            job = circuit.bind(garbling.write(), deal_all(circuit, ZEROS, [[1], [1], [0]]))
        with garbling, job:
            self.assertEqual(job.evaluate(), b"\0\1")
            self.assertTrue(garbling.audit(garbling.write()).honest)


# Calls the functions of the shared library as ctypes finds them, each with a NULL and a size of 1, and prints what is
# not refused as a bad argument.
NULLS = """
from ctypes import byref, c_size_t, c_void_p, create_string_buffer
from halfgates import Circuit, _library

circuit = Circuit.read(open("examples/full_adder.txt", "rb").read())
garbling = circuit.garble(bytes(32))
garbled = bytes(garbling.write())
labels = [bytes(circuit.deal(bytes(32), index, [1])) for index in range(3)]
job = circuit.bind(garbled, labels)
bits, labels, sizes = bytes([1, 1, 1]), b"".join(labels), (c_size_t * 3)(32, 32, 32)
offset, room, written, handle = bytes([1] * 16), create_string_buffer(512), c_size_t(), c_void_p()
wires, place, sentence = (_library.WireLabels * 8)(), _library.Place(), _library.Sentence()
report, rows_report, labels_report = _library.AuditReport(), _library.RowsReport(), _library.LabelsReport()
null = None, 1
for name, *words in [
    ("circuit_read", *null, byref(handle)),
    ("circuit_read_without_digest", *null, byref(handle)),
    ("circuit_input_widths", circuit, *null),
    ("circuit_output_widths", circuit, *null),
    ("locate", *null, place),
    ("explain", *null, sentence),
    ("plain", circuit, *null, room, 2),
    ("plain", circuit, bits, 3, *null),
    ("garbling_write", garbling, 2, *null, byref(written)),
    ("write_many", *null, 2, room, 177),
    ("write_many", (c_void_p * 1)(garbling._at.value), 1, 2, *null),
    ("deal", circuit, bytes(32), 0, *null, room, 32, byref(written)),
    ("deal", circuit, bytes(32), 0, bits, 1, *null, byref(written)),
    ("labels", garbling, *null, 0, wires, 8),
    ("labels", garbling, bits, 3, 0, *null),
    ("job_bind", circuit, *null, labels, 96, sizes, 3, byref(handle)),
    ("job_bind", circuit, garbled, 177, *null, sizes, 3, byref(handle)),
    ("job_bind", circuit, garbled, 177, labels, 96, *null, byref(handle)),
    ("evaluate", job, *null),
    ("evaluate_many", *null, room, 2),
    ("evaluate_many", (c_void_p * 1)(job._at.value), 1, *null),
    ("garble_from", circuit, offset, *null, 0, byref(handle)),
    ("garbling_deal", garbling, 0, *null, room, 32, byref(written)),
    ("garbling_deal", garbling, 0, bits, 1, *null, byref(written)),
    ("label_file", circuit, 0, *null, room, 32, byref(written)),
    ("label_file", circuit, 0, bits, 1, *null, byref(written)),
    ("input_labels", garbling, 0, None, room, 16),
    ("input_labels", garbling, 0, room, *null),
    ("output_labels", garbling, 0, None, room, 32),
    ("output_labels", garbling, 0, room, *null),
    ("rows", garbling, *null),
    ("decode_bits", garbling, *null),
    ("evaluate_labels", circuit, *null, 0, labels, 48, room, 32),
    ("evaluate_labels", circuit, room, 32, 0, *null, room, 32),
    ("evaluate_labels", circuit, room, 32, 0, labels, 48, *null),
    ("job_output_labels", job, *null),
    ("decode", *null, bits, 1, room, 1),
    ("decode", room, 16, *null, room, 1),
    ("decode", room, 16, bits, 1, *null),
    ("audit", garbling, *null, report),
    ("audit_rows", garbling, *null, bits, 2, rows_report),
    ("audit_rows", garbling, room, 32, *null, rows_report),
    ("audit_labels", garbling, *null, room, 1, labels_report),
    ("audit_labels", garbling, labels, 32, *null, labels_report),
]:
    code = getattr(_library.library, f"halfgates_{name}")(*[getattr(it, "_at", it) for it in words])
    if code != 64:
        print(name, code)
"""


class BareNames(unittest.TestCase):
    def test_null_with_a_size(self):
        words = [sys.executable, "-c", NULLS]
        how = {"cwd": TOP, "env": environment_of_python(), "capture_output": True, "text": True}
        done = subprocess.run(words, check=False, **how)
        self.assertEqual((done.returncode, done.stdout, done.stderr), (0, "", ""))


class Codes(unittest.TestCase):
    """The codes, their names and their meanings are those of the header."""

    def test_they_are_those_of_the_header(self):
        header = (TOP / "include/halfgates.h").read_text().partition("typedef")[0]
        found = re.findall(r"^ +HALFGATES_(\w+) = (\d+),? +/\* (.*?) \*/$", header, re.M | re.S)
        said = {name: (int(code), " ".join(meaning.split())) for name, code, meaning in found}
        self.assertEqual({it.name: (it, it.meaning) for it in halfgates.Code if it}, said)
        self.assertEqual(halfgates.Code.OK, 0)

    def test_names_of_faults(self):
        for code in halfgates.Code:
            fault = Fault(code)
            self.assertEqual((fault.code, fault.meaning), (code, code.meaning))
            self.assertEqual(str(fault), f"fault {int(code)} {fault.name}: {code.meaning}")
        self.assertEqual(str(Fault(99)), "fault 99 Unknown")


class Package(unittest.TestCase):
    def test_version(self):
        said = re.search(r'^version = "(.*)"$', (TOP / "python/pyproject.toml").read_text(), re.M)
        self.assertEqual(halfgates.__version__, said[1])

    def test_each_name_has_a_docstring_and_types(self):
        for name in halfgates.__all__:
            it = getattr(halfgates, name)
            if isinstance(it, type):
                self.assertTrue(it.__doc__, name)
                for method, call in vars(it).items():
                    if callable(call) and not method.startswith("_"):
                        self.assertTrue(call.__doc__, f"{name}.{method}")
                        self.assertIn("return", typing.get_type_hints(call), f"{name}.{method}")

    def test_bits_may_be_truth_values(self):
        self.assertLessEqual({typing.List[int], typing.List[bool]}, {*typing.get_args(halfgates.Bits)})

    def test_a_library_that_is_not_there(self):
        for path in ("/nowhere.so", "libc.so.6"):
            environment = {**environment_of_python(), "HALFGATES_LIBRARY": path}
            words = [sys.executable, "-c", "import halfgates"]
            done = subprocess.run(words, env=environment, capture_output=True, text=True, check=False)
            self.assertRegex(done.stderr.splitlines()[-1], "^ImportError: .*./build halfgates_c makes the library")

    def test_cut_and_choose(self):
        script = [sys.executable, EXAMPLES / "python/cut_and_choose.py", EXAMPLES / "less8.txt", "7", "9"]

        def run(*words):
            how = {"env": environment_of_python(), "capture_output": True, "text": True, "check": False}
            done = subprocess.run([*script, *words], **how)
            return done.returncode, done.stdout, done.stderr

        said = "opened 50, forged 0\nevaluated 50, alike 50\n1\n"
        self.assertEqual(run(), (0, said, ""))
        status, printed, error = run("--forge", "60")
        self.assertRegex(printed, r"^opened 50, forged [1-5]\d\n$")
        self.assertEqual((status, error), (1, "the garbler cheats\n"))


if __name__ == "__main__":
    unittest.main()
