"""`audit`: whether a garbled file and label files are those of a circuit and a seed."""
import unittest

from inputs import draw_values, draws, load, many_ands, worked_circuits
from program import (
    AND, EMPTY, FAR_COPY, FULL_ADDER, INV, NO_GATES, SEED, XOR, ProgramTest, audits,
    ending_of_audit, label_file, sealed, text_of_lines,
)

import bristol
import cases
import reference
import tracing

VERSIONS = 1, 2

# Three values, of two, no and three wires, and nine outputs. AND gates 0 to 3 stand in the places
# 1, 3, 5 and 7, and set the wires 6, 9, 10 and 13.
AUDITED = """9 14
3 2 0 3
3 4 0 5

2 1 0 1 5 XOR
2 1 0 2 6 AND
1 1 3 7 INV
2 1 5 4 9 AND
1 1 1 8 EQ
2 1 9 8 10 AND
2 1 6 7 11 XOR
2 1 11 10 13 AND
1 1 13 12 EQW
"""
CIRCUIT = bristol.read_circuit(AUDITED.encode())
GARBLING = reference.garble(CIRCUIT, bytes(32))
GARBLED = {version: reference.garbled_file(CIRCUIT, GARBLING, version) for version in VERSIONS}

# Where the parts of its garbled files begin: rows, two bytes of decode bits, entries.
ROWS, BITS, ENTRIES = 48, 176, 178

RIGHT = {part: "right" for part in ("digest", "counts", "rows", "bits", "entries")}


def report(labels=(), **verdicts):
    """The lines of verdicts, where all others are right. A part that is None has no line. The texts
    of label files follow, each with whether it is right."""
    parts = {**RIGHT, **verdicts}
    lines = [f"{part} {verdict}" for part, verdict in parts.items() if verdict]
    lines += [f"labels {text}" for text, _ in labels]
    is_honest = all(it in ("right", None) for it in parts.values()) and all(it for _, it in labels)
    return text_of_lines([*lines, "honest" if is_honest else "dishonest"])


def spoiled(data, places):
    """A garbled file with a bit flipped in each of these bytes, and a trailer that is right again.
    Where a place is a pair of a byte and a mask, the bits of the mask are flipped."""
    body = bytearray(data[:-32])
    for place in places:
        at, mask = place if isinstance(place, tuple) else (place, 1)
        body[at] ^= mask
    return sealed(bytes(body))


# The bytes of a garbled file that are spoiled, and the verdicts that aren't `right`.
SPOILED = [
    ([], {}),
    ([8], {"digest": "wrong"}),
    ([(39, 128)], {"digest": "wrong"}),
    # Rows: the first, a middle and the last gate, and the first, a middle and the last byte.
    ([ROWS], {"rows": "wrong 0 gate 1 wire 6 TG"}),
    ([(ROWS + 15, 128)], {"rows": "wrong 0 gate 1 wire 6 TG"}),
    ([ROWS + 16], {"rows": "wrong 0 gate 1 wire 6 TE"}),
    ([ROWS + 31], {"rows": "wrong 0 gate 1 wire 6 TE"}),
    ([ROWS + 3, ROWS + 20], {"rows": "wrong 0 gate 1 wire 6 TG TE"}),
    ([ROWS + 32 + 7], {"rows": "wrong 1 gate 3 wire 9 TG"}),
    ([ROWS + 64 + 24], {"rows": "wrong 2 gate 5 wire 10 TE"}),
    ([ROWS + 96], {"rows": "wrong 3 gate 7 wire 13 TG"}),
    ([(BITS - 1, 128)], {"rows": "wrong 3 gate 7 wire 13 TE"}),
    ([ROWS + 96, ROWS + 112], {"rows": "wrong 3 gate 7 wire 13 TG TE"}),
    ([ROWS + 48, ROWS + 64, ROWS + 96], {"rows": "wrong 1 gate 3 wire 9 TE"}),
    # Decode bits: the first, the last of a byte, and the last.
    ([(BITS, 1)], {"bits": "wrong 0"}),
    ([(BITS, 16)], {"bits": "wrong 4"}),
    ([(BITS, 128)], {"bits": "wrong 7"}),
    ([(BITS + 1, 1)], {"bits": "wrong 8"}),
    ([(BITS, 255), (BITS + 1, 1)], {"bits": "wrong 0"}),
    ([(BITS, 72), (BITS + 1, 1)], {"bits": "wrong 3"}),
    # Several parts.
    ([8, ROWS + 33], {"digest": "wrong", "rows": "wrong 1 gate 3 wire 9 TG"}),
    ([BITS, ROWS + 64], {"rows": "wrong 2 gate 5 wire 10 TG", "bits": "wrong 0"}),
    (
        [20, ROWS + 16, (BITS, 8)],
        {"digest": "wrong", "rows": "wrong 0 gate 1 wire 6 TE", "bits": "wrong 3"},
    ),
]

# The same of version 2 alone.
SPOILED_2 = [
    # Entries: the first, a middle and the last output, of either colour.
    ([ENTRIES], {"entries": "wrong 0 0"}),
    ([(ENTRIES + 15, 128)], {"entries": "wrong 0 0"}),
    ([ENTRIES + 16], {"entries": "wrong 0 1"}),
    ([ENTRIES, ENTRIES + 16], {"entries": "wrong 0 0"}),
    ([ENTRIES + 32 * 4 + 5], {"entries": "wrong 4 0"}),
    ([ENTRIES + 32 * 4 + 31], {"entries": "wrong 4 1"}),
    ([ENTRIES + 32 * 8], {"entries": "wrong 8 0"}),
    ([(ENTRIES + 32 * 9 - 1, 128)], {"entries": "wrong 8 1"}),
    ([ENTRIES + 32 * 2 + 16, ENTRIES + 32 * 3], {"entries": "wrong 2 1"}),
    (
        [9, ROWS + 127, BITS + 1, ENTRIES + 32 * 7],
        {
            "digest": "wrong",
            "rows": "wrong 3 gate 7 wire 13 TE",
            "bits": "wrong 8",
            "entries": "wrong 7 0",
        },
    ),
]


def label(wire, bit):
    """The label of a wire of the circuit, under a seed of zeros."""
    return reference.encode(GARBLING, wire, bit)


def other(data, at, mask=1):
    """A label with a bit flipped."""
    return data[:at] + bytes([data[at] ^ mask]) + data[at + 1:]


NOBODYS_LABEL = bytes(16)
MOST = 2**32 - 1

# Label files, and for each what stands behind `labels`, and whether it is right.
LABEL_FILES = [
    ([], []),
    # Each bit of the first value. Nothing follows the index where a value has no wires.
    ([label_file(0, label(0, 0), label(1, 0))], [("0 00", True)]),
    ([label_file(0, label(0, 0), label(1, 1))], [("0 01", True)]),
    ([label_file(0, label(0, 1), label(1, 0))], [("0 10", True)]),
    ([label_file(0, label(0, 1), label(1, 1))], [("0 11", True)]),
    ([label_file(1)], [("1", True)]),
    ([label_file(2, label(2, 1), label(3, 1), label(4, 0))], [("2 110", True)]),
    # All values, in any order, and several files for one value. Missing ones change nothing.
    (
        [
            label_file(2, label(2, 0), label(3, 1), label(4, 0)),
            label_file(0, label(0, 1), label(1, 0)),
            label_file(1),
        ],
        [("2 010", True), ("0 10", True), ("1", True)],
    ),
    (
        [
            label_file(0, label(0, 1), label(1, 0)),
            label_file(0, label(0, 1), label(1, 0)),
            label_file(0, label(0, 0), label(1, 0)),
            label_file(1),
            label_file(1),
        ],
        [("0 10", True), ("0 10", True), ("0 00", True), ("1", True), ("1", True)],
    ),
    # A label that is neither of its wire's: in the first, a middle and the last place.
    ([label_file(0, NOBODYS_LABEL, label(1, 0))], [("0 wrong 0", False)]),
    ([label_file(0, label(0, 0), other(label(1, 1), 15, 128))], [("0 wrong 1", False)]),
    ([label_file(2, other(label(2, 0), 0), label(3, 0), label(4, 0))], [("2 wrong 2", False)]),
    ([label_file(2, label(2, 1), other(label(3, 0), 7), label(4, 0))], [("2 wrong 3", False)]),
    ([label_file(2, label(2, 1), label(3, 0), other(label(4, 1), 8))], [("2 wrong 4", False)]),
    ([label_file(2, label(2, 1), NOBODYS_LABEL, NOBODYS_LABEL)], [("2 wrong 3", False)]),
    # Labels of other wires.
    ([label_file(0, label(1, 0), label(0, 0))], [("0 wrong 0", False)]),
    ([label_file(0, label(0, 0), label(0, 0))], [("0 wrong 1", False)]),
    # Values that the circuit doesn't have, of any width.
    ([label_file(3)], [("3 no value", False)]),
    ([label_file(3, label(2, 0), label(3, 0), label(4, 0))], [("3 no value", False)]),
    ([label_file(MOST, NOBODYS_LABEL)], [(f"{MOST} no value", False)]),
    # Too few labels and too many, whatever they are.
    ([label_file(0)], [("0 width", False)]),
    ([label_file(0, label(0, 0))], [("0 width", False)]),
    ([label_file(0, label(0, 0), label(1, 0), label(2, 0))], [("0 width", False)]),
    ([label_file(1, NOBODYS_LABEL)], [("1 width", False)]),
    ([label_file(2, NOBODYS_LABEL, NOBODYS_LABEL)], [("2 width", False)]),
    # Each file is checked alone.
    (
        [
            label_file(5),
            label_file(0, label(0, 1), label(1, 1)),
            label_file(0, NOBODYS_LABEL, label(1, 1)),
            label_file(2),
            label_file(1),
        ],
        [
            ("5 no value", False),
            ("0 11", True),
            ("0 wrong 0", False),
            ("2 width", False),
            ("1", True),
        ],
    ),
]


def resized(version, rows, outputs):
    """A garbled file with the circuit's digest, and with these numbers of row pairs and outputs."""
    body = GARBLED[version][:40] + rows.to_bytes(4, "little") + outputs.to_bytes(4, "little")
    body += bytes(32 * rows + (outputs + 7) // 8 + (32 * outputs if version == 2 else 0))
    return sealed(body)


# The numbers of row pairs and outputs of files that have not the circuit's.
OTHER_COUNTS = (0, 0), (3, 9), (5, 9), (4, 8), (4, 10), (0, 9), (4, 0)

# What `counts wrong` leaves out.
NO_PARTS = {"counts": "wrong", "rows": None, "bits": None, "entries": None}

# Circuits, those whose garbled files are audited instead, and the verdicts. INV swaps the labels of a
# wire: the decode bit alone shows that.
OTHER_CIRCUITS = [
    (FULL_ADDER, " " + FULL_ADDER.replace("\n", "\t\r\n"), {}),
    (FAR_COPY, INV, {"digest": "wrong", "bits": "wrong 0"}),
    (INV, FAR_COPY, {"digest": "wrong", "bits": "wrong 0"}),
    (XOR, XOR.replace("0 1 2", "1 0 2"), {"digest": "wrong"}),
    (XOR, AND, {"digest": "wrong", **NO_PARTS}),
    (AND, FULL_ADDER, {"digest": "wrong", **NO_PARTS}),
    (EMPTY, NO_GATES, {"digest": "wrong", **NO_PARTS}),
    ("0 0\n1 0\n0", EMPTY, {"digest": "wrong"}),
]

# Circuits without gates, without outputs, without inputs and without anything.
EDGES = [
    NO_GATES,
    EMPTY,
    "1 3\n1 2\n0\n2 1 0 1 2 AND",
    "2 2\n0\n1 1\n1 1 1 0 EQ\n2 1 0 0 1 AND",
    "0 0\n2 0 0\n1 0",
]


class Reference(unittest.TestCase):
    """What the reference of vectors/ says, held against rows written by hand."""

    def assert_lines(self, lines, garbled, labels=()):
        printed = tracing.audit(AUDITED.encode(), SEED, garbled, labels)
        self.assertEqual(text_of_lines(printed), lines)

    def test_garbled_files(self):
        for version in VERSIONS:
            rest = {"entries": None} if version == 1 else {}
            for places, verdicts in SPOILED:
                self.assert_lines(report(**verdicts, **rest), spoiled(GARBLED[version], places))
        for places, verdicts in SPOILED_2:
            self.assert_lines(report(**verdicts), spoiled(GARBLED[2], places))

    def test_counts(self):
        for version in VERSIONS:
            for rows, outputs in OTHER_COUNTS:
                self.assert_lines(report(**NO_PARTS), resized(version, rows, outputs))

    def test_label_files(self):
        for files, verdicts in LABEL_FILES:
            self.assert_lines(report(verdicts), GARBLED[2], files)


class AuditTest(ProgramTest):
    def put_files(self, garbled, labels=()):
        """Writes a garbled file and label files, and returns their names."""
        return [self.put("g", garbled), *self.put_all("l", labels)]

    def assert_lines(self, lines, garbled, labels=()):
        """`audit` prints these lines for these files."""
        self.assert_ends(audits(lines), "audit", "c.txt", SEED, *self.put_files(garbled, labels))


class Verdicts(AuditTest):
    """`audit`, held against rows written by hand."""

    def setUp(self):
        super().setUp()
        self.put("c.txt", AUDITED)

    def test_garbled_files(self):
        for version in VERSIONS:
            rest = {"entries": None} if version == 1 else {}
            for places, verdicts in SPOILED:
                with self.subTest(version=version, places=places):
                    garbled = spoiled(GARBLED[version], places)
                    self.assert_lines(report(**verdicts, **rest), garbled)

    def test_entries(self):
        for places, verdicts in SPOILED_2:
            with self.subTest(places=places):
                self.assert_lines(report(**verdicts), spoiled(GARBLED[2], places))

    def test_each_byte_of_the_rows(self):
        for place in range(ROWS, BITS):
            gate, half = divmod(place - ROWS, 32)
            at, wire = ((1, 6), (3, 9), (5, 10), (7, 13))[gate]
            rows = f"wrong {gate} gate {at} wire {wire} {'TG' if half < 16 else 'TE'}"
            name = self.put("g", spoiled(GARBLED[1], [(place, 1 << place % 8)]))
            self.assert_ends(audits(report(rows=rows, entries=None)), "audit", "c.txt", SEED, name)

    def test_counts(self):
        labels = [label_file(1), label_file(3)]
        verdicts = [("1", True), ("3 no value", False)]
        for version in VERSIONS:
            for rows, outputs in OTHER_COUNTS:
                garbled = resized(version, rows, outputs)
                self.assert_lines(report(**NO_PARTS), garbled)
                self.assert_lines(report(verdicts, **NO_PARTS), garbled, labels)
                other_circuit = spoiled(garbled, [8])
                self.assert_lines(report(digest="wrong", **NO_PARTS), other_circuit)

    def test_label_files(self):
        for files, verdicts in LABEL_FILES:
            with self.subTest(verdicts):
                self.assert_lines(report(verdicts), GARBLED[2], files)
                self.assert_lines(report(verdicts, entries=None), GARBLED[1], files)

    def test_a_bad_file_and_bad_labels(self):
        garbled = spoiled(GARBLED[2], [BITS])
        for files, verdicts in LABEL_FILES:
            name, *labels = self.put_files(garbled, files)
            lines = report(verdicts, bits="wrong 0")
            self.assert_ends(audits(lines), "audit", "c.txt", SEED, name, *labels)

    def test_files_of_other_circuits(self):
        for text, garbled_text, verdicts in OTHER_CIRCUITS:
            self.put("c.txt", text)
            circuit = bristol.read_circuit(garbled_text.encode())
            garbling = reference.garble(circuit, bytes(32))
            with self.subTest(text):
                self.assert_lines(report(**verdicts), reference.garbled_file(circuit, garbling, 2))

    def test_another_seed(self):
        """All labels and rows are others, so only the digest and the numbers are right."""
        seed = 63 * "0" + "1"
        garbling = reference.garble(CIRCUIT, bytes.fromhex(seed))
        pairs = zip(*(reference.decode_bits(CIRCUIT, it) for it in (garbling, GARBLING)))
        first_bit = [a == b for a, b in pairs].index(False)
        lines = report(
            [("0 wrong 0", False), ("1", True)],
            rows="wrong 0 gate 1 wire 6 TG TE",
            bits=f"wrong {first_bit}",
            entries="wrong 0 0",
        )
        labels = label_file(0, label(0, 0), label(1, 0)), label_file(1)
        files = self.put_files(GARBLED[2], labels)
        self.assert_ends(audits(lines), "audit", "c.txt", seed, *files)


class HonestFiles(AuditTest):
    """`audit`, over what `garble` and `deal` write."""

    def assert_honest(self, text, seed, values):
        """The files of the program are honest, and say the bits of the values."""
        self.put("c.txt", text)
        names = [f"l{index}" for index in range(len(values))]
        for index, (name, value) in enumerate(zip(names, values)):
            status, _, errors = self.run_program("deal", "c.txt", seed, index, value, name)
            self.assertEqual((status, errors), (0, ""))
        labels = [(f"{index} {value}".rstrip(), True) for index, value in enumerate(values)]
        for version in VERSIONS:
            words = "c.txt", seed, "g", "--format", version
            self.assertEqual(self.run_program("garble", *words)[0], 0)
            rest = {"entries": None} if version == 1 else {}
            lines = report(labels, **rest)
            self.assert_ends(audits(lines), "audit", "c.txt", seed, "g", *names)
            lines = report(labels[::-1], **rest)
            words = "g", *names[::-1]
            self.assert_ends(audits(lines), "audit", "c.txt", seed, *words)

    def test_worked_circuits(self):
        for name, vector in worked_circuits():
            with self.subTest(name):
                values = vector["evaluations"][-1]["values"]
                self.assert_honest("\n".join(vector["circuit"]), vector["seed"], values)

    def test_edges(self):
        for text in EDGES:
            with self.subTest(text):
                widths = bristol.read_circuit(text.encode()).input_widths
                self.assert_honest(text, SEED, ["1" * width for width in widths])

    def test_independent_gates(self):
        """Threads garble these at once. A first, a middle and a last place is spoiled."""
        count = 6000
        self.put("c.txt", many_ands(count))
        self.assertEqual(self.run_program("garble", "c.txt", SEED, "honest")[0], 0)
        bits = ROWS + 32 * count
        entries = bits + count // 8
        for at in 0, 2999, count - 1:
            row = f"wrong {at} gate {at} wire {2 * count + at}"
            bit = bits + at // 8, 1 << at % 8
            entry = entries + 32 * at
            for places, verdicts in [
                ([ROWS + 32 * at], {"rows": f"{row} TG"}),
                ([ROWS + 32 * at + 16], {"rows": f"{row} TE"}),
                ([bit, entry + 16], {"bits": f"wrong {at}", "entries": f"wrong {at} 1"}),
                ([entry], {"entries": f"wrong {at} 0"}),
            ]:
                with self.subTest(at=at, **verdicts):
                    self.assert_lines(report(**verdicts), spoiled(self.bytes_of("honest"), places))

    def test_a_hundred_thousand_gates(self):
        """The first row is spoiled, and then the last row and the last entry."""
        self.make("chains", 64, 1500)
        self.assertEqual(self.run_program("garble", "chains", SEED, "honest")[0], 0)
        gates = 64 * 1500
        bits = ROWS + 32 * gates
        last = gates - 1
        last_row = f"wrong {last} gate {last} wire {128 + last} TE"
        for places, verdicts in [
            ([], {}),
            ([ROWS], {"rows": "wrong 0 gate 0 wire 128 TG"}),
            ([bits - 1, bits + 8 + 32 * 64 - 1], {"rows": last_row, "entries": "wrong 63 1"}),
        ]:
            self.put("g", spoiled(self.bytes_of("honest"), places))
            self.assert_ends(audits(report(**verdicts)), "audit", "chains", SEED, "g")


class Agreement(AuditTest):
    """`audit` and the reference, on random circuits and random damage."""

    def draw_garbled(self, draw, garbled):
        """A garbled file of which some bits are flipped, in any part, under a right trailer."""
        end = len(garbled) - 32
        places = [8 + draw.below(32), 48 + draw.below(max(1, end - 48))]
        places = [(place, 1 << draw.below(8)) for place in draw.shuffled(places)[:draw.below(3)]]
        return spoiled(garbled, [place for place in places if place[0] < end])

    def draw_labels(self, draw, files):
        """Label files in any order, some more than once, some with flipped bits, some of another
        index or width."""
        files = [draw.choice(files) for _ in range(draw.below(6))] if files else []
        for i, data in enumerate(files):
            kind = draw.below(6)
            if kind == 0 and len(data) > 16:
                files[i] = other(data, 16 + draw.below(len(data) - 16), 1 << draw.below(8))
            elif kind == 1:
                files[i] = data[:8] + bytes([draw.below(8), 0, 0, 0]) + data[12:]
            elif kind == 2 and len(data) > 16:
                files[i] = data[:12] + (len(data) // 16 - 2).to_bytes(4, "little") + data[16:-16]
        return files

    def test_random_damage(self):
        honest = 0
        for name, draw in draws(60, "audit"):
            text = cases.random_circuit(draw, draw.below(9), draw.below(40), draw.below(2))
            self.put("c.txt", text)
            circuit = bristol.read_circuit(text.encode())
            garbling = reference.garble(circuit, bytes(32))
            values, _ = draw_values(draw, circuit)
            files = reference.deal(circuit, garbling, values)
            version = draw.choice(VERSIONS)
            garbled = reference.garbled_file(circuit, garbling, version)
            garbled, labels = self.draw_garbled(draw, garbled), self.draw_labels(draw, files)
            ending = ending_of_audit(lambda: tracing.audit(text.encode(), SEED, garbled, labels))
            honest += ending[1].endswith("\nhonest\n")
            with self.subTest(name):
                self.assert_ends(ending, "audit", "c.txt", SEED, *self.put_files(garbled, labels))
        self.assertTrue(5 < honest < 55, honest)

    def test_the_files_of_vectors(self):
        """Those that `eval` reads and doesn't bind can be audited."""
        document = load("bad_files")
        text, seed = "\n".join(document["circuit"]), cases.OF_BAD_FILES.seed
        self.put("c.txt", text)
        audited = 0
        for bad in document["files"]:
            garbled, labels = bytes.fromhex(bad["garbled"]), list(map(bytes.fromhex, bad["labels"]))
            ending = ending_of_audit(lambda: tracing.audit(text.encode(), seed, garbled, labels))
            self.assertEqual(ending[0] != 1, bad["fault"] >= 40, bad["about"])
            audited += ending[0] != 1
            with self.subTest(bad["about"]):
                self.assert_ends(ending, "audit", "c.txt", seed, *self.put_files(garbled, labels))
        self.assertGreater(audited, 10)


if __name__ == "__main__":
    unittest.main()
