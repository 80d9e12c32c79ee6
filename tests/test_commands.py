"""The program's commands over files on a disk: what each prints and writes, and its first fault."""
import resource
import unittest
from hashlib import sha256
from pathlib import Path

from program import (
    AND, CONSTANT_AND, EMPTY, FAR_COPY, FULL_ADDER, INV, MANY_WIRES, NO_GATES, ONE, SEED, SQUARE,
    WIDE, XOR, ZERO, ProgramTest, fails, label_file, sealed,
)

FORMATS = "1", "2"
WORKERS = "1", "2", "64"

# The full adder in another spelling.
SPACED_ADDER = (
    "\r\n 0005\t8 \r\n3 01 1 1\r\n\r\n1 2  \r\n2 1 0 2 00003 XOR\r\n"
    "2\n1\n1\n2\n4\nXOR 2 1 3 4 5 AND\t\r\n\r\n2 1 3 1 6 XOR\r\n2 1 5 2 7 XOR"
)

ADDER_LINES = (
    "gates 5\nwires 8\nand 1\ninputs 3 1 1 1\noutputs 1 2\n"
    "digest c07940d5ed062a112dc9abe072fab1395a72f675da449ef95ea0515ec8df7c76\n"
)

# Circuits and what `check` prints. The digests are those of `sha256sum` over the canonical texts.
CHECKS = [
    (FULL_ADDER, ADDER_LINES),
    (SPACED_ADDER, ADDER_LINES),
    (
        NO_GATES,
        "gates 0\nwires 2\nand 0\ninputs 1 2\noutputs 1 2\n"
        "digest ebfb25b65880975f4652b0a8709343583318e6d736c161e56fb08550486df972\n",
    ),
    (
        EMPTY,
        "gates 0\nwires 0\nand 0\ninputs 0\noutputs 0\n"
        "digest 7894c1b64bc82f7b3ec946211f22e0371dbf0230e4683e53767c08ceca9b132f\n",
    ),
    (
        XOR,
        "gates 1\nwires 3\nand 0\ninputs 2 1 1\noutputs 1 1\n"
        "digest 40d7ff849fbcd20c663afc979ad955358a6a933e166bb385919e9f36ba1ebfc0\n",
    ),
    (
        AND,
        "gates 1\nwires 3\nand 1\ninputs 2 1 1\noutputs 1 1\n"
        "digest 48b39dc66f66f62d8630058dfe655fa07dd8d4398fd1acb1f6ce2a22c3a8fe00\n",
    ),
    (
        ONE,
        "gates 1\nwires 1\nand 0\ninputs 0\noutputs 1 1\n"
        "digest e38480e617d96608e2bcec3ff48b68f61b5ec1e37c0dd207dd28f629efd5c868\n",
    ),
    (
        WIDE,
        "gates 1\nwires 13\nand 0\ninputs 1 12\noutputs 2 1 12\n"
        "digest d20143a14b945f35b280f59103ae64f8919aef92cf87aeea287c5764140c41da\n",
    ),
    (
        MANY_WIRES,
        "gates 3\nwires 2097152\nand 0\ninputs 2 2097149 0\noutputs 0\n"
        "digest 31cf3e46ea6dfad574e216897b7aa377f266881aa5363d17dbe3005da0fae108\n",
    ),
]

# Circuits, input values, and the output values, one a line.
RUNS = [
    (XOR, ["0", "0"], "0\n"),
    (XOR, ["1", "0"], "1\n"),
    (XOR, ["0", "1"], "1\n"),
    (XOR, ["1", "1"], "0\n"),
    (AND, ["0", "0"], "0\n"),
    (AND, ["1", "0"], "0\n"),
    (AND, ["0", "1"], "0\n"),
    (AND, ["1", "1"], "1\n"),
    (INV, ["0"], "1\n"),
    (INV, ["1"], "0\n"),
    (FAR_COPY, ["0"], "0\n"),
    (FAR_COPY, ["1"], "1\n"),
    (ONE, [], "1\n"),
    (ZERO, [], "0\n"),
    (CONSTANT_AND, ["0"], "0\n"),
    (CONSTANT_AND, ["1"], "1\n"),
    (NO_GATES, ["10"], "10\n"),
    (SQUARE, ["0"], "0\n"),
    (SQUARE, ["1"], "1\n"),
    (FULL_ADDER, ["1", "0", "1"], "01\n"),
    (FULL_ADDER, ["1", "1", "1"], "11\n"),
    (FULL_ADDER, ["x01", "x00", "x01"], "01\n"),
    # Values of width 0.
    ("0 0\n1 0\n1 0", [""], "\n"),
    ("0 0\n1 0\n0", ["x"], ""),
    # Two output values.
    ("0 3\n1 3\n2 1 2", ["011"], "0\n11\n"),
    # Two values on either side.
    ("0 3\n2 1 2\n2 2 1", ["0", "11"], "01\n1\n"),
    (WIDE, ["x0108"], "1\n000000000011\n"),
    ("0 8\n1 8\n1 8", ["xaF"], "11110101\n"),
    ("0 8\n1 8\n1 8", ["xAf"], "11110101\n"),
]

# Texts that are no circuits, and their first faults.
CIRCUIT_FAULTS = [
    ("", "1 Truncated"),
    ("4294967296", "2 BadNumber"),
    ("4294967295 1", "3 TooLarge"),
    ("1 6\n1 4\n1 2\n4 2 0 1 2 3 4 5 MAND", "4 BadShape"),
    ("1 3\n2 1 1\n1 1\n2 1 0 1 2 NAND", "5 UnknownOperation"),
    ("1 1\n0\n1 1\n1 1 2 0 EQ", "6 BadConstant"),
    ("1 3\n2 1 1\n1 1\n2 1 0 1 9 XOR", "7 NoSuchWire"),
    ("2 4\n1 1\n1 1\n2 1 0 2 3 XOR\n1 1 0 2 INV", "8 Unset"),
    ("1 2\n1 2\n1 1\n1 1 1 0 INV", "9 SetTwice"),
    ("0 2\n1 1\n1 1", "10 OutputUnset"),
    ("1 3\n2 1 1\n1 1\n2 1 0 1 2 XOR\n5", "11 TrailingTokens"),
    ("0 2\n1 3\n1 1", "12 WidthsExceedWires"),
]

# Values that don't fit the full adder, and their first faults.
VALUE_FAULTS = [
    (["1", "0"], "14 WrongCount"),
    (["1", "0", "1", "0"], "14 WrongCount"),
    ([], "14 WrongCount"),
    (["2"], "14 WrongCount"),
    (["1", "2", "1"], "15 BadDigit"),
    (["1", "11", "1"], "16 WrongLength"),
    (["1", "0", ""], "16 WrongLength"),
    (["x02", "0", "1"], "17 SpareBits"),
    # The values are checked one after another.
    (["2", "", "x02"], "15 BadDigit"),
    (["1", "x02", "2"], "17 SpareBits"),
]

CHAIN_GATES = 1_048_577

# The labels of the chain's last wire, of colour 0 and of colour 1.
LAST_LABELS = [
    bytes.fromhex("ca6af915007cd08ae86b8529d8f1b0ef"),
    bytes.fromhex("bdd219b8a08ded1aa836efcc8b770dc7"),
]


def chain():
    """A chain of more than a million gates: gate i negates wire i."""
    gates = (f"1 1 {wire} {wire + 1} INV\n" for wire in range(CHAIN_GATES))
    return f"{CHAIN_GATES} {CHAIN_GATES + 1}\n1 1\n1 1\n\n" + "".join(gates)


class Circuits(ProgramTest):
    """`check`, `plain` and `run`."""

    def test_numbers_and_digests(self):
        for text, lines in CHECKS:
            self.put("c.txt", text)
            self.assert_prints(lines, "check", "c.txt")

    def test_outputs_garbled_and_in_plain(self):
        for text, values, output in RUNS:
            self.put("c.txt", text)
            self.assert_prints(output, "run", "c.txt", SEED, *values)
            self.assert_prints(output, "plain", "c.txt", *values)

    def test_each_number_of_workers(self):
        self.put("c.txt", FULL_ADDER)
        for workers in WORKERS:
            self.assert_prints("01\n", "run", "c.txt", SEED, "1", "0", "1", "--workers", workers)
        for workers in 0, 65, 2**32 - 1:
            words = "run", "c.txt", SEED, "1", "0", "1", "--workers", workers
            self.assert_fault("22 BadWorkers", *words)

    def test_a_circuit_is_judged_before_seed_and_values(self):
        for text, fault in CIRCUIT_FAULTS:
            self.put("c.txt", text)
            self.assert_fault(fault, "check", "c.txt")
            self.assert_fault(fault, "plain", "c.txt", "2")
            self.assert_fault(fault, "run", "c.txt", SEED, "0")
            self.assert_fault(fault, "run", "c.txt", "0", "2")
            self.assert_fault(fault, "garble", "c.txt", "0", "g")
            self.assert_fault(fault, "deal", "c.txt", "0", "9", "2", "l")
            self.assert_fault(fault, "eval", "c.txt", "no file")
            self.assert_fault(fault, "jobs", "c.txt", "no file")
            self.assert_fault(fault, "stats", "c.txt")
            self.assert_fault(fault, "order", "c.txt", "no folder/out")
            self.assert_fault(fault, "labels", "c.txt", "0", "2")
            self.assert_fault(fault, "audit", "c.txt", "0", "no file")

    def test_the_first_fault_of_values(self):
        self.put("c.txt", FULL_ADDER)
        for values, fault in VALUE_FAULTS:
            self.assert_fault(fault, "run", "c.txt", SEED, *values)
            self.assert_fault(fault, "plain", "c.txt", *values)
            self.assert_fault(fault, "labels", "c.txt", SEED, *values)

    def test_a_seed_is_judged_before_values(self):
        self.put("c.txt", FULL_ADDER)
        for seed in "", "0", 63 * "0" + "g", 66 * "0":
            self.assert_fault("18 BadSeed", "run", "c.txt", seed, "2")
            self.assert_fault("18 BadSeed", "labels", "c.txt", seed, "2")
            self.assert_fault("18 BadSeed", "audit", "c.txt", seed, "no file")

    def test_a_chain_of_more_than_a_million_gates(self):
        self.put("c.txt", chain())
        self.assert_prints("1\n", "plain", "c.txt", "0")
        self.assert_prints("1\n", "run", "c.txt", SEED, "0")
        self.assert_prints("wrote 81\n", "garble", "c.txt", SEED, "g", "--format", "1")
        self.assertEqual(self.bytes_of("g")[48], 0)
        # The entries are the hashes of the last wire's labels, under the tweak 0.
        self.assert_prints("wrote 113\n", "garble", "c.txt", SEED, "g", "--format", "2")
        hashes = [sha256(label + bytes(8)).digest()[:16] for label in LAST_LABELS]
        self.assertEqual(self.bytes_of("g")[49:81], b"".join(hashes))


# Garbled files under a seed of zeros: magic, digest, counts, rows, decode byte, entries, trailer.
XOR_FILE = bytes.fromhex(
    "48474152424c4531"
    "40d7ff849fbcd20c663afc979ad955358a6a933e166bb385919e9f36ba1ebfc0"
    "0000000001000000"
    "01"
    "b7ddfef4bd476e5c1aa9fe1f9e92d1431c06f5a157117f29e11adcbaeac70bcb"
)
XOR_FILE_2 = bytes.fromhex(
    "48474152424c4532"
    "40d7ff849fbcd20c663afc979ad955358a6a933e166bb385919e9f36ba1ebfc0"
    "0000000001000000"
    "01"
    "d769692e5f3fa9107612db1ad429e7376adee658bd136451522fc30035d0f811"
    "6c926f8b3e81e662d93e79e1ffd8065cdcc3ffb8edb8b4617fd8558a6ee675a4"
)
AND_FILE = bytes.fromhex(
    "48474152424c4531"
    "48b39dc66f66f62d8630058dfe655fa07dd8d4398fd1acb1f6ce2a22c3a8fe00"
    "0100000001000000"
    "dd11d0a73fd8455816559c223b1bca527a962e6d92d4a4db49c46e62392ddf4e"
    "01"
    "279d15e9bc2d5d866fd30fa0063bfb8d39d5c320df8228e8b4d46e7095cf5f84"
)
AND_FILE_2 = bytes.fromhex(
    "48474152424c4532"
    "48b39dc66f66f62d8630058dfe655fa07dd8d4398fd1acb1f6ce2a22c3a8fe00"
    "0100000001000000"
    "dd11d0a73fd8455816559c223b1bca527a962e6d92d4a4db49c46e62392ddf4e"
    "01"
    "618dfefbe857572b9c6ab3cac843348f6aa4df5947a092947b4b318b3caa9af4"
    "024c1a0ab387fcd706ba4af5e36a2a8b429f5fa1a5e7a2c2469e843095c9cb5f"
)
NO_GATES_FILE = bytes.fromhex(
    "48474152424c4531"
    "ebfb25b65880975f4652b0a8709343583318e6d736c161e56fb08550486df972"
    "0000000002000000"
    "01"
    "1681e828aebb8d990881e775aaf46dc278dc7667919321b500e7dd7df38248c1"
)
ONE_FILE_2 = bytes.fromhex(
    "48474152424c4532"
    "e38480e617d96608e2bcec3ff48b68f61b5ec1e37c0dd207dd28f629efd5c868"
    "0000000001000000"
    "01"
    "9d908ecfb6b256def8b49a7c504e6c880d6be0c6cc56ce7f3b5cf6618b88bf82"
    "1fc4abffeaa2779a468b666105a4282a85f9babb6c7f833dd31ec2897e2451d0"
)
GARBLED_FILES = [
    (NO_GATES, "1", NO_GATES_FILE),
    (ONE, "2", ONE_FILE_2),
    (XOR, "1", XOR_FILE),
    (XOR, "2", XOR_FILE_2),
    (AND, "1", AND_FILE),
    (AND, "2", AND_FILE_2),
]

# The file of the XOR gate with the decode bit 0.
OTHER_DECODE_BIT = bytes.fromhex(
    "48474152424c4531"
    "40d7ff849fbcd20c663afc979ad955358a6a933e166bb385919e9f36ba1ebfc0"
    "0000000001000000"
    "00"
    "2cf00ee93681ba3be5c5e4c1c4ff5c1a662b94f01bb10914ffc8dc94be3a2cdb"
)

# The one labels of the first two input wires.
ONE_LABELS = [
    bytes.fromhex("ca6af915007cd08ae86b8529d8f1b0ef"),
    bytes.fromhex("adf9b9d1f1a6751d37798adaeb5ef71f"),
]
ZERO_LABEL_OF_WIRE_1 = bytes.fromhex("da41597c5157488d7724e03fb8d84a37")

# Circuits, the index and the value of an input, and its label file.
LABEL_FILES = [
    (XOR, "0", "1", label_file(0, ONE_LABELS[0])),
    (XOR, "1", "1", label_file(1, ONE_LABELS[1])),
    (NO_GATES, "0", "10", label_file(0, ONE_LABELS[0], ZERO_LABEL_OF_WIRE_1)),
]

NOBODYS_LABEL = bytes(16)

# A circuit with a value of nine wires, and one of none.
TWO_VALUES = "1 10\n2 9 0\n1 1\n2 1 0 8 9 AND"

# Seeds, indices and values for it, and the first fault of dealing: 18, then 42, then 16, 15 and 17.
DEALING_FAULTS = [
    ("0", "0", "2", "18 BadSeed"),
    ("0", "2", "2", "18 BadSeed"),
    (63 * "0" + "g", "4294967295", "", "18 BadSeed"),
    (SEED, "2", "000000000", "42 NoSuchValue"),
    (SEED, "2", "2", "42 NoSuchValue"),
    (SEED, "2", "00000000x", "42 NoSuchValue"),
    (SEED, "2", "x0002", "42 NoSuchValue"),
    (SEED, "256", "", "42 NoSuchValue"),
    (SEED, "4294967295", "", "42 NoSuchValue"),
    (SEED, "0", "", "16 WrongLength"),
    (SEED, "0", "2", "16 WrongLength"),
    (SEED, "0", "0000000000", "16 WrongLength"),
    (SEED, "0", "x02", "16 WrongLength"),
    (SEED, "0", "x000000", "16 WrongLength"),
    (SEED, "0", "000000002", "15 BadDigit"),
    (SEED, "0", "x02g2", "15 BadDigit"),
    (SEED, "0", "x0002", "17 SpareBits"),
    (SEED, "0", "x0080", "17 SpareBits"),
    (SEED, "1", "0", "16 WrongLength"),
    (SEED, "1", "x00", "16 WrongLength"),
]


def little_memory():
    """The address space is limited to two gigabytes."""
    resource.setrlimit(resource.RLIMIT_AS, (2 << 30, 2 << 30))


class LongFiles(ProgramTest):
    """Files that there is no memory for."""

    def test_no_memory_for_a_file(self):
        self.put("c.txt", XOR)
        with open(self.folder / "long", "wb") as file:
            file.truncate(8 << 30)
        for words in (("stats", "long"), ("order", "long", "out"), ("jobs", "c.txt", "long")):
            self.assertEqual(self.run_program(*words, preexec_fn=little_memory), fails("52 Memory"), words)


class TwoParties(ProgramTest):
    """`garble`, `deal` and `eval`, over the files that go between two parties."""

    def deal(self, values):
        """Deals each value into a file of its own. The label files go from the last to the first."""
        for index, value in enumerate(values):
            words = "deal", "c.txt", SEED, index, value, f"l{index}"
            status, _, errors = self.run_program(*words)
            self.assertEqual((status, errors), (0, ""))
        return [f"l{index}" for index in reversed(range(len(values)))]

    def garble(self, *options):
        status, _, errors = self.run_program("garble", "c.txt", SEED, "g", *options)
        self.assertEqual((status, errors), (0, ""))

    def test_outputs_over_files(self):
        for text, values, output in RUNS:
            self.put("c.txt", text)
            labels = self.deal(values)
            for version in FORMATS:
                for workers in WORKERS:
                    self.garble("--format", version, "--workers", workers)
                    words = "c.txt", "g", *labels, "--workers", workers
                    self.assert_prints(output, "eval", *words)

    def test_garbled_files(self):
        for text, version, file in GARBLED_FILES:
            self.put("c.txt", text)
            for workers in WORKERS:
                options = "--format", version, "--workers", workers
                self.assert_writes(file, "g", "garble", "c.txt", SEED, "g", *options)

    def test_version_2_is_the_default(self):
        self.put("c.txt", XOR)
        self.garble()
        self.assertEqual(self.bytes_of("g"), XOR_FILE_2)

    def test_label_files(self):
        for text, index, value, file in LABEL_FILES:
            self.put("c.txt", text)
            self.assert_writes(file, "l", "deal", "c.txt", SEED, index, value, "l")

    def test_a_forged_row(self):
        self.put("c.txt", AND)
        self.put("g", OTHER_ROW)
        for values, output in ("00", "1\n"), ("01", "1\n"), ("10", "0\n"), ("11", "1\n"):
            self.assert_prints(output, "eval", "c.txt", "g", *self.deal(values))

    def test_faults_of_garbling(self):
        self.put("c.txt", XOR)
        self.assert_fault("18 BadSeed", "garble", "c.txt", "0", "g", "--workers", "0")
        self.assert_fault("22 BadWorkers", "garble", "c.txt", SEED, "g", "--workers", "65")
        self.assertEqual([file.name for file in self.folder.iterdir()], ["c.txt"])

    def test_faults_of_dealing(self):
        """Whether the circuit was garbled or not, and what OUT held stays there."""
        self.put("c.txt", TWO_VALUES)
        for is_garbled in False, True:
            if is_garbled:
                self.garble()
            for out in "l", "no folder/l":
                for seed, index, value, fault in DEALING_FAULTS:
                    self.assert_fault(fault, "deal", "c.txt", seed, index, value, out)
            self.assertFalse((self.folder / "l").exists())
        self.put("l", "kept")
        for seed, index, value, fault in DEALING_FAULTS:
            self.assert_fault(fault, "deal", "c.txt", seed, index, value, "l")
        self.assertEqual(self.bytes_of("l"), b"kept")

    def test_no_value_to_deal(self):
        self.put("c.txt", ONE)
        for index in "0", "1", "4294967295":
            self.assert_fault("42 NoSuchValue", "deal", "c.txt", SEED, index, "2", "l")


# The AND gate's file with the colour of a row flipped, and with a row pair too many.
OTHER_ROW = sealed(AND_FILE[:48] + b"\xdc" + AND_FILE[49:-32])
TWO_ROWS = sealed(AND_FILE[:40] + b"\2\0\0\0" + AND_FILE[44:48] + bytes(64) + b"\1")

# Circuits, garbled files, label files, and what `eval` prints: the outputs, or its first fault.
EVALUATIONS = [
    (XOR, XOR_FILE, ["0", "1"], "0\n"),
    (XOR, XOR_FILE_2, ["1", "0"], "0\n"),
    (AND, AND_FILE, ["0", "1"], "1\n"),
    (AND, AND_FILE_2, ["0", "1", "--workers", "64"], "1\n"),
    # A decode bit that was flipped, and labels that nobody dealt.
    (XOR, OTHER_DECODE_BIT, ["0", "1"], "1\n"),
    (XOR, XOR_FILE, ["z0", "z1"], "1\n"),
    (XOR, XOR_FILE, ["z0", "1"], "0\n"),
    (XOR, XOR_FILE, ["z0", "1", "--workers", "2"], "0\n"),
]
EVALUATION_FAULTS = [
    (XOR, XOR_FILE_2, ["z0", "1"], "48 UnknownOutputLabel"),
    (XOR, XOR_FILE_2, ["z0", "z1"], "48 UnknownOutputLabel"),
    (XOR, XOR_FILE_2, ["z0", "1", "--workers", "64"], "48 UnknownOutputLabel"),
    # The number of workers is checked after binding.
    (AND, AND_FILE, ["0", "1", "--workers", "0"], "22 BadWorkers"),
    (AND, AND_FILE, ["0", "1", "--workers", "65"], "22 BadWorkers"),
    (AND, AND_FILE, ["0", "--workers", "0"], "45 MissingValue"),
    # Files that are bound to no job.
    (XOR, AND_FILE, ["0", "1"], "40 OtherCircuit"),
    (FULL_ADDER, AND_FILE, ["0", "1"], "40 OtherCircuit"),
    (AND, TWO_ROWS, ["0", "1"], "41 OtherCounts"),
    (AND, TWO_ROWS, ["z2"], "41 OtherCounts"),
    (XOR, TWO_ROWS, [], "40 OtherCircuit"),
    (XOR, XOR_FILE, ["0", "z2"], "42 NoSuchValue"),
    (XOR, XOR_FILE, ["z2", "none"], "42 NoSuchValue"),
    (XOR, XOR_FILE, ["two"], "43 WrongWidth"),
    (XOR, XOR_FILE, ["0", "none"], "43 WrongWidth"),
    (XOR, XOR_FILE, ["0", "two"], "43 WrongWidth"),
    (XOR, XOR_FILE, ["none", "z2"], "43 WrongWidth"),
    (XOR, XOR_FILE, ["0", "0"], "44 DoubleValue"),
    (XOR, XOR_FILE, ["1", "1", "two"], "44 DoubleValue"),
    (XOR, XOR_FILE, ["z1", "0", "1"], "44 DoubleValue"),
    (XOR, XOR_FILE, ["0"], "45 MissingValue"),
    (XOR, XOR_FILE, [], "45 MissingValue"),
    # The circuit, the garbled file and each label file in turn are checked before the next is read.
    ("", b"\0", ["no file"], "1 Truncated"),
    (XOR, b"\0", ["no file"], "30 BadMagic"),
    (XOR, b"", ["no file"], "31 Truncated"),
    (XOR, AND_FILE, ["empty", "no file"], "31 Truncated"),
    (XOR, AND_FILE, ["no file", "empty"], "50 CannotRead"),
    (XOR, AND_FILE, ["0", "g"], "30 BadMagic"),
    (XOR, AND_FILE, ["0", "c.txt"], "30 BadMagic"),
    # A file without its last byte, with one byte more, and with one bit of a row flipped.
    (AND, AND_FILE[:-1], ["0", "1"], "31 Truncated"),
    (AND, AND_FILE + b"\0", ["0", "1"], "32 Trailing"),
    (AND, AND_FILE[:48] + b"\xdc" + AND_FILE[49:], ["0", "1"], "35 BadTrailer"),
]


class AnyFiles(ProgramTest):
    """`eval` over files that nobody vouches for."""

    def put_files(self, text, garbled):
        """Label files of the bit 1 (`0`, `1`), of labels that nobody dealt for three values (`z0` to
        `z2`), of two labels for the first value and of none for the second."""
        self.put("c.txt", text)
        self.put("g", garbled)
        for index, label in enumerate(ONE_LABELS):
            self.put(str(index), label_file(index, label))
        for index in range(3):
            self.put(f"z{index}", label_file(index, NOBODYS_LABEL))
        self.put("two", label_file(0, NOBODYS_LABEL, NOBODYS_LABEL))
        self.put("none", label_file(1))
        self.put("empty", b"")

    def test_outputs_of_any_files(self):
        for text, garbled, labels, output in EVALUATIONS:
            self.put_files(text, garbled)
            self.assert_prints(output, "eval", "c.txt", "g", *labels)

    def test_the_first_fault_of_any_files(self):
        for text, garbled, labels, fault in EVALUATION_FAULTS:
            self.put_files(text, garbled)
            self.assert_fault(fault, "eval", "c.txt", "g", *labels)


# The fault of the AND gate's file with one bit flipped, up to each bit: those of the magic, of the
# digest, of the two counts, of the rows, of the decode byte, of the entries and of the trailer. A count
# that is a little larger or smaller leaves another byte where the decode byte is.
FLIPS = [
    (64, "30 BadMagic"),
    (320, "35 BadTrailer"),
    (321, "34 SpareBits"),
    (344, "31 Truncated"),
    (352, "33 CountTooLarge"),
    (355, "35 BadTrailer"),
    (361, "34 SpareBits"),
    (377, "31 Truncated"),
    (384, "33 CountTooLarge"),
    (641, "35 BadTrailer"),
    (648, "34 SpareBits"),
    (904, "35 BadTrailer"),
]
FLIPS_2 = [
    (64, "30 BadMagic"),
    (320, "35 BadTrailer"),
    (322, "34 SpareBits"),
    (344, "31 Truncated"),
    (352, "33 CountTooLarge"),
    (353, "35 BadTrailer"),
    (355, "31 Truncated"),
    (362, "34 SpareBits"),
    (377, "31 Truncated"),
    (384, "33 CountTooLarge"),
    (641, "35 BadTrailer"),
    (648, "34 SpareBits"),
    (1160, "35 BadTrailer"),
]
# The same of the label file of the first value: of the magic, of the index and of the width.
LABEL_FLIPS = [
    (64, "30 BadMagic"),
    (65, "44 DoubleValue"),
    (96, "42 NoSuchValue"),
    (97, "32 Trailing"),
    (121, "31 Truncated"),
    (128, "33 CountTooLarge"),
]


def flipped(data, bit):
    """The bytes with one bit flipped, counted from the lowest bit of the first byte."""
    copy = bytearray(data)
    copy[bit // 8] ^= 1 << bit % 8
    return bytes(copy)


class ChangedFiles(ProgramTest):
    """Each bit of a file flipped, each of its beginnings, and one byte more."""

    def setUp(self):
        super().setUp()
        self.put("c.txt", AND)
        for index, label in enumerate(ONE_LABELS):
            self.put(str(index), label_file(index, label))

    def assert_each_fault(self, name, file, flips):
        bit = 0
        for end, fault in flips:
            for bit in range(bit, end):
                self.put(name, flipped(file, bit))
                self.assert_fault(fault, "eval", "c.txt", "g", "0", "1")
            bit = end
        for length in range(len(file)):
            self.put(name, file[:length])
            self.assert_fault("31 Truncated", "eval", "c.txt", "g", "0", "1")
        self.put(name, file + b"\0")
        self.assert_fault("32 Trailing", "eval", "c.txt", "g", "0", "1")

    def test_changed_garbled_files(self):
        for file, flips in (AND_FILE, FLIPS), (AND_FILE_2, FLIPS_2):
            self.assertEqual(flips[-1][0], 8 * len(file))
            self.assert_each_fault("g", file, flips)

    def test_each_bit_of_a_digest(self):
        for bit in range(64, 320):
            self.put("g", sealed(flipped(AND_FILE, bit)[:-32]))
            self.assert_fault("40 OtherCircuit", "eval", "c.txt", "g", "0", "1")

    def test_each_bit_of_a_label(self):
        """The label file is in order. Version 1 sees the colour alone, version 2 each bit."""
        self.put("c.txt", XOR)
        for bit in range(128, 256):
            self.put("0", flipped(label_file(0, ONE_LABELS[0]), bit))
            self.put("g", XOR_FILE)
            self.assert_prints("1\n" if bit == 128 else "0\n", "eval", "c.txt", "g", "0", "1")
            self.put("g", XOR_FILE_2)
            self.assert_fault("48 UnknownOutputLabel", "eval", "c.txt", "g", "0", "1")

    def test_changed_label_files(self):
        self.put("g", AND_FILE)
        self.assert_each_fault("0", label_file(0, ONE_LABELS[0]), LABEL_FLIPS)


# Three jobs, with any white space between lines and words.
THREE_JOBS = "g a1 b0 c1\n\n\tg\t c1 b1  a1 \r\n \ng a0 b0 c0"

# Lists, numbers of workers, and the first fault in the order of the work.
LIST_FAULTS = [
    (b"\xff", "1", "53 BadList"),
    (b"g a1 b0 c1\n\xc3", "0", "53 BadList"),
    (b"nothing a1 b0 c1", "1", "50 CannotRead"),
    (b"g a1 nothing c1", "1", "50 CannotRead"),
    (b"c.txt nothing", "1", "30 BadMagic"),
    (b"g empty nothing", "1", "31 Truncated"),
    (b"g", "1", "45 MissingValue"),
    (b"g a1 d", "1", "42 NoSuchValue"),
    (b"g a1 two", "1", "43 WrongWidth"),
    (b"g a1 a1 two", "1", "44 DoubleValue"),
    # Each fault of a job's files comes before those of the next job's.
    (b"g a1 a0 c1\nnothing", "1", "44 DoubleValue"),
    (b"g a1 b0 c1\nempty nothing", "1", "31 Truncated"),
    (b"g a1 b0 c1\ng a1 b0", "0", "45 MissingValue"),
    # The number of workers is checked after all files, and before any output label.
    (b"g a1 b0 c1", "0", "22 BadWorkers"),
    (b"g z b0 c1", "65", "22 BadWorkers"),
    (b"g z b0 c1\ng a1 b0 c1", "2", "48 UnknownOutputLabel"),
    (b"g a1 b0 c1\ng z b0 c1", "1", "48 UnknownOutputLabel"),
    # A list has at most 65,536 jobs, which is found before any file is opened.
    (65_537 * b"x\n", "1", "53 BadList"),
    (65_536 * b"x\n", "1", "50 CannotRead"),
]


class Jobs(ProgramTest):
    """`jobs`, over a full adder, its garbled file and a label file for each bit."""

    def setUp(self):
        super().setUp()
        self.put("c.txt", FULL_ADDER)
        self.assert_prints("wrote 177\n", "garble", "c.txt", SEED, "g")
        for index, name in enumerate("abc"):
            for bit in "01":
                words = "c.txt", SEED, index, bit, name + bit
                self.assert_prints("wrote 32\n", "deal", *words)
        self.put("z", label_file(0, NOBODYS_LABEL))
        self.put("d", label_file(3, NOBODYS_LABEL))
        self.put("two", label_file(0, NOBODYS_LABEL, NOBODYS_LABEL))
        self.put("empty", b"")

    def test_three_jobs(self):
        self.put("list", THREE_JOBS)
        for workers in WORKERS:
            output = "01\n\n11\n\n00\n\n"
            self.assert_prints(output, "jobs", "c.txt", "list", "--workers", workers)

    def test_each_fault_in_its_place(self):
        for jobs, workers, fault in LIST_FAULTS:
            self.put("list", jobs)
            self.assert_fault(fault, "jobs", "c.txt", "list", "--workers", workers)

    def test_no_jobs_print_nothing(self):
        for jobs, workers in ("", "0"), (" \t\r\n\n", "65"):
            self.put("list", jobs)
            self.assert_prints("", "jobs", "c.txt", "list", "--workers", workers)

    def test_a_circuit_is_judged_before_the_list(self):
        self.put("c.txt", "")
        self.put("list", b"\xff")
        self.assert_fault("1 Truncated", "jobs", "c.txt", "list")


# It takes nothing.
FULL = Path("/dev/full")


class Disk(ProgramTest):
    """Files and outputs that fail."""

    def test_no_such_file(self):
        self.put("c.txt", XOR)
        self.put("list", "g")
        for words in [
            ("check", "no file"),
            ("check", "."),
            ("plain", "no file", "1", "0"),
            ("run", "no file", SEED, "1", "0"),
            ("garble", "no file", SEED, "g"),
            ("deal", "no file", SEED, "0", "1", "l"),
            ("eval", "c.txt", "no folder/g"),
            ("jobs", "c.txt", "no file"),
            ("jobs", "c.txt", "list"),
            ("locate", "no file"),
            ("stats", "."),
            ("order", "no file", "out"),
            ("labels", "no file", SEED, "1", "0"),
            ("audit", "c.txt", SEED, "no folder/g"),
        ]:
            self.assert_fault("50 CannotRead", *words)

    def test_a_file_that_cannot_be_written(self):
        self.put("c.txt", XOR)
        for words in ("order", "c.txt"), ("garble", "c.txt", SEED), ("deal", "c.txt", SEED, "0", "1"):
            for out in "no folder/out", ".", *([FULL] if FULL.is_char_device() else []):
                self.assert_fault("51 CannotWrite", *words, out)

    @unittest.skipUnless(FULL.is_char_device(), "there is no /dev/full")
    def test_an_output_that_takes_nothing(self):
        self.put("c.txt", XOR)
        self.put("g", XOR_FILE)
        for words in [
            ("run", "c.txt", SEED, "1", "1"),
            ("check", "c.txt"),
            ("locate", "c.txt"),
            ("stats", "c.txt"),
            ("order", "c.txt", "out"),
            ("labels", "c.txt", SEED, "1", "1"),
            ("audit", "c.txt", SEED, "g"),
            ("--help",),
        ]:
            with FULL.open("wb") as full:
                status, _, errors = self.run_program(*words, stdout=full)
            self.assertEqual((status, errors), (1, "halfgates: fault 51 CannotWrite\n"), words)

    @unittest.skipUnless(FULL.is_char_device(), "there is no /dev/full")
    def test_errors_that_nobody_takes(self):
        self.put("c.txt", XOR)
        for words, wanted in [
            (("run", "c.txt", SEED, "1", "1"), 1),
            (("--help",), 1),
            (("run", "c.txt", "0"), 1),
            (("walk",), 2),
            ((), 2),
        ]:
            with FULL.open("wb") as full:
                status, _, _ = self.run_program(*words, stdout=full, stderr=full)
            self.assertEqual(status, wanted, words)


if __name__ == "__main__":
    unittest.main()
