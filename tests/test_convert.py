"""halfgates.convert: circuits of the old Bristol format, and of Bristol Fashion with operations that the program
doesn't have. tests/test_netlists.py has netlists.
"""
import contextlib
import gzip
import io
import itertools
import json
import unittest
from random import Random
from unittest import mock

from inputs import DRAWS, damaged_text, draws, load, text_of
from library import import_package
from program import EXAMPLES, FULL_ADDER, ProgramTest

halfgates = import_package()
from halfgates import convert as module  # noqa: E402
from halfgates.convert import ConversionError, Port, convert  # noqa: E402

# What each operation computes, and how many AND gates it takes.
OPERATIONS = {
    "XOR": (lambda a, b: a ^ b, 0),
    "XNOR": (lambda a, b: 1 - (a ^ b), 0),
    "AND": (lambda a, b: a & b, 1),
    "NAND": (lambda a, b: 1 - (a & b), 1),
    "OR": (lambda a, b: a | b, 1),
    "NOR": (lambda a, b: 1 - (a | b), 1),
    "INV": (lambda a: 1 - a, 0),
    "NOT": (lambda a: 1 - a, 0),
    "EQW": (lambda a: a, 0),
}

ADDER = "5 8\n1 2 2\n\n" + FULL_ADDER.partition("\n\n")[2]

# Texts that are no circuit, and what is said of each.
UNCLEAR = {
    "": "this is no circuit: it ends before its second line",
    "1 3\n": "this is no circuit: it ends before its second line",
    "hello\nworld\n": "line 1: 'hello' is no number",
    "1 3 5\n1 1 1\n": "line 1 has 3 numbers, and not those of gates and wires",
    "\n1 3\n\n1 1 1 1\n2 1 0 1 2 AND": "line 4 has the widths of neither two nor three values",
    "1 3\n1 -1 1\n2 1 0 1 2 AND": "line 2: '-1' is no number",
    "1 3\n1 ² 1\n2 1 0 1 2 AND": "line 2: '²' is no number",
    "1 3\n2 2 1\n2 1 0 1 2 AND": "the input values have more wires than there are",
    "1 3\n1 1 4\n2 1 0 1 2 AND": "the output values have more wires than there are",
    "1 33554433\n1 1 1\n2 1 0 1 2 AND": "there are 33554433 wires, and at most 33554432 can be",
    "1 3\n1 1\n2 1\n1 1 0 2 INV": "line 3 has 1 widths, and says 2",
    f"0 0\n257 {'0 ' * 257}\n0\n": "line 2 has 257 values, and at most 256 can be",
    "2 3\n1 1 1\n2 1 0 1 2 AND": "there are 1 gates, and line 1 says 2",
    "0 3\n1 1 1\n2 1 0 1 2 AND": "there are 1 gates, and line 1 says 0",
    "1 3\n1 1 1\n2 1 0 1 2 and": "line 3: 'and' is no operation that can be converted",
    "1 3\n1 1 1\nAND": "line 3 doesn't say how many wires AND reads and sets",
    "1 3\n1 1 1\n2 AND": "line 3 doesn't say how many wires AND reads and sets",
    "1 3\n1 1 1\n1 1 0 2 AND": "line 3: AND doesn't read 1 wires and set 1",
    "1 3\n1 1 1\n2 1 0 2 INV": "line 3: INV doesn't read 2 wires and set 1",
    "1 3\n1 1 1\n3 1 0 1 0 2 MAND": "line 3: MAND doesn't read 3 wires and set 1",
    "1 3\n1 1 1\n2 1 0 1 AND": "line 3 names 2 wires, and says 3",
    "1 3\n1 1 1\n2 1 0 1 2 2 AND": "line 3 names 4 wires, and says 3",
    "1 3\n1 1 1\n2 1 0 x 2 AND": "line 3: 'x' is no number",
    "1 3\n1 1 1\n1 1 2 2 EQ": "line 3: the constant of EQ is 2, neither 0 nor 1",
    "1 3\n1 1 1\n2 1 0 2 2 AND": "line 3: wire 2 is read, and nothing sets it before",
    "1 3\n1 1 1\n2 1 0 3 2 AND": "line 3: wire 3 is read, and nothing sets it before",
    "1 3\n1 1 1\n2 1 0 1 3 AND": "line 3: there is no wire 3",
    "1 3\n1 1 1\n2 1 0 1 1 AND": "line 3: wire 1 is set twice",
    "1 4\n1 1 1\n4 2 0 1 0 1 2 2 MAND": "line 3: wire 2 is set twice",
    "1 4\n1 1 1\n4 2 0 2 0 1 2 3 MAND": "line 3: wire 2 is read, and nothing sets it before",
    "1 4\n1 1 1\n2 1 0 1 2 AND": "no gate sets wire 3, which is an output",
    "\0\0\0\0": "this is no circuit: it ends before its second line",
}

# How files of other formats begin, and what is said of each.
OTHERS = {
    "circuit.gz": (gzip.compress(FULL_ADDER.encode()), "this is a gzip file: unpack it first"),
    "UTF-16": (FULL_ADDER.encode("utf-16"), "this is UTF-16, and a circuit is ASCII"),
    "BLIF": (b".model top\n", "this is BLIF: `read_blif` and `write_json` of Yosys make a netlist of it"),
    "AIGER": (b"aig 1 1 0 1 0\n", "this is AIGER: `read_aiger` and `write_json` of Yosys make a netlist of it"),
    "Verilog": (b"module top;\n", "this is Verilog: `synth` and `write_json` of Yosys make a netlist of it"),
    "binary": (b"\x80\xff", "this is no text"),
}


def old_text(text, rng, widths):
    """A circuit of Bristol Fashion in the old format, with these widths in its second line, wires between inputs and
    outputs numbered at random, and blanks and empty lines as such files have them."""
    head, inputs, outputs, *gates = [line.split() for line in text.splitlines() if line]
    wires, first, last = int(head[1]), sum(map(int, inputs[1:])), sum(map(int, outputs[1:]))
    inner = rng.sample(range(first, wires - last), wires - last - first)
    numbers = [*range(first), *inner, *range(wires - last, wires)]
    lines = [[reads, sets, *[numbers[int(it)] for it in named], rng.choice(["INV", "NOT"]) if it == "INV" else it]
             for reads, sets, *named, it in gates]
    end = rng.choice(["\n", " \n", "\r\n"])
    said = [head, widths, [], *lines]
    return end.join(" ".join(map(str, line)) for line in said) + end * rng.randrange(3)


def random_gates(rng, inputs, count):
    """Gates of all operations, and what computes the bits of all wires."""
    lines, rules, wires = [], [], inputs
    for _ in range(count):
        operation = rng.choice([*OPERATIONS, "EQ", "MAND"])
        sets = rng.randrange(1, 5) if operation == "MAND" else 1
        rule, _ = OPERATIONS["AND" if operation == "MAND" else "EQW" if operation == "EQ" else operation]
        reads = sets * rule.__code__.co_argcount
        read = [rng.randrange(wires if operation != "EQ" else 2) for _ in range(reads)]
        made = [*range(wires, wires + sets)]
        lines.append(" ".join(map(str, [reads, sets, *read, *made, operation])))
        rules.append((rule, read, sets, operation == "EQ"))
        wires += sets
    return lines, rules, wires


def evaluate(rules, bits):
    """The bits of all wires."""
    bits = [*bits]
    for rule, read, sets, is_constant in rules:
        operands = read if is_constant else [bits[wire] for wire in read]
        bits += [rule(*operands[i::sets]) for i in range(sets)]
    return bits


def plain(conversion, bits):
    with halfgates.Circuit.read(conversion.text) as circuit:
        return [*circuit.plain(bytes(bits))]


def bits_of(text):
    """The bits of a value as the program takes it."""
    data = bytes.fromhex(text[1:])
    return [byte >> i & 1 for byte in data for i in range(8)]


def and_gates(conversion):
    with halfgates.Circuit.read(conversion.text) as circuit:
        return circuit.and_gates


class OldFormat(ProgramTest):
    def check_known(self, name, widths):
        """The circuit of this name, written in the old format with these widths, has the published answers."""
        self.make(name)
        made = (self.folder / name).read_text()
        conversion = convert(old_text(made, Random(f"{DRAWS} {name}"), widths))
        conversion.check(5)
        *inputs, output = [Port("", width) for width in widths]
        self.assertEqual((conversion.inputs, conversion.outputs), (tuple(it for it in inputs if it.width), (output,)))
        with halfgates.Circuit.from_text(made) as circuit:
            self.assertEqual(and_gates(conversion), circuit.and_gates)
        answers = json.loads((EXAMPLES / "answers.json").read_text())[name]
        self.assertGreater(len(answers), 1)
        for answer in answers:
            bits = [bit for value in answer["inputs"] for bit in bits_of(value)]
            self.assertEqual(plain(conversion, bits), bits_of(answer["outputs"][0]), answer["name"])

    def test_aes(self):
        self.check_known("aes128", [128, 128, 128])

    def test_sha256(self):
        """The block and the chaining value are of one party."""
        self.check_known("sha256", [768, 0, 256])

    def test_an_adder(self):
        self.check_known("add64", [64, 64, 64])

    def test_two_widths(self):
        self.check_known("add64", [128, 64])

    def test_full_adder(self):
        """The line of widths in both formats has three numbers: the next line tells them apart."""
        old, new = convert(ADDER), convert(FULL_ADDER)
        self.assertEqual(new.text.decode(), FULL_ADDER)
        self.assertEqual(old.text.decode(), FULL_ADDER.replace("3 1 1 1", "2 1 2"))

    def test_no_gates(self):
        conversion = convert("0 2\n1 1 2\n")
        for bits in itertools.product([0, 1], repeat=2):
            self.assertEqual(plain(conversion, bits), [*bits])


class Operations(unittest.TestCase):
    def test_each_operation(self):
        for operation, (rule, ands) in OPERATIONS.items():
            count = rule.__code__.co_argcount
            read = " ".join(map(str, range(count)))
            conversion = convert(text_of([count], [1], [f"{count} 1 {read} {count} {operation}"]))
            self.assertEqual(and_gates(conversion), ands, operation)
            conversion.check(10)
            for bits in itertools.product([0, 1], repeat=count):
                self.assertEqual(plain(conversion, bits), [rule(*bits)], operation)

    def test_pairs_of_mand(self):
        conversion = convert("1 9\n2 3 3\n1 3\n6 3 0 1 2 3 4 5 6 7 8 MAND\n")
        gates = "2 1 0 3 6 AND\n2 1 1 4 7 AND\n2 1 2 5 8 AND\n"
        self.assertEqual(conversion.text.decode(), f"3 9\n2 3 3\n1 3\n\n{gates}")

    def test_constants(self):
        conversion = convert("3 5\n1 2\n1 3\n1 1 1 2 EQ\n1 1 0 3 EQ\n2 1 0 2 4 OR\n")
        self.assertEqual(plain(conversion, [0, 0]), [1, 0, 1])

    def test_random_circuits(self):
        """In both formats. What was converted stays as it is."""
        for i in range(40):
            rng = Random(f"{DRAWS} operations {i}")
            lines, rules, wires = random_gates(rng, 6, rng.randrange(1, 40))
            outputs = min(wires - 6, rng.randrange(1, 9))
            for head in (f"6 {outputs}", f"2 4 {outputs}", f"2 3 3\n1 {outputs}", f"6 0 {outputs}"):
                conversion = convert("\n".join([f"{len(lines)} {wires}", head, *lines]))
                conversion.check(20)
                bits = [rng.randrange(2) for _ in range(6)]
                self.assertEqual(plain(conversion, bits), evaluate(rules, bits)[-outputs:])
                self.assertEqual(convert(conversion.text).text, conversion.text)

    def test_circuits_of_the_repository(self):
        """They are those of Bristol Fashion already, and compute the same."""
        for text in [*[it["circuit"] for it in map(load, ("and", "random_300", "width_0"))],
                     (EXAMPLES / "less8.txt").read_text().splitlines()]:
            conversion = convert("\n".join(text))
            conversion.check(20)
            with halfgates.Circuit.from_text("\n".join(text)) as circuit:
                bits = bytes(Random(DRAWS).choices([0, 1], k=sum(circuit.input_widths)))
                self.assertEqual(plain(conversion, bits), [*circuit.plain(bits)])
                self.assertEqual(and_gates(conversion), circuit.and_gates)


class Unclear(unittest.TestCase):
    def assert_unclear(self, text, said):
        with self.assertRaises(ConversionError) as raised:
            convert(text)
        self.assertEqual(str(raised.exception), said)

    def test_texts(self):
        for text, said in UNCLEAR.items():
            with self.subTest(text[:40]):
                self.assert_unclear(text, said)

    def test_other_formats(self):
        for name, (data, said) in OTHERS.items():
            with self.subTest(name):
                self.assert_unclear(data, said)

    def test_what_the_library_refuses(self):
        with mock.patch.object(module.Source, "build", lambda _: b"1 1"):
            said = "fault 1 Truncated: line 1, column 4: the text ends before the circuit does"
            self.assert_unclear(FULL_ADDER, f"what it becomes isn't read: {said}")

    def test_damaged_texts(self):
        """Whatever a text has, it is a circuit, or it is said why not."""
        rng = Random(DRAWS)
        texts = [ADDER.encode(), FULL_ADDER.encode(), "\n".join(load("random_300")["circuit"]).encode()]
        said = set()
        for _, draw in draws(600, "conversions"):
            try:
                convert(damaged_text(draw, rng.choice(texts)))
            except ConversionError as error:
                said.add(str(error))
        self.assertGreater(len(said), 50)


class Function(unittest.TestCase):
    def test_what_it_takes(self):
        data = ADDER.encode()
        for text in (ADDER, data, bytearray(data), memoryview(data), b"\xef\xbb\xbf" + data):
            self.assertEqual(convert(text).text, convert(ADDER).text)
        for other in (5, None, ["1 3"]):
            self.assertRaises(TypeError, convert, other)

    def test_a_wrong_circuit_is_found(self):
        wrong = module.read_bristol("1 3\n1 1 1\n2 1 0 1 2 OR\n")
        kind = wrong.gates[0]._replace(kind="XOR")
        conversion = module.Conversion(wrong)
        conversion.check(100)
        conversion.text = wrong._replace(gates=[kind]).build()
        with self.assertRaises(ConversionError) as raised:
            conversion.check(100)
        self.assertEqual(str(raised.exception), "what it becomes differs from it for the input 11")

    def test_more_inputs_than_a_batch(self):
        conversion = convert(ADDER)
        with mock.patch.object(module.Circuit, "plain", autospec=True, side_effect=module.Circuit.plain) as calls:
            conversion.check(600)
        self.assertEqual(calls.call_count, 600)


class Command(ProgramTest):
    def main(self, *words):
        """The status, what is printed, and what is said."""
        printed, said, status = io.StringIO(), io.StringIO(), 0
        words = [str(it) for it in words]
        with contextlib.redirect_stdout(printed), contextlib.redirect_stderr(said):
            try:
                module.main(words)
            except SystemExit as end:
                status = end.code
        if isinstance(status, str):
            return 1, printed.getvalue(), f"{status}\n"
        return status, printed.getvalue(), said.getvalue()

    def test_what_it_prints(self):
        source, made = self.folder / self.put("old.txt", ADDER), self.folder / "made.txt"
        self.assertEqual(self.main(source, made, "--check", "30"), (0, "input 0 1\ninput 1 2\noutput 0 2\n", ""))
        self.assert_prints("01\n", "plain", "made.txt", "1", "01")
        self.assertEqual(made.read_bytes(), convert(ADDER).text)

    def test_nothing_is_written_where_it_is_unclear(self):
        source, made = self.folder / self.put("bad.txt", "1 3\n"), self.folder / "made.txt"
        said = f"{source}: this is no circuit: it ends before its second line\n"
        self.assertEqual(self.main(source, made), (1, "", said))
        self.assertFalse(made.exists())

    def test_files_that_cannot_be_opened(self):
        source = self.folder / self.put("old.txt", ADDER)
        for words in ((self.folder / "none", self.folder / "made.txt"), (source, self.folder)):
            status, printed, said = self.main(*words)
            self.assertEqual((status, printed), (1, ""))
            self.assertRegex(said, r"^\[Errno \d+\] ")

    def test_memory(self):
        source = self.folder / self.put("old.txt", ADDER)
        with mock.patch.object(module, "convert", side_effect=MemoryError):
            ending = self.main(source, self.folder / "made.txt")
        self.assertEqual(ending, (1, "", f"{source}: memory ran out\n"))

    def test_usage(self):
        for words in ((), ("in",), ("in", "out", "more"), ("in", "out", "--check", "0"), ("in", "out", "--check", "x")):
            status, printed, said = self.main(*words)
            self.assertEqual((status, printed), (2, ""))
            self.assertIn("usage: python3 -m halfgates.convert", said)

    def test_help(self):
        status, printed, _ = self.main("--help")
        self.assertEqual(status, 0)
        self.assertIn("--check N", printed)


if __name__ == "__main__":
    unittest.main()
