"""The circuits of examples/make_circuits.py: what they compute, by the program, and their files."""
import hashlib
import itertools
import json
import random
import shutil
import unittest

from program import EXAMPLES, SEED, ProgramTest, script, text_of_lines

from circuits import aes
from circuits.builder import Builder

# By circuit, input values and the output values: published ones, and those of numbers at the edges.
ANSWERS = json.loads((EXAMPLES / "answers.json").read_text())

# The gates of each circuit, and the AND gates among them.
SIZES = {
    "full_adder": (5, 1),
    "add64": (314, 63),
    "less8": (33, 8),
    "less64": (257, 64),
    "mul32": (5889, 2016),
    "mul64": (24065, 8128),
    "sort8x8": (1140, 285),
    "aes128": (29992, 6400),
    "sha256": (116269, 22573),
}

# Words that name no circuit, or too few or wrong numbers for one.
BAD_WORDS = [
    ["aes", "none"],
    ["aes128"],
    ["aes128", "none", "--times", "0"],
    ["chains", "2", "none"],
    ["chains", "2", "-1", "none"],
]


def bits(value):
    """A value as the program prints it, a character for each wire."""
    if not value.startswith("x"):
        return value
    return "".join(f"{byte:08b}"[::-1] for byte in bytes.fromhex(value[1:]))


def typed(numbers):
    """Numbers of 8 bits as values of the command line."""
    return [f"x{number:02x}" for number in numbers]


class CircuitTest(ProgramTest):
    def put_circuit(self, name, circuit, times):
        """Writes a circuit by its builder."""
        with (self.folder / name).open("w") as file:
            circuit.write(file, times)

    def assert_answers(self, name, inputs, outputs):
        """The circuit has these outputs: in the plain, and garbled."""
        printed = text_of_lines(map(bits, outputs))
        self.assert_prints(printed, "plain", name, *inputs)
        self.assert_prints(printed, "run", name, SEED, *inputs)


class Answers(CircuitTest):
    def test_answers(self):
        self.assertEqual(ANSWERS.keys(), SIZES.keys())
        for name, answers in ANSWERS.items():
            self.make(name)
            for answer in answers:
                with self.subTest(circuit=name, answer=answer["name"]):
                    self.assert_answers(name, answer["inputs"], answer["outputs"])

    def test_each_copy_answers_for_itself(self):
        for name in ("aes128", "less8", "sort8x8"):
            with self.subTest(circuit=name):
                answers = ANSWERS[name]
                self.make(name, "--times", len(answers))
                inputs = [value for answer in answers for value in answer["inputs"]]
                outputs = [value for answer in answers for value in answer["outputs"]]
                self.assert_answers(name, inputs, outputs)

    def test_sha256_of_two_blocks(self):
        message = b"abcdbcdecdefdefgefghfghighijhijkijkljklmklmnlmnomnopnopq"
        padded = message + b"\x80" + bytes(63) + (8 * len(message)).to_bytes(8, "big")
        self.make("sha256")
        _, chaining = ANSWERS["sha256"][0]["inputs"]
        for block in (padded[:64], padded[64:]):
            status, printed, _ = self.run_program("plain", "sha256", f"x{block.hex()}", chaining)
            self.assertEqual(status, 0)
            chaining = printed.rstrip("\n")
        self.assertEqual(chaining, bits(f"x{hashlib.sha256(message).hexdigest()}"))

    def test_s_box_of_all_bytes(self):
        circuit = Builder(8)
        circuit.output(aes.s_box(circuit, *circuit.inputs))
        self.put_circuit("s_box", circuit, times=256)
        self.assert_answers("s_box", typed(range(256)), typed(map(s_box, range(256))))

    def test_sort_of_all_zeros_and_ones(self):
        """By the 0-1 principle, a network that sorts these sorts all numbers."""
        self.assert_sorts(list(itertools.product([0x00, 0xFF], repeat=8)))

    def test_sort_of_random_numbers(self):
        rng = random.Random(1)
        self.assert_sorts([rng.choices(range(bound), k=8) for bound in 16 * [2, 4, 16, 256]])

    def assert_sorts(self, lists):
        """Sorts lists, 32 at once."""
        self.make("sort8x8", "--times", 32)
        for start in range(0, len(lists), 32):
            some = lists[start : start + 32]
            inputs = itertools.chain.from_iterable(some)
            outputs = itertools.chain.from_iterable(map(sorted, some))
            self.assert_answers("sort8x8", typed(inputs), typed(outputs))


class Files(CircuitTest):
    def test_sizes(self):
        for name, (gates, ands) in SIZES.items():
            with self.subTest(circuit=name):
                self.make(name)
                _, printed, _ = self.run_program("check", name)
                numbers = dict(line.split(" ", 1) for line in printed.splitlines())
                self.assertEqual((numbers["gates"], numbers["and"]), (str(gates), str(ands)))

    def test_chains_stand_one_after_another(self):
        self.make("chains", 2, 3)
        gates = [(0, 2, 4), (4, 2, 5), (5, 2, 8), (1, 3, 6), (6, 3, 7), (7, 3, 9)]
        lines = [f"2 1 {a} {b} {wire} AND\n" for a, b, wire in gates]
        self.assertEqual(self.bytes_of("chains").decode(), f"6 10\n2 2 2\n1 2\n\n{''.join(lines)}")
        for a, b in itertools.product(range(4), repeat=2):
            with self.subTest(a=a, b=b):
                self.assert_answers("chains", [f"{a:02b}", f"{b:02b}"], [f"{a & b:02b}"])

    def test_outputs_that_are_copied(self):
        circuit = Builder(2)
        [[a, b]] = circuit.inputs
        both = circuit.and_(a, b)
        circuit.output([both, a, both], [both])
        self.put_circuit("copied", circuit, times=2)
        self.assert_answers("copied", ["10", "11"], ["010", "0", "111", "1"])

    def test_files_beside_the_script(self):
        names = ["full_adder.txt", "adder64.txt", "less8.txt"]
        copy = self.folder / "examples"
        shutil.copytree(EXAMPLES, copy, ignore=lambda *_: names)
        self.assertEqual(script(folder=copy), 0)
        for name in names:
            with self.subTest(file=name):
                self.assertEqual((copy / name).read_bytes(), (EXAMPLES / name).read_bytes())

    def test_words(self):
        self.assertEqual(script("-h"), 0)
        for words in BAD_WORDS:
            with self.subTest(words=words):
                self.assertEqual(script(*words, cwd=self.folder), 2)
                self.assertEqual([*self.folder.iterdir()], [])


def s_box(byte):
    """SBOX(), by its definition (FIPS 197, section 5.1.1)."""
    inverse = next((x for x in range(256) if product(byte, x) == 1), 0)
    turned = [inverse << i | inverse >> (8 - i) for i in range(5)]
    return (turned[0] ^ turned[1] ^ turned[2] ^ turned[3] ^ turned[4] ^ 0x63) & 0xFF


def product(a, b):
    """The product in GF(2^8), modulo x^8 + x^4 + x^3 + x + 1."""
    total = 0
    for i in range(8):
        total ^= a * (b >> i & 1)
        a = a << 1 ^ 0x11B * (a >> 7)
    return total


if __name__ == "__main__":
    unittest.main()
