"""Files and values of sizes that no other test has: no reader says that memory ran out. And `jobs`, which reads garbled
files by their digests, beside `eval`, which reads them in pieces.

    python3 tests/test_reading.py
"""
import unittest
from hashlib import sha256

from inputs import many_ands
from program import AND, SEED, ProgramTest, prints, sealed, text_of_lines

import bristol

# AND gates, each of which sets an output wire. Whole bytes have more bits.
GATES = 150_001

# Wires of a value. Whole bytes have as many bits.
WIRES = 1_100_000

# A circuit without gates whose input value is its output value.
WIDE = f"0 {WIRES}\n1 {WIRES}\n1 {WIRES}\n"


def bits_of(count, step):
    """Bits, of which every `step`-th is 1."""
    return [int(i % step == 0) for i in range(count)]


def digits(bits):
    return "".join(map(str, bits))


class Large(ProgramTest):
    def put_values(self, *texts):
        """Writes values to a file, since no command line holds them, and returns the words that stand for them."""
        self.put("values", text_of_lines(texts))
        return "--args-from", "values"

    def deal(self, name, index, text):
        """Writes the label file of a value."""
        words = "deal", "c.txt", SEED, index, *self.put_values(text), name
        self.assert_prints(f"wrote {16 + 16 * len(text)}\n", *words)

    def test_garbled_files(self):
        """Their digests are those of hashlib: of the circuit's text, of a file in pieces, and of files side by side."""
        text = many_ands(GATES)
        self.put("c.txt", text)
        values = bits_of(GATES, 2), bits_of(GATES, 3)
        outputs = text_of_lines([digits(a & b for a, b in zip(*values))])
        texts = [digits(it) for it in values]
        self.assert_prints(outputs, "run", "c.txt", SEED, *self.put_values(*texts))
        for index, it in enumerate(texts):
            self.deal(f"l{index}", index, it)
        for version, size in ("1", 0), ("2", 32 * GATES):
            size += 48 + 32 * GATES + (GATES + 7) // 8 + 32
            self.assert_prints(f"wrote {size}\n", "garble", "c.txt", SEED, f"g{version}", "--format", version)
            file = self.bytes_of(f"g{version}")
            self.assertTrue(file[8:40] == sha256(text.encode()).digest() and file == sealed(file[:-32]))
            self.assert_prints(outputs, "eval", "c.txt", f"g{version}", "l0", "l1")
        names = "21221112211"
        self.put("list", text_of_lines(f"g{it} l0 l1" for it in names))
        self.assert_prints((outputs + "\n") * len(names), "jobs", "c.txt", "list")

    def test_values(self):
        """In both forms of a text, and as labels."""
        self.put("c.txt", WIDE)
        bits = bits_of(WIRES, 3)
        text, hexadecimal = digits(bits), "x" + bristol.pack(bits).hex()
        binary = prints(text_of_lines([text]))
        for words in ("plain", "c.txt"), ("run", "c.txt", SEED):
            self.assert_ends(binary, *words, *self.put_values(text))
            self.assert_ends(binary, *words, *self.put_values(hexadecimal))
            self.assert_prints(text_of_lines([hexadecimal]), *words, "--hex", *self.put_values(text))
        self.deal("l", 0, text)
        self.assert_prints(f"wrote {80 + WIRES // 8 + 32 * WIRES}\n", "garble", "c.txt", SEED, "g")
        self.assert_ends(binary, "eval", "c.txt", "g", "l")


class ByTheDigest(ProgramTest):
    def setUp(self):
        super().setUp()
        self.put("c.txt", AND)
        for index in range(2):
            self.assert_prints("wrote 32\n", "deal", "c.txt", SEED, index, "1", f"l{index}")
        self.put("list", "g l0 l1")

    def files(self):
        """A file of each version, its beginnings, what is longer, and a bit of each byte flipped, also with a trailer
        that is right again."""
        for version in "12":
            self.run_program("garble", "c.txt", SEED, "g", "--format", version)
            file = self.bytes_of("g")
            for place, byte in enumerate(file):
                changed = file[:place] + bytes([byte ^ 1 << place % 8]) + file[place + 1:]
                yield from (file[:place], changed)
                if place < len(file) - 32:
                    yield sealed(changed[:-32])
            for more in 0, 1, 40:
                yield file + bytes(more)

    def test_jobs_as_eval(self):
        for file in self.files():
            self.put("g", file)
            status, printed, errors = self.run_program("eval", "c.txt", "g", "l0", "l1")
            ending = status, printed and printed + "\n", errors
            self.assertEqual(self.run_program("jobs", "c.txt", "list"), ending, file.hex())


if __name__ == "__main__":
    unittest.main()
