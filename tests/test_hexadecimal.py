"""`--hex`: output values as texts that are read as values again."""
import unittest

from inputs import draws
from program import FULL_ADDER, SEED, WIDE, ProgramTest, prints, text_of_lines

import bristol

# Commands over the full adder, with the outputs in both forms.
ADDER_VALUES = "1", "0", "1"


def identity(width):
    """A circuit whose output values are its input values: one of this width, and one of a wire."""
    return f"0 {width + 1}\n2 {width} 1\n2 {width} 1"


class Hexadecimal(ProgramTest):
    def test_each_width(self):
        """What is printed is read back, and is the bits in bytes, the first of each lowest."""
        for width in *range(1, 20), 64, 131:
            self.put("c.txt", identity(width))
            for name, draw in draws(3, f"hex {width}"):
                bits = [draw.below(2) for _ in range(width)]
                text = "x" + bristol.pack(bits).hex()
                digits = "".join(map(str, bits))
                hexadecimal = prints(text_of_lines([text, "x01"]))
                with self.subTest(name):
                    for command in ("plain", "c.txt"), ("run", "c.txt", SEED):
                        self.assert_ends(hexadecimal, *command, "--hex", digits, "1")
                        self.assert_ends(hexadecimal, *command, text, "x01", "--hex")
                        self.assert_prints(text_of_lines([digits, "1"]), *command, text, "1")

    def test_a_value_without_wires(self):
        self.put("c.txt", "0 1\n2 0 1\n2 0 1")
        self.assert_prints("x\nx01\n", "plain", "c.txt", "--hex", "", "1")
        self.assert_prints("\n1\n", "plain", "c.txt", "x", "1")

    def test_spare_bits_are_zero(self):
        self.put("c.txt", WIDE)
        self.assert_prints("x01\nxff0f\n", "plain", "c.txt", "--hex", "xff0f")

    def test_files(self):
        self.put("c.txt", FULL_ADDER)
        self.run_program("garble", "c.txt", SEED, "g")
        for index, value in enumerate(ADDER_VALUES):
            self.run_program("deal", "c.txt", SEED, index, value, f"l{index}")
        self.put("list", "g l0 l1 l2\n" * 2)
        for workers in "1", "2":
            self.assert_prints("x02\n", "eval", "c.txt", "g", "--hex", "l0", "l1", "l2", "--workers", workers)
            self.assert_prints("x02\n\nx02\n\n", "jobs", "c.txt", "list", "--workers", workers, "--hex")
        self.assert_prints("01\n", "eval", "c.txt", "g", "l0", "l1", "l2")

    def test_commands_without_output_values(self):
        self.put("c.txt", FULL_ADDER)
        for command in ("check", "c.txt"), ("garble", "c.txt", SEED, "g"), ("stats", "c.txt"):
            self.assert_usage(*command, "--hex")


if __name__ == "__main__":
    unittest.main()
