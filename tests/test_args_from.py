"""Arguments from files, `--args-from FILE`, and `help COMMAND`."""
import re
import subprocess
import unittest

from program import FULL_ADDER, PROGRAM, SEED, XOR, ProgramTest

WIRES = 600_000

# A circuit without gates whose input value is its output value, too wide for a word of a command line.
WIDE = f"0 {WIRES}\n1 {WIRES}\n1 {WIRES}\n"

NO_FILE = (
    "error: a value is required for '--args-from <FILE>' but none was supplied\n"
    "\nFor more information, try '--help'.\n"
)


class ArgsFrom(ProgramTest):
    def setUp(self):
        super().setUp()
        self.put("c.txt", FULL_ADDER)

    def run_on(self, text, *words):
        """The ending of a run whose standard input is this text."""
        words = [PROGRAM, *map(str, words)]
        done = subprocess.run(
            words, cwd=self.folder, input=text.encode(), capture_output=True, timeout=120, check=False
        )
        return done.returncode, done.stdout.decode(), done.stderr.decode()

    def test_lines_of_standard_input(self):
        for text in f"{SEED}\n1\n0\n1\n", f"{SEED}\n1\n0\n1":
            for option in ["--args-from", "/dev/stdin"], ["--args-from=/dev/stdin"]:
                self.assertEqual(self.run_on(text, "run", "c.txt", *option), (0, "01\n", ""))

    def test_lines_of_files_in_the_place_of_the_option(self):
        self.put("order", "run\nc.txt")
        self.put("seed", f"{SEED}\n")
        self.put("values", "0\n1\n")
        self.assert_prints("01\n", "--args-from", "order", "--args-from=seed", "1", "--args-from", "values")
        self.assert_prints("01\n", "--args-from=order", SEED, "--args-from=values", "1")

    def test_two_parties(self):
        """What the garbler and the evaluator of the README write."""
        self.put("x.txt", XOR)
        self.put("seed.txt", SEED + "\n")
        ending = self.run_on(SEED + "\n", "garble", "x.txt", "--args-from", "/dev/stdin", "x.garbled")
        self.assertEqual(ending, (0, "wrote 113\n", ""))
        self.assert_prints("wrote 32\n", "deal", "x.txt", "--args-from", "seed.txt", "0", "1", "a.labels")
        self.assert_prints("wrote 32\n", "deal", "x.txt", "--args-from=seed.txt", "1", "0", "b.labels")
        self.assert_prints("1\n", "eval", "x.txt", "x.garbled", "a.labels", "b.labels")

    def test_a_value_that_no_command_line_holds(self):
        value = "".join("01"[i % 7 == 0] for i in range(WIRES))
        self.put("wide.txt", WIDE)
        self.put("value", value)
        self.assert_prints(value + "\n", "plain", "wide.txt", "--args-from", "value")

    def test_files_that_stand_for_no_arguments(self):
        self.put("bytes", b"1\n\xff\n")
        for name in "bytes", "nofile", ".", "":
            self.assert_fault("50 CannotRead", "plain", "c.txt", f"--args-from={name}")
            self.assert_fault("50 CannotRead", "--help", "--args-from", name)
        self.assert_ends((2, "", NO_FILE), "plain", "c.txt", "--args-from")

    def test_help_of_a_command(self):
        """`help COMMAND` is what `COMMAND --help` is, for each command and for none."""
        _, text, _ = self.run_program("--help")
        names = re.findall(r"^  (\w+) {2,}", text, re.M)
        self.assertEqual(len(names), 12)
        for words in [], *([name] for name in names):
            expected = self.run_program(*words, "--help")
            self.assertEqual(expected[0], 0)
            self.assert_ends(expected, "help", *words)
        self.assert_usage("help", "walk")
        self.put("help", "help\nrun\n")
        self.assert_ends(self.run_program("run", "--help"), "--args-from", "help")

    def test_lines_as_they_are(self):
        self.put("crlf", "1\r\n0\r\n1\r\n")
        self.put("blank", "1\n\n0\n1\n")
        self.put("again", "--args-from\ncrlf\n")
        self.assert_fault("16 WrongLength", "plain", "c.txt", "--args-from", "crlf")
        self.assert_fault("14 WrongCount", "plain", "c.txt", "--args-from", "blank")
        self.assert_usage("plain", "c.txt", "--args-from", "again")
        self.assert_fault("16 WrongLength", "plain", "c.txt", "1", "0", "--", "--args-from=crlf")
        self.assert_fault("14 WrongCount", "plain", "c.txt", "--", "--args-from", "crlf")

    def test_options_and_mistakes_in_files(self):
        """They are those of a command line without files."""
        self.put("list", "g a b")
        self.put("explained", "list\n--explain")
        fault = "halfgates: fault 2 BadNumber\n"
        line = "halfgates: list:1:1: expected a number from 0 to 4294967295\n"
        self.assert_ends((1, "", fault + line), "check", "--args-from=explained")
        self.put("two", "0\n1")
        self.assert_usage("check", "0", "1")
        self.assert_ends(self.run_program("check", "0", "1"), "check", "--args-from", "two")


if __name__ == "__main__":
    unittest.main()
