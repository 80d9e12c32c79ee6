"""The words of the command line: help, orders, and words that are no order."""
import re
import subprocess
import sys
import unittest

from program import FULL_ADDER, PROGRAM, SEED, TOP, XOR, ProgramTest

RUN_HELP = """\
Garbles a circuit and evaluates the garbled circuit on the given values

Usage: halfgates run [OPTIONS] <CIRCUIT> <SEED> [VALUES]...

Arguments:
  <CIRCUIT>    The file of the circuit, in Bristol Fashion
  <SEED>       The seed of the garbling: 64 hexadecimal digits
  [VALUES]...  A value for each input value of the circuit: a character 0 or 1 for each wire, in \
wire order, or x and two hexadecimal digits for each 8 wires, of which the first wire is the \
lowest bit

Options:
      --explain            After the line of a fault, print a second one that says where the fault is \
and what is wrong; always on where standard error is a terminal
      --workers <WORKERS>  How many threads may garble or evaluate, from 1 to 64; the result is the same \
[default: 1]
      --hex                Print output values as x and two hexadecimal digits for each 8 wires, of \
which the first wire is the lowest bit
  -h, --help               Print help

Prints the output values, one per line: a character 0 or 1 for each wire, in wire order, or with \
--hex in hexadecimal, as values may be given.

Example, with a full adder in adder.txt that reads three bits:
  halfgates run adder.txt 0000000000000000000000000000000000000000000000000000000000000000 1 0 1

With `--args-from FILE` the lines of FILE are arguments: see `halfgates --help`.
"""

HELP = """\
Garbles Boolean circuits and evaluates garbled circuits

Usage: halfgates <COMMAND>

Commands:
  run     Garbles a circuit and evaluates the garbled circuit on the given values
  plain   Evaluates a circuit on the given values, without garbling
  check   Prints the size and the digest of a circuit
  locate  Prints where the first fault of a circuit's text is
  stats   Prints the gates, the depths and the file sizes of a circuit
  order   Writes a circuit with its gates in order of AND depth into a file
  garble  Garbles a circuit into a file
  deal    Writes the labels of an input value into a file
  eval    Evaluates a garbled circuit, from a garbled file and label files
  jobs    Evaluates a list of garbled files of one circuit
  labels  Prints the labels and the bits of a circuit's wires for the given values
  audit   Says whether a garbled file and label files are those of a circuit and a seed

Options:
  -h, --help     Print help
  -V, --version  Print version

With `--args-from FILE`, anywhere before `--`, each line of FILE is an argument in its place. FILE \
may be /dev/stdin. Other users of the machine can see a command line, but not these lines.

`halfgates help COMMAND` prints what `halfgates COMMAND --help` prints.

Example, with the seed in seed.txt:
  halfgates garble adder.txt --args-from seed.txt adder.garbled
"""

TRY_HELP = "\nFor more information, try '--help'.\n"


def missing(word, usage):
    """What is printed where a required word is missing."""
    return (
        "error: the following required arguments were not provided:\n"
        f"  <{word}>\n\nUsage: halfgates {usage}\n{TRY_HELP}"
    )


def one_more(usage):
    """What is printed where a word `1` follows the last one."""
    return f"error: unexpected argument '1' found\n\nUsage: halfgates {usage}\n{TRY_HELP}"


# Words that are no order, and what standard error says.
NO_ORDERS = [
    ([], HELP),
    (
        ["walk"],
        "error: unrecognized subcommand 'walk'\n\nUsage: halfgates <COMMAND>\n" + TRY_HELP,
    ),
    (["run", "c.txt"], missing("SEED", "run <CIRCUIT> <SEED> [VALUES]...")),
    (["plain"], missing("CIRCUIT", "plain <CIRCUIT> [VALUES]...")),
    (
        ["run", "c.txt", SEED, "--walk"],
        "error: unexpected argument '--walk' found\n\n"
        "  tip: to pass '--walk' as a value, use '-- --walk'\n\n"
        "Usage: halfgates run <CIRCUIT> <SEED> [VALUES]...\n" + TRY_HELP,
    ),
    (["check", "c.txt", "1"], one_more("check [OPTIONS] <CIRCUIT>")),
    (["locate", "c.txt", "1"], one_more("locate [OPTIONS] <CIRCUIT>")),
    (["stats", "c.txt", "1"], one_more("stats [OPTIONS] <CIRCUIT>")),
    (["order", "c.txt", "out", "1"], one_more("order [OPTIONS] <CIRCUIT> <OUT>")),
    (["order", "c.txt"], missing("OUT", "order <CIRCUIT> <OUT>")),
    (["locate"], missing("CIRCUIT", "locate <CIRCUIT>")),
    (["stats"], missing("CIRCUIT", "stats <CIRCUIT>")),
    (["labels", "c.txt"], missing("SEED", "labels <CIRCUIT> <SEED> [VALUES]...")),
    (
        ["audit", "c.txt", SEED],
        missing("GARBLED", "audit <CIRCUIT> <SEED> <GARBLED> [LABELS]..."),
    ),
]


def documented_commands():
    """The words of each command in the table of docs/COMMANDS.md: the names of its arguments, in
    order, and its options, of which `--explain` is one of every command."""
    rows = re.findall(r"^\| `(\w+) (CIRCUIT[^`]*)` \|", (TOP / "docs/COMMANDS.md").read_text(), re.M)
    return {name: (re.sub(r"\[.*?\] ?|\.\.", "", words).split(), ["--explain", *re.findall(r"--\w+", words)])
            for name, words in rows}


def help_terms(text):
    """The arguments and options that a command's help explains, in order."""
    return re.findall(r"^ +((?:<|\[|-)\S+(?: \S+)*)(?: {2,}|$)", text, re.M)


def help_words(text):
    """The words of a command by its help: the names of its arguments, and its options."""
    usage = re.search(r"^Usage: halfgates \w+ (.*)$", text, re.M)[1].split()
    arguments = [term for term in help_terms(text) if not term.startswith("-")]
    values = [term.split() for term in help_terms(text) if term.startswith("--")]
    options = [option for option, *_ in values]
    # The value of an option that has one has its name.
    assert all(value in ([], [f"<{option[2:].upper()}>"]) for option, *value in values), text
    # The line of usage and the explanations name the same words.
    assert [word for word in usage if word != "[OPTIONS]"] == arguments, text
    assert ("[OPTIONS]" in usage) == bool(options), text
    return [term.strip("<>[].") for term in arguments], options


def example_of(text):
    """The words of the example in a command's help, without the program's name."""
    example = text.split("\nExample", 1)[1].split("\n\n", 1)[0]
    [line] = example.splitlines()[1:]
    assert line.startswith("  halfgates "), line
    return line.split()[1:]


# The commands whose examples write what those of the others read.
WRITERS = "garble", "deal"

NO_NUMBERS = "", "x", "-1", "1.5", "0x1", "1 ", "4294967296", "18446744073709551616", 40 * "9"


class CommandLine(ProgramTest):
    def setUp(self):
        super().setUp()
        self.put("c.txt", XOR)

    def test_help_and_version(self):
        for words, text in [
            (["--help"], HELP),
            (["-h"], HELP),
            (["run", "--help"], RUN_HELP),
            (["--version"], "halfgates 0.9.9\n"),
            (["-V"], "halfgates 0.9.9\n"),
        ]:
            self.assert_prints(text, *words)

    def test_help_names_the_words_as_the_documents_do(self):
        commands = documented_commands()
        _, program_help, _ = self.run_program("--help")
        self.assertEqual(sorted(commands), sorted(re.findall(r"^  (\w+) {2,}", program_help, re.M)))
        for name, words in commands.items():
            _, text, _ = self.run_program(name, "--help")
            self.assertEqual(help_words(text), words, name)

    def test_help_has_an_example_of_its_words(self):
        """Each example succeeds, over what those of `garble` and `deal` write."""
        self.put("adder.txt", FULL_ADDER)
        self.put("list.txt", "adder.garbled first.labels second.labels third.labels")
        names = sorted(documented_commands(), key=lambda name: name not in WRITERS)
        for name in names:
            _, text, _ = self.run_program(name, "--help")
            words = example_of(text)
            self.assertEqual(words[0], name)
            status, _, errors = self.run_program(*words)
            self.assertEqual((status, errors), (0, ""), words)
            if name == "deal":
                for index, value, file in (1, 0, "second.labels"), (2, 1, "third.labels"):
                    self.run_program(*words[:3], index, value, file)

    def test_the_manual_names_the_words_as_help_does(self):
        """The page of the last release, and the one that the script makes of the program under test."""
        self.assert_page_names_words((TOP / "dist/halfgates.1").read_text(), TOP / "dist/halfgates")
        words = [sys.executable, TOP / "scripts/manual.py", PROGRAM]
        page = subprocess.run(words, capture_output=True, text=True, check=True).stdout
        self.assert_page_names_words(page, PROGRAM)

    def assert_page_names_words(self, page, program):
        def said(*words):
            return subprocess.run([program, *words], capture_output=True, text=True, check=True).stdout

        sections = re.findall(r"^\.SS halfgates (\w+) (.*\n(?:(?!\.S[SH]).*\n)*)", page, re.M)
        self.assertEqual([name for name, _ in sections], re.findall(r"^  (\w+) {2,}", said("--help"), re.M))
        for name, section in sections:
            usage, *lines = section.replace("\\-", "-").splitlines()
            terms = [line.removeprefix(".B ") for line in lines if line.startswith(".B ")]
            text = said(name, "--help")
            self.assertIn(f"Usage: halfgates {name} {usage}\n", text)
            self.assertEqual(terms, [term for term in help_terms(text) if "--help" not in term])

    def test_the_manual_has_each_status(self):
        page = (TOP / "dist/halfgates.1").read_text().partition(".SH EXIT STATUS\n")[2]
        said = dict(re.findall(r"^\.TP\n\.B (\d+)\n(.*)$", page, re.M))
        words = {"0": "succeeded", "1": "fault", "2": "command line", "3": "audit"}
        self.assertEqual({*said}, {*words})
        for status, word in words.items():
            self.assertIn(word, said[status])

    def test_words_that_are_no_order(self):
        for words, errors in NO_ORDERS:
            self.assertEqual(self.run_program(*words), (2, "", errors))

    def test_numbers_that_are_none(self):
        for number in NO_NUMBERS:
            for words in [
                ("run", "c.txt", SEED, "1", "1", f"--workers={number}"),
                ("garble", "c.txt", SEED, "g", f"--workers={number}"),
                ("eval", "c.txt", "g", f"--workers={number}"),
                ("jobs", "c.txt", "list", f"--workers={number}"),
                ("garble", "c.txt", SEED, "g", f"--format={number}"),
                ("deal", "c.txt", SEED, "--", number, "1", "l"),
                ("labels", "c.txt", SEED, f"--from={number}", "1", "1"),
                ("labels", "c.txt", SEED, f"--count={number}", "1", "1"),
            ]:
                self.assert_usage(*words)

    def test_formats_that_are_none(self):
        for version in "0", "3", "12":
            self.assert_usage("garble", "c.txt", SEED, "g", "--format", version)

    def test_a_word_that_is_not_utf_8(self):
        errors = "error: the command line can't be read: a word is not UTF-8\n"
        self.assertEqual(self.run_program("check", b"\xff"), (2, "", errors))

    def test_words_that_look_like_options(self):
        self.put("-c", FULL_ADDER)
        self.assert_prints("01\n", "run", "--", "-c", SEED, "1", "x00", "1")
        self.assert_prints("0\n", "plain", "c.txt", "1", "--", "1")
        self.assert_fault("16 WrongLength", "plain", "c.txt", "1", "--", "--")
        self.assert_prints("no fault\n", "locate", "--", "-c")

    def test_options_between_words(self):
        self.assert_prints("wrote 113\n", "garble", "--format", "2", "c.txt", SEED, "g")
        self.assert_prints("wrote 32\n", "deal", "c.txt", SEED, "0", "1", "a")
        self.assert_prints("wrote 32\n", "deal", "c.txt", SEED, "1", "0", "b")
        self.assert_prints("1\n", "eval", "c.txt", "g", "--workers", "2", "b", "a")
        self.put("list", "g a b")
        self.assert_prints("1\n\n", "jobs", "--workers", "64", "c.txt", "list")


if __name__ == "__main__":
    unittest.main()
