"""Which fault comes first where two words of a command are bad."""
import unittest
from itertools import combinations
from typing import NamedTuple

from program import AND, SEED, XOR, ProgramTest, fails, label_file, sealed

# Words that clap refuses, before any file is read.
USAGE = None


class Bad(NamedTuple):
    """A bad word of a command, and its fault."""

    word: str
    text: str
    fault: str


# The words of each command in their order, each with a good text. `VALUES` and `LABELS` are several
# words, with spaces between them.
WORDS = {
    "run": {"CIRCUIT": "c.txt", "SEED": SEED, "VALUES": "1 0", "--workers": "2"},
    "plain": {"CIRCUIT": "c.txt", "VALUES": "1 0"},
    "check": {"CIRCUIT": "c.txt"},
    "garble": {"CIRCUIT": "c.txt", "SEED": SEED, "OUT": "g", "--format": "2", "--workers": "2"},
    "deal": {"CIRCUIT": "c.txt", "SEED": SEED, "INDEX": "1", "VALUE": "1", "OUT": "l"},
    "eval": {"CIRCUIT": "c.txt", "GARBLED": "garbled", "LABELS": "a b", "--workers": "2"},
    "jobs": {"CIRCUIT": "c.txt", "LIST": "list", "--workers": "2"},
    "locate": {"CIRCUIT": "c.txt"},
    "stats": {"CIRCUIT": "c.txt"},
    "order": {"CIRCUIT": "c.txt", "OUT": "g"},
    "labels": {
        "CIRCUIT": "c.txt",
        "SEED": SEED,
        "VALUES": "1 0",
        "--from": "1",
        "--count": "1",
    },
    "audit": {
        "CIRCUIT": "c.txt",
        "SEED": SEED,
        "GARBLED": "garbled",
        "LABELS": "a b",
    },
}

CIRCUIT_FAULTS = [
    Bad("CIRCUIT", "no_file", "50 CannotRead"),
    Bad("CIRCUIT", "empty", "1 Truncated"),
    Bad("CIRCUIT", "nand.txt", "5 UnknownOperation"),
]
SEED_FAULTS = [
    Bad("SEED", "0", "18 BadSeed"),
    Bad("SEED", 63 * "0" + "g", "18 BadSeed"),
]
VALUES_FAULTS = [
    Bad("VALUES", "1", "14 WrongCount"),
    Bad("VALUES", "1 2", "15 BadDigit"),
    Bad("VALUES", "11 1", "16 WrongLength"),
    Bad("VALUES", "1 x02", "17 SpareBits"),
]
WORKERS_FAULTS = [
    Bad("--workers", "0", "22 BadWorkers"),
    Bad("--workers", "65", "22 BadWorkers"),
]
NO_WORKERS = Bad("--workers", "x", USAGE)
OUT_FAULTS = [Bad("OUT", "no_folder/out", "51 CannotWrite")]
FILE_FAULTS = [
    Bad("GARBLED", "no_file", "50 CannotRead"),
    Bad("GARBLED", "c.txt", "30 BadMagic"),
    Bad("GARBLED", "empty", "31 Truncated"),
    Bad("GARBLED", "longer", "32 Trailing"),
    Bad("GARBLED", "bad_trailer", "35 BadTrailer"),
    Bad("LABELS", "a no_file", "50 CannotRead"),
    Bad("LABELS", "c.txt b", "30 BadMagic"),
    Bad("LABELS", "empty b", "31 Truncated"),
    Bad("LABELS", "a longer_labels", "32 Trailing"),
]

# The faults of each command, in the order of its work.
FAULTS = {
    "run": [NO_WORKERS, *CIRCUIT_FAULTS, *SEED_FAULTS, *VALUES_FAULTS, *WORKERS_FAULTS],
    "plain": [*CIRCUIT_FAULTS, *VALUES_FAULTS],
    "check": CIRCUIT_FAULTS,
    "garble": [
        Bad("--format", "3", USAGE),
        NO_WORKERS,
        *CIRCUIT_FAULTS,
        *SEED_FAULTS,
        *WORKERS_FAULTS,
        *OUT_FAULTS,
    ],
    "deal": [
        Bad("INDEX", "x", USAGE),
        *CIRCUIT_FAULTS,
        *SEED_FAULTS,
        Bad("INDEX", "2", "42 NoSuchValue"),
        Bad("VALUE", "2", "15 BadDigit"),
        Bad("VALUE", "11", "16 WrongLength"),
        Bad("VALUE", "x02", "17 SpareBits"),
        *OUT_FAULTS,
    ],
    "eval": [
        NO_WORKERS,
        *CIRCUIT_FAULTS,
        *FILE_FAULTS,
        # What binding finds. The first of these is of another circuit.
        Bad("GARBLED", "other_garbled", "40 OtherCircuit"),
        Bad("GARBLED", "other_counts", "41 OtherCounts"),
        Bad("LABELS", "a no_such_value", "42 NoSuchValue"),
        Bad("LABELS", "wide b", "43 WrongWidth"),
        Bad("LABELS", "a a", "44 DoubleValue"),
        Bad("LABELS", "a", "45 MissingValue"),
        *WORKERS_FAULTS,
        Bad("LABELS", "a nobodys", "48 UnknownOutputLabel"),
    ],
    "jobs": [
        NO_WORKERS,
        *CIRCUIT_FAULTS,
        Bad("LIST", "no_file", "50 CannotRead"),
        Bad("LIST", "no_text", "53 BadList"),
        Bad("LIST", "list_of_no_file", "50 CannotRead"),
        Bad("LIST", "list_of_no_garbled", "30 BadMagic"),
        Bad("LIST", "list_of_no_labels", "31 Truncated"),
        Bad("LIST", "list_of_other_garbled", "40 OtherCircuit"),
        Bad("LIST", "list_of_one_label", "45 MissingValue"),
        *WORKERS_FAULTS,
        Bad("LIST", "list_of_nobodys", "48 UnknownOutputLabel"),
    ],
    # What is wrong with a circuit is what it prints.
    "locate": [Bad("CIRCUIT", "no_file", "50 CannotRead")],
    "stats": CIRCUIT_FAULTS,
    "order": [*CIRCUIT_FAULTS, *OUT_FAULTS],
    "labels": [
        Bad("--from", "x", USAGE),
        Bad("--count", "1.5", USAGE),
        *CIRCUIT_FAULTS,
        *SEED_FAULTS,
        *VALUES_FAULTS,
    ],
    # It binds nothing: the faults of binding never come.
    "audit": [*CIRCUIT_FAULTS, *SEED_FAULTS, *FILE_FAULTS],
}

NOBODYS_LABEL = bytes(16)
FILES = {
    "c.txt": XOR,
    "other.txt": AND,
    "nand.txt": XOR.replace("XOR", "NAND"),
    "empty": "",
    "no_such_value": label_file(2, NOBODYS_LABEL),
    "wide": label_file(0, NOBODYS_LABEL, NOBODYS_LABEL),
    "longer_labels": label_file(1, NOBODYS_LABEL) + b"\0",
    "nobodys": label_file(1, NOBODYS_LABEL),
    "list": "garbled a b",
    "no_text": b"garbled a b\n\xff",
    "list_of_no_file": "garbled a no_file",
    "list_of_no_garbled": "c.txt a no_file",
    "list_of_no_labels": "garbled empty no_file",
    "list_of_other_garbled": "other_garbled a",
    "list_of_one_label": "garbled a",
    "list_of_nobodys": "garbled a nobodys",
}


def command_line(command, changes):
    """The words of a command, of which these are changed."""
    line = [command]
    for word, text in {**WORDS[command], **changes}.items():
        line += [word, text] if word.startswith("--") else text.split()
    return line


class FirstFaults(ProgramTest):
    def setUp(self):
        super().setUp()
        for name, content in FILES.items():
            self.put(name, content)
        for words in [
            ("garble", "c.txt", SEED, "garbled"),
            ("garble", "other.txt", SEED, "other_garbled"),
            ("deal", "c.txt", SEED, "0", "1", "a"),
            ("deal", "c.txt", SEED, "1", "0", "b"),
        ]:
            self.assertEqual(self.run_program(*words)[0], 0, words)
        garbled = self.bytes_of("garbled")
        self.put("longer", garbled + b"\0")
        self.put("bad_trailer", garbled[:-1] + bytes([garbled[-1] ^ 1]))
        self.put("other_counts", sealed(garbled[:44] + bytes(4)))
        self.before = self.contents()

    def contents(self):
        return {file.name: file.read_bytes() for file in self.folder.iterdir()}

    def assert_first(self, bad, command, changes):
        """The command with these words changed ends with the fault of the bad one."""
        words = command_line(command, changes)
        if bad.fault is USAGE:
            status, printed, errors = self.run_program(*words)
            self.assertEqual((status, printed), (2, ""), words)
            self.assertTrue(errors.startswith("error: invalid value"), errors)
            self.assertIn(bad.word.strip("-").upper(), errors)
        else:
            self.assert_ends(fails(bad.fault), *words)

    def test_good_words_have_no_fault(self):
        for command in WORDS:
            status, _, errors = self.run_program(*command_line(command, {}))
            self.assertEqual((status, errors), (0, ""), command)

    def test_each_bad_word(self):
        for command, faults in FAULTS.items():
            for bad in faults:
                self.assert_first(bad, command, {bad.word: bad.text})
        self.assertEqual(self.contents(), self.before)

    def test_each_pair_of_bad_words(self):
        for command, faults in FAULTS.items():
            for first, second in combinations(faults, 2):
                if first.word != second.word:
                    changes = {first.word: first.text, second.word: second.text}
                    self.assert_first(first, command, changes)
        self.assertEqual(self.contents(), self.before)


if __name__ == "__main__":
    unittest.main()
