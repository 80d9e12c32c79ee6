"""The first fault of `audit` in the order of its work, and what is no fault to it."""
import unittest

from program import AND, FULL_ADDER, SEED, XOR, ProgramTest, ending_of_audit, label_file, sealed
from test_audit import BITS, GARBLED, NOBODYS_LABEL

import tracing

# Files by name for the first faults.
FILES = {
    "xor.txt": XOR,
    "and.txt": AND,
    "adder.txt": FULL_ADDER,
    "bad.txt": "1 3\n2 1 1\n",
    "empty": "",
    "g": GARBLED[2],
    "short": GARBLED[2][:-1],
    "long": GARBLED[2] + b"\0",
    "trailer": GARBLED[2][:-1] + bytes([GARBLED[2][-1] ^ 1]),
    "spare": sealed(GARBLED[1][:BITS + 1] + b"\2"),
    "large": GARBLED[2][:40] + b"\xff\xff\xff\xff",
    "a": label_file(0, NOBODYS_LABEL),
    "a_short": label_file(0, NOBODYS_LABEL)[:-1],
    "a_long": label_file(0, NOBODYS_LABEL) + b"\0",
    "a_large": b"HLABELS1" + bytes(4) + b"\xff\xff\xff\xff",
}

# The words behind `audit`, and the first fault in the order of the work.
FIRST_FAULTS = [
    ("none 0 none none", "50 CannotRead"),
    (". 0 none", "50 CannotRead"),
    ("bad.txt 0 none none", "1 Truncated"),
    ("xor.txt 0 none none", "18 BadSeed"),
    ("xor.txt SEED none none", "50 CannotRead"),
    ("xor.txt SEED . none", "50 CannotRead"),
    ("xor.txt SEED xor.txt none", "30 BadMagic"),
    ("xor.txt SEED a none", "30 BadMagic"),
    ("xor.txt SEED empty none", "31 Truncated"),
    ("xor.txt SEED short none", "31 Truncated"),
    ("xor.txt SEED long none", "32 Trailing"),
    ("xor.txt SEED large none", "33 CountTooLarge"),
    ("xor.txt SEED spare none", "34 SpareBits"),
    ("xor.txt SEED trailer none", "35 BadTrailer"),
    ("xor.txt SEED g none a_short", "50 CannotRead"),
    ("xor.txt SEED g a_short none", "31 Truncated"),
    ("xor.txt SEED g a a_long none", "32 Trailing"),
    ("xor.txt SEED g g none", "30 BadMagic"),
    ("xor.txt SEED g a_large", "33 CountTooLarge"),
]

# Files that `eval` refuses to bind, and that are audited.
NOT_BOUND = ["xor.txt", "and.txt", "adder.txt"]


class FirstFaults(ProgramTest):
    def setUp(self):
        super().setUp()
        for name, content in FILES.items():
            self.put(name, content)

    def test_the_order_of_the_work(self):
        for words, fault in FIRST_FAULTS:
            self.assert_fault(fault, "audit", *words.replace("SEED", SEED).split())

    def test_binding_is_no_fault(self):
        """Another circuit's file, a value twice and a missing one: 40 to 45 never come."""
        for circuit in NOT_BOUND:
            for labels in [], ["a", "a"], ["a"]:
                words = "audit", circuit, SEED, "g", *labels
                ending = ending_of_audit(lambda: tracing.audit(
                    FILES[circuit].encode(), SEED, FILES["g"], [FILES[it] for it in labels]))
                self.assertNotEqual(ending[0], 1)
                self.assert_ends(ending, *words)

    def test_workers_are_refused(self):
        """One thread audits."""
        self.assert_usage("audit", "xor.txt", SEED, "g", "--workers=1")
        self.assert_usage("audit", "xor.txt", SEED, "g", "--workers", "4")

    def test_no_file_changes(self):
        before = {path.name: path.read_bytes() for path in self.folder.iterdir()}
        for words in ["xor.txt SEED g a", "xor.txt SEED g", *dict(FIRST_FAULTS)]:
            self.run_program("audit", *words.replace("SEED", SEED).split())
        after = {path.name: path.read_bytes() for path in self.folder.iterdir()}
        self.assertEqual(before, after)


if __name__ == "__main__":
    unittest.main()
