"""`jobs`, over lists of which the files of several lines are read before their garbled files are checked: the fault
is the first in the order of the list.
"""
import unittest

from program import AND, SEED, ProgramTest, fails, prints

import bristol


def xor(width):
    """An XOR gate of the first wires of two values of this width. The wider they are, the more lines are
    read at a time: one, two, and with seven wires eight.
    """
    return f"1 {2 * width + 1}\n2 {width} {width}\n1 1\n2 1 0 {width} {2 * width} XOR"


# The widths, and how many lines a list has at most.
WIDTHS = (1, 3), (2, 5), (7, 9)

HONEST = "g 0 1"

NO_FILE = "no_file: the file can't be read: there is no such file or directory"
BAD_TRAILER = "trailer: byte 81: the trailer isn't the SHA-256 of the bytes before it"

# Lines that name no job, their faults, and what explains them. Of a file that can't be read it names the one that was
# opened last, so none is opened after it.
BAD_LINES = [
    ("no_file 0 1", "50 CannotRead", NO_FILE),
    ("magic 0 1", "30 BadMagic", "magic: byte 0: a garbled file begins with HGARBLE1 or HGARBLE2"),
    ("short 0 1", "31 Truncated", "short: byte 112: the file ends too early"),
    ("long 0 1", "32 Trailing", "long: byte 113: bytes follow the end of the file"),
    (
        "spare 0 1",
        "34 SpareBits",
        "spare: byte 48: a bit of the last decode byte is set that belongs to no output",
    ),
    ("trailer 0 1", "35 BadTrailer", BAD_TRAILER),
    ("trailer no_file", "35 BadTrailer", BAD_TRAILER),
    ("g 0 no_file", "50 CannotRead", NO_FILE),
    ("g 0 c.txt", "30 BadMagic", "c.txt: byte 0: a label file begins with HLABELS1"),
    (
        "other 0 1",
        "40 OtherCircuit",
        "other: its circuit has the digest {other}, but this one has {digest}",
    ),
    ("g 0 0", "44 DoubleValue", "0: it is a second file for value 0, counted from 0"),
    ("g 0", "45 MissingValue", "value 1, counted from 0, has no label file"),
]


def digest(text):
    """The digest of a circuit in hexadecimal."""
    return bristol.digest(bristol.read_circuit(text.encode())).hex()


def changed(data, place):
    """The bytes with the highest bit of one changed."""
    copy = bytearray(data)
    copy[place] ^= 128
    return bytes(copy)


class JobLists(ProgramTest):
    def put_files(self, width):
        """The circuit, its garbled file `g`, the label files `0` and `1`, the garbled file `other` of another circuit,
        and what is no garbled file."""
        text = xor(width)
        self.digests = {"digest": digest(text), "other": digest(AND)}
        self.put("c.txt", text)
        self.put("and.txt", AND)
        self.assert_prints("wrote 113\n", "garble", "c.txt", SEED, "g")
        self.assert_prints("wrote 145\n", "garble", "and.txt", SEED, "other")
        for index, bit in enumerate("01"):
            value = bit + (width - 1) * "0"
            self.assert_prints(f"wrote {16 + 16 * width}\n", "deal", "c.txt", SEED, index, value, index)
        garbled = self.bytes_of("g")
        self.put("magic", changed(garbled, 0))
        self.put("spare", changed(garbled, 48))
        self.put("trailer", changed(garbled, 112))
        self.put("short", garbled[:-1])
        self.put("long", garbled + b"\0")

    def put_list(self, count, bad):
        """A list of this many lines of honest jobs, but for the bad ones at their places."""
        self.put("list", "\n".join(bad.get(place, HONEST) for place in range(count)))

    def assert_first(self, place, bad_line):
        """The list has the fault of the bad line in this place."""
        _, fault, line = bad_line
        status, printed, errors = fails(fault)
        errors += f"halfgates: {line.format_map(self.digests)} (line {place + 1} of list)\n"
        self.assert_ends((status, printed, errors), "jobs", "c.txt", "list", "--explain")

    def test_each_fault_in_each_place(self):
        for width, most in WIDTHS:
            self.put_files(width)
            for count in range(1, most + 1):
                self.put_list(count, {})
                self.assert_ends(prints(count * "1\n\n"), "jobs", "c.txt", "list")
                for place in range(count):
                    for bad_line in BAD_LINES:
                        with self.subTest(width=width, count=count, place=place, line=bad_line[0]):
                            self.put_list(count, {place: bad_line[0]})
                            self.assert_first(place, bad_line)

    def test_the_first_of_two_faults(self):
        self.put_files(7)
        for first, second in (0, 1), (0, 7), (2, 5), (6, 7), (7, 8):
            for bad_line in BAD_LINES:
                for other, _, _ in BAD_LINES:
                    with self.subTest(first=first, second=second, line=bad_line[0], other=other):
                        self.put_list(9, {first: bad_line[0], second: other})
                        self.assert_first(first, bad_line)


if __name__ == "__main__":
    unittest.main()
