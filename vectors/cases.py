"""What the JSON files are made of: circuits, and inputs with faults.

Nothing here knows the scheme, but for where the parts of a file lie.
"""
from hashlib import sha256

FAR = 2**32 - 1


class Draws:
    """Numbers that a name decides, the same in each version of Python."""

    def __init__(self, name):
        self.name, self.count = name, 0

    def below(self, limit):
        """A number from 0 to limit - 1."""
        self.count += 1
        drawn = sha256(f"{self.name} {self.count}".encode()).digest()
        return int.from_bytes(drawn[:8], "big") % limit

    def choice(self, items):
        """One of the items."""
        return items[self.below(len(items))]

    def shuffled(self, items):
        """The items in a drawn order."""
        keyed = [(self.below(2**32), i, item) for i, item in enumerate(items)]
        return [item for _, _, item in sorted(keyed)]

    def parts(self, total):
        """Up to four widths that add up to the total, some of them 0; no width is none of 0."""
        cuts = sorted(self.below(total + 1) for _ in range(self.below(4)))
        widths = [end - start for start, end in zip([0, *cuts], [*cuts, total])]
        return [] if total == 0 and self.below(2) else widths

    def bits(self, width):
        """A binary text."""
        return "".join(str(self.below(2)) for _ in range(width))


def random_circuit(draws, inputs, gates, unset):
    """A circuit with all operations. Its gates set wires in any order, and some wires are not set.

    It may have more output wires than gates: then its last input wires are output wires too.
    """
    wires = inputs + gates + unset
    outputs = draws.below((gates if unset else inputs + gates) + 1)
    others = range(inputs, max(inputs, wires - outputs))
    set_wires = [*range(inputs + len(others), wires), *draws.shuffled(others)][:gates]
    known, lines = list(range(inputs)), []
    for target in draws.shuffled(set_wires):
        name = draws.choice("AND AND AND XOR XOR INV EQ EQW".split()) if known else "EQ"
        read = [draws.choice(known[-40:] if draws.below(3) else known) if known else 0
                for _ in range(2 if name in ("AND", "XOR") else 1)]
        if name == "EQ":
            read = [draws.below(2)]
        lines.append(" ".join(map(str, [len(read), 1, *read, target, name])))
        known.append(target)
    widths = [" ".join(map(str, [len(ws), *ws])) for ws in map(draws.parts, (inputs, outputs))]
    return "\n".join([f"{gates} {wires}", *widths, "", *lines, ""])


class Case:
    """A circuit, and what it is garbled with."""

    def __init__(self, name, about, text, seed=None):
        self.name, self.about, self.text = name, about, text
        self.seed = seed or sha256(name.encode()).hexdigest()

    def value_lists(self, widths):
        """Lists of texts of values: all where there are no more than two bits, else two lists."""
        count = sum(widths)
        if count <= 2:
            all_bits = [f"{i:0{count}b}"[:count] for i in range(2**count)]
        else:
            draws = Draws(self.name)
            all_bits = [draws.bits(count) for _ in range(2)]
        starts = [sum(widths[:i]) for i in range(len(widths))]
        return [[bits[s:s + w] for s, w in zip(starts, widths)] for bits in all_bits]


FULL_ADDER = """5 8
3 1 1 1
1 2

2 1 0 2 3 XOR
2 1 1 2 4 XOR
2 1 3 4 5 AND
2 1 3 1 6 XOR
2 1 5 2 7 XOR
"""

CASES = [
    Case("xor", "one XOR gate", "1 3\n2 1 1\n1 1\n\n2 1 0 1 2 XOR\n", "00" * 32),
    Case("and", "one AND gate", "1 3\n2 1 1\n1 1\n\n2 1 0 1 2 AND\n", "00" * 32),
    Case("inv", "one INV gate", "1 2\n1 1\n1 1\n\n1 1 0 1 INV\n", "Ff" * 32),
    Case("eq_0", "the constant 0, and no input", "1 1\n0\n1 1\n\n1 1 0 0 EQ\n"),
    Case("eq_1", "the constant 1, and no input", "1 1\n0\n1 1\n\n1 1 1 0 EQ\n"),
    Case("eqw", "one EQW gate", "1 2\n1 1\n1 1\n\n1 1 0 1 EQW\n"),
    Case("nothing", "no gates, no wires and no values", "0 0\n0\n0\n\n"),
    Case("no_gates", "no gates: the second input value is the output value", "0 2\n2 1 1\n1 1\n\n"),
    Case("no_outputs", "a gate, but no output value", "1 3\n1 2\n0\n\n2 1 0 1 2 AND\n"),
    Case("width_0", "values of width 0, and no others, among the inputs and the outputs",
         "0 0\n2 0 0\n1 0\n\n"),
    Case("widths_0", "values of width 0 among others",
         "1 3\n4 0 1 0 1\n3 0 1 0\n\n2 1 0 1 2 AND\n"),
    Case("output_is_input", "output wires that are an input wire and the wire of a gate",
         "1 3\n1 2\n1 2\n\n2 1 0 1 2 AND\n"),
    Case("one_wire_twice", "gates that read one wire twice: the XOR gate's zero label is all zeros",
         "3 4\n1 1\n1 3\n\n2 1 0 0 1 AND\n2 1 0 0 2 XOR\n2 1 2 0 3 AND\n"),
    Case("constants", "AND gates that read constants",
         "6 8\n1 2\n1 4\n\n1 1 0 2 EQ\n1 1 1 3 EQ\n2 1 0 2 4 AND\n2 1 0 3 5 AND\n2 1 2 3 6 AND\n"
         "2 1 3 3 7 AND\n"),
    Case("chain", "INV and EQW gates between AND gates",
         "6 8\n2 1 1\n1 1\n\n2 1 0 1 2 AND\n1 1 2 3 INV\n1 1 3 4 EQW\n2 1 4 0 5 AND\n1 1 5 6 INV\n"
         "2 1 6 3 7 AND\n"),
    Case("wires_unread", "input wires and wires of gates that nothing reads",
         "3 6\n2 2 1\n1 1\n\n2 1 0 1 3 AND\n1 1 2 4 INV\n2 1 0 2 5 AND\n"),
    Case("wires_unset", "wires that nothing sets, between the others",
         "2 9\n1 2\n1 1\n\n2 1 0 1 5 AND\n2 1 5 1 8 AND\n"),
    Case("descending", "gates that set higher wires first: AND gates are numbered in file order",
         "3 6\n1 3\n1 3\n\n2 1 0 1 5 AND\n2 1 5 2 4 AND\n2 1 4 0 3 AND\n"),
    Case("output_read", "an output wire that gates read, and that stands before another one",
         "2 4\n1 2\n1 2\n\n2 1 0 1 2 AND\n2 1 2 0 3 AND\n"),
    Case("two_outputs", "two output values",
         "3 6\n1 3\n2 1 2\n\n2 1 0 1 3 XOR\n2 1 1 2 4 AND\n1 1 0 5 INV\n"),
    Case("nine_outputs", "nine input and output wires: decode bits in two bytes",
         "9 18\n1 9\n1 9\n\n" + "".join(f"2 1 {i} {(i + 1) % 9} {i + 9} AND\n" for i in range(9))),
    Case("full_adder", "three bits: their sum and their carry", FULL_ADDER, "00" * 32),
    Case("spacing", "the full adder with tabs and leading zeros, and no line feed: the same digest",
         "000" + FULL_ADDER.replace("\n", "\t  ").replace(" 3 ", "\r0003 ").strip(), "00" * 32),
    Case("line_ends", "the full adder with CR LF, no empty line, and blanks before the text",
         "\n \t\r\n" + FULL_ADDER.replace("\n\n", "\n").replace("\n", " \r\n"), "00" * 32),
    Case("random_200", "two hundred gates of all operations",
         random_circuit(Draws("random_200"), 20, 200, 5)),
    Case("random_300", "three hundred gates of all operations",
         random_circuit(Draws("random_300"), 70, 300, 0)),
]



class Chain:
    """Circuits that are garbled under one offset, and what they are garbled from.

    Each has a joint: for each of its input wires the output of the circuit before, counted from 0,
    that the wire takes over, or None where the wire has a label and a bit of its own. `first` is
    the first AND number.
    """

    def __init__(self, about, first, *links, is_zero=False):
        self.about, self.first, self.draws = about, first, Draws(about)
        self.texts, self.joints = zip(*links)
        self.is_zero = is_zero
        offset = self.label()
        self.offset = bytes([offset[0] | 1]) + offset[1:]

    def label(self):
        return bytes(0 if self.is_zero else self.draws.below(256) for _ in range(16))

    def labels(self, wires):
        return [self.label() for _ in wires]

    def bits(self, wires):
        return [self.draws.below(2) for _ in wires]


TEXTS = {case.name: case.text for case in CASES}
SIXTY = random_circuit(Draws("sixty"), 12, 60, 3)

CHAINS = [
    *(Chain(f"one AND gate, of the number {first}", first, (TEXTS["and"], [None, None]))
      for first in (0, 1, 2**31, 2**32, 2**61, 2**62 - 1)),
    Chain("no AND gate, under the highest first number", 2**62, (TEXTS["xor"], [None, None])),
    Chain("no wire", 5, (TEXTS["nothing"], [])),
    Chain("labels of zeros, and the lowest offset", 3, (FULL_ADDER, [None] * 3), is_zero=True),
    Chain("sixty gates of all operations", 2**40, (SIXTY, [None] * 12)),
    Chain("three full adders: each carry goes to the next one", 7, (FULL_ADDER, [None] * 3),
          (FULL_ADDER, [None, None, 1]), (FULL_ADDER, [None, None, 1])),
    Chain("outputs in another order, twice and not at all", 0,
          (TEXTS["two_outputs"], [None] * 3), (FULL_ADDER, [2, 0, 2])),
    Chain("outputs that are constants and ANDs of them", 2**33,
          (TEXTS["constants"], [None] * 2),
          (TEXTS["nine_outputs"], [3, 2, 1, 0, None, 3, 2, 1, 0])),
    Chain("an output that is an input wire", 9,
          (TEXTS["output_is_input"], [None] * 2), (TEXTS["and"], [0, 1])),
    Chain("a circuit without input wires", 1,
          (TEXTS["eq_1"], []), (TEXTS["inv"], [0]), (TEXTS["and"], [0, None])),
    Chain("all outputs go on, and up to the highest number", 2**62 - 27,
          (TEXTS["nine_outputs"], [None] * 9), (TEXTS["nine_outputs"], [*range(9)]),
          (TEXTS["nine_outputs"], [*range(8, -1, -1)])),
]

OF_BAD_FILES = Case("bad_files", "",
                    "3 6\n2 2 1\n1 2\n\n2 1 0 1 3 AND\n2 1 3 2 4 AND\n2 1 4 0 5 XOR\n")

# The circuit before the gate that a case adds, and after it.
ONE = "1 5\n2 1 1\n1 1\n\n"
THREE = "3 5\n2 1 1\n1 1\n\n2 1 0 1 2 AND\n"
LAST = "1 1 2 4 INV\n"

BAD_CIRCUITS = [
    # 1 Truncated.
    ("no token", ""),
    ("blanks alone", " \t\r\n"),
    ("no number of wires", "1"),
    ("no number of input values", "1 5\n"),
    ("a width is missing", "1 5\n2 1"),
    ("no output values", "1 5\n2 1 1\n"),
    ("no gate", ONE),
    ("no second count", ONE + "2"),
    ("no wire set", ONE + "2 1 0 1"),
    ("no operation", ONE + "2 1 0 1 4"),
    ("no operation, and no such wire", ONE + "2 1 0 9 4"),
    ("a gate is missing", THREE + LAST),
    ("at the limits of all numbers", f"{2**24} {2**25}\n1 {2**25}\n256"),
    # 2 BadNumber.
    ("a word for the gates", "one 5"),
    ("a sign", "+1 5"),
    ("a fraction", "1 5.0"),
    ("hexadecimal digits", "0x1 5"),
    ("digits of another script", "\u0661 5"),
    ("a form feed is no blank", "1\f5 0 0"),
    ("a vertical tab is no blank", "1\v5 0 0"),
    ("a no-break space is no blank", "1\u00a05 0 0"),
    ("a zero byte is no blank", "1\x005 0 0"),
    ("above 4294967295", f"{FAR + 1} 5"),
    ("far above 4294967295", "9" * 40),
    ("a width above 4294967295", f"1 5\n1 {FAR + 1}"),
    ("a word for a width", "1 5\n2 1 AND"),
    ("a count", ONE + "two"),
    ("a second count, after a bad first one", ONE + "3 x"),
    ("a wire, before an unknown operation", ONE + "2 1 0 -1 4 NAND\n"),
    ("a wire above 4294967295", ONE + f"2 1 0 {FAR + 1} 4 AND\n"),
    ("an operation where a gate begins", THREE + "AND"),
    # 3 TooLarge.
    ("gates above 16777216", f"{2**24 + 1}"),
    ("gates above 16777216, before a bad number", f"{2**24 + 1} x"),
    ("wires above 33554432", f"1 {2**25 + 1}"),
    ("input values above 256", "1 5\n257"),
    ("output values above 256", f"1 5\n2 1 1\n{FAR}"),
    ("output values, one above 256", "1 5\n2 1 1\n257"),
    # 4 BadShape.
    ("a first count of 0", ONE + "0 1"),
    ("a first count of 3, at once", ONE + "3 1 x"),
    ("a second count of 0", ONE + "1 0 0 INV\n"),
    ("a second count of 2", THREE + "2 2 0 1 3 4 AND\n" + LAST),
    ("MAND", ONE + "4 2 0 1 1 0 3 4 MAND\n"),
    ("XOR that reads one wire", ONE + "1 1 0 4 XOR\n"),
    ("AND that reads one wire", ONE + "1 1 0 4 AND\n"),
    ("INV that reads two wires", THREE + "2 1 0 1 3 INV\n" + LAST),
    ("EQ with two numbers", ONE + "2 1 0 1 4 EQ\n"),
    ("EQW that reads two wires, and no such wire", ONE + "2 1 7 8 9 EQW\n"),
    # 5 UnknownOperation.
    ("a lower-case name", ONE + "2 1 0 1 4 and\n"),
    ("another gate", ONE + "2 1 0 1 4 NAND\n"),
    ("a name with more behind it", ONE + "2 1 0 1 4 AND;\n"),
    ("MAND with the counts of AND", ONE + "2 1 0 1 4 MAND\n"),
    ("a number", THREE + "2 1 0 1 3 4\n" + LAST),
    ("before wires that are wrong", ONE + "2 1 7 8 9 OR\n"),
    # 6 BadConstant.
    ("the constant 2", ONE + "1 1 2 4 EQ\n"),
    ("the constant 4294967295", ONE + f"1 1 {FAR} 4 EQ\n"),
    ("before a wire set that is wrong", THREE + "1 1 2 0 EQ\n" + LAST),
    ("before a wire set that is not there", ONE + "1 1 2 5 EQ\n"),
    # 7 NoSuchWire.
    ("the first wire read", ONE + "2 1 5 1 4 XOR\n"),
    ("the second wire read, before the wire set", ONE + f"2 1 0 {FAR} 0 AND\n"),
    ("the wire of INV", THREE + "1 1 5 3 INV\n" + LAST),
    ("the wire that AND sets", ONE + "2 1 0 1 5 AND\n"),
    ("the wire that EQ sets", ONE + "1 1 1 5 EQ\n"),
    # 8 Unset.
    ("the first wire read, before the second", ONE + "2 1 2 5 4 XOR\n"),
    ("the second wire read, before the wire set", ONE + "2 1 0 2 0 AND\n"),
    ("the wire that the gate sets", ONE + "1 1 4 4 INV\n"),
    ("a wire that a later gate sets", THREE + "2 1 0 4 3 AND\n" + LAST),
    # 9 SetTwice.
    ("an input wire", ONE + "2 1 0 1 1 AND\n"),
    ("a wire that a gate has set", THREE + "1 1 0 2 EQW\n" + LAST),
    ("by EQ", THREE + "1 1 0 0 EQ\n" + LAST),
    # 10 OutputUnset.
    ("no gate sets it", ONE + "2 1 0 1 2 AND\n"),
    ("the first of two", "1 5\n2 1 1\n2 1 1\n\n2 1 0 1 4 AND\n"),
    ("without gates", "0 1\n0\n1 1\n"),
    ("before tokens left over", ONE + "2 1 0 1 2 AND\n1"),
    # 11 TrailingTokens.
    ("a gate too many", ONE + "2 1 0 1 4 AND\n" + LAST),
    ("a word", ONE + "2 1 0 1 4 AND\n\nend\n"),
    ("after no gate", "0 0 0 0 0"),
    # 12 WidthsExceedWires.
    ("one input value", "1 5\n1 6"),
    ("two input values", "1 5\n2 3 3"),
    ("an input value, far above", f"1 5\n1 {FAR}"),
    ("the second input value", "1 5\n2 0 6"),
    ("output values", "1 5\n2 1 1\n2 5 1"),
]

BAD_VALUES = [
    # 14 WrongCount.
    ("too few", [9, 3], ["000000000"]),
    ("too many", [9, 3], ["000000000", "000", "000"]),
    ("too many, before a wrong length", [9, 3], ["0", "0", "0"]),
    # 15 BadDigit.
    ("a digit that is not binary", [9, 3], ["000000002", "000"]),
    ("two bytes that are no digits", [9, 3], ["\u00e90000000", "000"]),
    ("a digit that is not hexadecimal", [9, 3], ["x000g", "000"]),
    ("before a spare bit", [9, 3], ["xg0ff", "000"]),
    ("an upper-case X", [3, 3], ["X00", "000"]),
    # 16 WrongLength.
    ("a bit is missing", [9, 3], ["00000000", "000"]),
    ("a bit too many", [9, 3], ["0000000000", "000"]),
    ("no digit", [9, 3], ["", "000"]),
    ("hexadecimal digits are missing", [9, 3], ["x00", "000"]),
    ("hexadecimal digits too many", [9, 3], ["000000000", "x0000"]),
    ("before a digit", [9, 3], ["2", "000"]),
    ("x as a binary text of one digit", [1, 3], ["x", "000"]),
    ("a digit for no wire", [0, 3], ["0", "000"]),
    ("half a byte", [1, 3], ["x0", "000"]),
    ("one letter of two bytes", [1, 3], ["\u00e9", "000"]),
    # 17 SpareBits.
    ("the lowest spare bit", [9, 3], ["x0002", "000"]),
    ("the highest spare bit", [9, 3], ["000000000", "x80"]),
]

BAD_SEEDS = [
    # 18 BadSeed.
    ("no digit", ""),
    ("a digit is missing", "0" * 63),
    ("a digit too many", "0" * 65),
    ("a digit that is not hexadecimal", "0" * 63 + "g"),
    ("a blank", "0" * 63 + " "),
]


def bad_files(garbled_1, garbled_2, labels):
    """Bad files, made of those of OF_BAD_FILES: what each is about, a garbled file, label files."""
    numbers, rows, bits, trailer = 40, 48, 48 + 2 * 32, -32
    head, (first, second) = garbled_2[:numbers], labels

    def changed(data, at):
        at %= len(data)
        return data[:at] + bytes([data[at] ^ 1]) + data[at + 1:]

    def sealed(body):
        return body + sha256(body).digest()

    def set_to(at, piece):
        body = garbled_2[:trailer]
        return sealed(body[:at] + piece + body[at + len(piece):])

    def labels_of(index, width):
        sizes = index.to_bytes(4, "little") + width.to_bytes(4, "little")
        return b"HLABELS1" + sizes + bytes(range(16)) * width

    garbled = [
        # 30 BadMagic.
        ("version 3", b"HGARBLE3" + garbled_2[8:]),
        ("a wrong first byte and no other", b"h"),
        # 31 Truncated.
        ("no byte", b""),
        ("a part of the magic", garbled_2[:7]),
        ("a part of the digest", garbled_2[:39]),
        ("a part of the number of outputs", garbled_2[:47]),
        ("a part of the row pairs", garbled_1[:rows + 63]),
        ("a part of the decode entries", garbled_2[:-33]),
        ("a part of the trailer, which is wrong", changed(garbled_2, trailer)[:-1]),
        ("at the limits of row pairs and outputs", head + b"\0\0\0\1\0\0\0\2"),
        # 32 Trailing.
        ("a byte after the trailer", garbled_2 + b"\0"),
        # 33 CountTooLarge.
        ("row pairs above 16777216, and the bytes end", head + b"\1\0\0\1"),
        ("output wires above 33554432", head + b"\2\0\0\0\1\0\0\2"),
        # 34 SpareBits.
        ("a spare bit, and the bytes end", garbled_2[:bits] + b"\4"),
        ("the highest spare bit, under a right trailer", set_to(bits, b"\x80")),
        # 35 BadTrailer.
        ("a wrong bit in the trailer", changed(garbled_2, -1)),
        ("a wrong bit in a row", changed(garbled_1, rows)),
        ("before a byte after the trailer", changed(garbled_2, -1) + b"\0"),
        # 40 OtherCircuit.
        ("another digest, before other counts", sealed(b"HGARBLE2" + bytes(40))),
        # 41 OtherCounts.
        ("a row pair is missing", sealed(head + b"\1\0\0\0\2\0\0\0" + garbled_2[80:trailer])),
        ("an output is missing", sealed(head + b"\2\0\0\0\1\0\0\0" + bytes(2 * 32 + 1 + 32))),
        # 48 UnknownOutputLabel.
        ("rows of zeros", set_to(rows, bytes(64))),
        ("decode entries of zeros", set_to(bits + 1, bytes(64))),
    ]
    label_files = [
        # 30 BadMagic to 33 CountTooLarge.
        ("version 2 of a label file", [first, b"HLABELS2" + second[8:]]),
        ("a garbled file as a label file", [b"HGARBLE1", second]),
        ("no byte of a label file", [b"", second]),
        ("a part of a label", [first, second[:-1]]),
        ("a label is missing", [first[:-16], second]),
        ("at the limits of index and width", [b"HLABELS1\xff\xff\xff\xff\0\0\0\2", second]),
        ("a byte after the labels", [first, second + b"\0"]),
        ("a width above 33554432", [first[:12] + b"\1\0\0\2", second]),
        # 42 NoSuchValue.
        ("an index of no value, before a wrong width", [labels_of(2, 5), first]),
        ("the highest index", [first, second, b"HLABELS1" + b"\xff" * 4 + second[12:]]),
        # 43 WrongWidth.
        ("a width too large", [first, labels_of(1, 2)]),
        ("a width of 0, before a value twice", [first, labels_of(0, 0)]),
        # 44 DoubleValue.
        ("a value twice", [first, second, first]),
        ("a value twice, before another is missing", [second, second]),
        # 45 MissingValue.
        ("no label file", []),
        ("a value is missing", [second]),
        # 48 UnknownOutputLabel.
        ("labels that stand for nothing", [labels_of(0, 2), labels_of(1, 1)]),
    ]
    return [
        *((about, data, labels) for about, data in garbled),
        *((about, garbled_2, files) for about, files in label_files),
        ("a bad label file, before another digest", set_to(8, bytes(32)), [b"h", second]),
    ]
