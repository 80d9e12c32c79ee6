"""halfgates.convert: the circuits that it makes of netlists of Yosys, by the program."""
import itertools
import json
import random
import shutil
import subprocess
import sys
import unittest

from library import environment_of_python, import_package
from program import SEED, TOP, ProgramTest, text_of_lines
from test_blocks import blocks

import_package()
from halfgates.convert import ConversionError, convert  # noqa: E402

AUCTION = TOP / "examples/verilog/auction"

# What each gate of Yosys computes.
GATES = {
    "$_BUF_": lambda a: a,
    "$_NOT_": lambda a: 1 - a,
    "$_AND_": lambda a, b: a & b,
    "$_NAND_": lambda a, b: 1 - (a & b),
    "$_OR_": lambda a, b: a | b,
    "$_NOR_": lambda a, b: 1 - (a | b),
    "$_XOR_": lambda a, b: a ^ b,
    "$_XNOR_": lambda a, b: 1 - (a ^ b),
    "$_ANDNOT_": lambda a, b: a & (1 - b),
    "$_ORNOT_": lambda a, b: a | (1 - b),
    "$_MUX_": lambda a, b, s: b if s else a,
    "$_NMUX_": lambda a, b, s: 1 - (b if s else a),
}


def cell(kind, *bits):
    """A cell that reads these bits, but for the last one, which it sets."""
    *read, target = bits
    ports = [*zip("ABS", read), ("Y", target)]
    return {"type": kind, "connections": {port: [bit] for port, bit in ports}}


def port(direction, *bits):
    return {"direction": direction, "bits": [*bits]}


def module(ports, *cells, **more):
    return {"ports": ports, "cells": {f"c{i}": it for i, it in enumerate(cells)}, **more}


def not_of(a, y):
    """A module with one cell."""
    return module({"a": port("input", 2), "y": port("output", y)}, cell("$_NOT_", a, y))


# Modules that are no circuit, and what is said of each.
UNCLEAR = {
    "nothing sets": (not_of(3, 4), "bit 3 is read, and nothing sets it"),
    "named": (
        {**not_of(3, 4), "netnames": {"sum": {"bits": [9, 3]}}},
        "sum[1] (bit 3) is read, and nothing sets it",
    ),
    "an output that nothing sets": (
        module({"y": port("output", 7)}),
        "bit 7 is read, and nothing sets it",
    ),
    "set by two cells": (
        module({"a": port("input", 2)}, cell("$_NOT_", 2, 3), cell("$_BUF_", 2, 3)),
        "bit 3 is set twice, the second time by cell c1",
    ),
    "an input that is set": (not_of(2, 2), "bit 2 is set twice, the second time by cell c0"),
    "an input twice": (
        module({"a": port("input", 2), "b": port("input", 2)}),
        "bit 2 is set twice, the second time by input port b",
    ),
    "a constant that is set": (not_of(2, "0"), "cell c0 sets the constant 0"),
    "a loop": (not_of(4, 4), "bit 4 needs itself"),
    "a longer loop": (
        module({}, cell("$_NOT_", 4, 3), cell("$_BUF_", 3, 5), cell("$_NOT_", 5, 4)),
        "bit 3 needs itself",
    ),
    "an unknown bit": (not_of("x", 4), "a bit is x, neither 0 nor 1"),
    "a flip-flop": (
        module({}, {"type": "$_DFF_P_", "connections": {"D": [2], "C": [3], "Q": [4]}}),
        "cell c0 is a $_DFF_P_, which is no gate",
    ),
    "a wide cell": (
        module({}, {"type": "$_AND_", "connections": {"A": [2, 3], "B": [4], "Y": [5]}}),
        "cell c0 needs exactly one bit at port A",
    ),
    "a cell without an output": (
        module({}, {"type": "$_AND_", "connections": {"A": [2], "B": [4]}}),
        "cell c0 needs exactly one bit at port Y",
    ),
    "both ways": (module({"a": port("inout", 2)}), "port a is neither an input nor an output"),
}


NONE = "this is no netlist of Yosys"


def variants(whole):
    """The texts of a value in which one part is missing, or another one stands for it."""

    def change(value, path, change_of):
        if not path:
            return change_of(value)
        copy = value.copy()
        copy[path[0]] = change(value[path[0]], path[1:], change_of)
        return copy

    def paths(value, at=()):
        yield at
        if isinstance(value, (dict, list)):
            for key in value if isinstance(value, dict) else range(len(value)):
                yield from paths(value[key], (*at, key))

    for path in paths(whole):
        for other in (None, True, -1, 1.5, "x", "0", [], ["1"], [[]], {}, {"x": 1}):
            yield json.dumps(change(whole, path, lambda _: other))
        if path:
            rest = lambda it: {k: v for k, v in it.items() if k != path[-1]} if isinstance(it, dict) else it[:-1]
            yield json.dumps(change(whole, path[:-1], rest))


def auction(first, second, reserve=20):
    """What the example returns."""
    is_second = int(second > first)
    if max(first, second) < reserve:
        return 0, 0, 0
    return 1, is_second, max(min(first, second), reserve)


def bits(number, width=8):
    return f"{number:0{width}b}"[::-1]


class NetlistTest(ProgramTest):
    def convert(self, *words):
        how = {"cwd": self.folder, "env": environment_of_python()}
        words = [sys.executable, "-m", "halfgates.convert", *words]
        return subprocess.run(words, capture_output=True, text=True, check=False, **how)

    def make(self, netlist):
        """Writes the circuit of a module, and returns what is printed."""
        self.put("n.json", json.dumps({"modules": {"m": netlist}}))
        done = self.convert("n.json", "c.txt", "--check", "5")
        self.assertEqual((done.returncode, done.stderr), (0, ""))
        return done.stdout

    def assert_outputs(self, outputs, *inputs):
        self.assert_prints(text_of_lines(outputs), "plain", "c.txt", *inputs)


class Netlists(NetlistTest):
    def test_each_gate(self):
        counts = [answer.__code__.co_argcount for answer in GATES.values()]
        numbered = enumerate(zip(GATES, counts), 10)
        cells = [cell(kind, *range(2, 2 + count), target) for target, (kind, count) in numbered]
        ports = {f"y{i}": port("output", 10 + i) for i in range(len(GATES))}
        self.make(module({"a": port("input", 2, 3, 4), **ports}, *cells))
        for values in itertools.product([0, 1], repeat=3):
            answers = [answer(*values[:count]) for answer, count in zip(GATES.values(), counts)]
            self.assert_outputs(answers, "".join(map(str, values)))

    def test_ports_have_the_order_of_the_netlist(self):
        ports = {
            "z": port("input", 9, 4),
            "out": port("output", 4, 7),
            "a": port("input", 7),
            "end": port("output", 9),
        }
        printed = self.make(module(ports))
        self.assertEqual(printed, "input 0 z 2\ninput 1 a 1\noutput 0 out 2\noutput 1 end 1\n")
        self.assert_outputs(["01", "1"], "10", "1")
        self.assert_outputs(["10", "0"], "01", "0")

    def test_constants(self):
        ports = {"a": port("input", 2), "y": port("output", "1", "0", 5, "1", 6)}
        self.make(module(ports, cell("$_XOR_", 2, "1", 5), cell("$_AND_", "0", 2, 6)))
        self.assert_outputs(["10010"], "1")
        self.assert_outputs(["10110"], "0")
        self.make(module({"y": port("output", "1")}))
        self.assert_outputs(["1"])

    def test_unused_inputs_and_cells(self):
        ports = {"a": port("input", 2, 3), "b": port("input", 4), "y": port("output", 3)}
        self.make(module(ports, cell("$_NOT_", 2, 8)))
        self.assert_outputs(["1"], "01", "0")

    def test_outputs_that_are_inputs_or_repeat(self):
        ports = {"a": port("input", 2, 3), "y": port("output", 3, 2, 5, 5), "z": port("output", 5)}
        self.make(module(ports, cell("$_AND_", 2, 3, 5)))
        for a, b in itertools.product([0, 1], repeat=2):
            self.assert_outputs([f"{b}{a}{a & b}{a & b}", a & b], f"{a}{b}")

    def test_wide_ports(self):
        width = 1000
        read, made = range(2, 2 + width), range(2000, 2000 + width)
        cells = [cell("$_NOT_", a, y) for a, y in zip(read, made)]
        self.make(module({"a": port("input", *read), "y": port("output", *made)}, *cells))
        value = bits(random.Random(1).getrandbits(width), width)
        self.assert_outputs([value.translate({48: "1", 49: "0"})], value)

    def test_cells_without_meaning_for_logic(self):
        """They may read whatever they like."""
        others = [{"type": kind, "connections": {"A": [99], "EN": ["1"]}} for kind in ("$scopeinfo", "$assert", "$print")]
        self.make(module({"a": port("input", 2), "y": port("output", 3)}, cell("$_NOT_", 2, 3), *others))
        self.assert_outputs(["0"], "1")

    def test_cells_out_of_order(self):
        count = 5000
        cells = [cell("$_NOT_", bit, bit + 1) for bit in range(2, 2 + count)][::-1]
        self.make(module({"a": port("input", 2), "y": port("output", 2 + count)}, *cells))
        self.assert_outputs(["1"], "1")

    def test_random_netlists(self):
        rng = random.Random(1)
        for _ in range(20):
            self.check_random_netlist(rng)

    def check_random_netlist(self, rng):
        values = [rng.randrange(2) for _ in range(6)]
        on_bits, cells = {2 + i: value for i, value in enumerate(values)}, []
        for target in rng.sample(range(100, 200), 40):
            kind, answer = rng.choice([*GATES.items()])
            read = rng.choices([*on_bits], k=answer.__code__.co_argcount)
            on_bits[target] = answer(*[on_bits[bit] for bit in read])
            cells.append(cell(kind, *read, target))
        rng.shuffle(cells)
        outs = rng.sample([*on_bits], 20)
        self.make(module({"a": port("input", *range(2, 8)), "y": port("output", *outs)}, *cells))
        printed = "".join(str(on_bits[bit]) for bit in outs)
        self.assert_outputs([printed], "".join(map(str, values)))

    def test_what_is_unclear(self):
        for name, (netlist, said) in UNCLEAR.items():
            with self.subTest(name):
                self.put("bad.json", json.dumps({"modules": {"m": netlist}}))
                self.assert_unclear(said, "bad.json", "bad.txt")

    def assert_unclear(self, said, *words):
        done = self.convert(*words)
        self.assertEqual((done.returncode, done.stderr), (1, f"bad.json: {said}\n"))
        self.assertFalse((self.folder / "bad.txt").exists())

    def test_files_that_are_no_netlist(self):
        for text in ("{}", '{"modules": []}', '{"modules": {"m": 1}}', '{"modules": ' + 100_000 * "["):
            self.put("bad.json", text)
            self.assert_unclear(NONE, "bad.json", "bad.txt")

    def test_parts_that_are_missing_or_of_another_type(self):
        """Whatever a part of a netlist is replaced by, it is a circuit, or it is said why not."""
        ports = {"a": port("input", 2, 3), "y": port("output", 4)}
        whole = module(ports, cell("$_AND_", 2, 3, 4), netnames={"y": {"bits": [4]}}, attributes={"top": "1"})
        said = set()
        for text in variants({"modules": {"m": whole}}):
            try:
                convert(text)
            except ConversionError as error:
                said.add(str(error))
        self.assertIn(NONE, said)
        self.assertGreater(len(said), 8)

    def test_which_module(self):
        one, two = not_of(2, 3), module({"a": port("input", 2), "y": port("output", 2)})
        self.put("bad.json", json.dumps({"modules": {"one": one, "two": two}}))
        said = "which module is meant is not clear: name it by --module"
        self.assert_unclear(said, "bad.json", "bad.txt")
        said = "there is no module three"
        self.assert_unclear(said, "bad.json", "bad.txt", "--module", "three")
        self.convert("bad.json", "c.txt", "--module", "one")
        self.assert_outputs(["0"], "1")
        top = {**two, "attributes": {"top": f"{1:032b}"}}
        self.put("n.json", json.dumps({"modules": {"one": one, "two": top}}))
        self.convert("n.json", "c.txt")
        self.assert_outputs(["1"], "1")


class Auction(NetlistTest):
    """The example of docs/FROM_VERILOG.md."""

    def test_the_netlist_in_the_repository(self):
        self.check(f"{AUCTION}.json")

    @unittest.skipUnless(shutil.which("yosys"), "Yosys is not there")
    def test_the_netlist_that_yosys_makes_anew(self):
        """By the very command of the document."""
        found = blocks((TOP / "docs/FROM_VERILOG.md").read_text())
        [command] = [it.text for it in found if it.text.startswith("yosys ")]
        (self.folder / "examples/verilog").mkdir(parents=True)
        shutil.copy(f"{AUCTION}.v", self.folder / "examples/verilog")
        subprocess.run(["bash", "-c", command], cwd=self.folder, check=True, capture_output=True)
        self.check(self.folder / "examples/verilog/auction.json")

    def check(self, netlist):
        self.assertEqual(self.convert(netlist, "c.txt").returncode, 0)
        numbers = [0, 19, 20, 21, 128, 255]
        rng = random.Random(1)
        pairs = [*itertools.product(numbers, repeat=2)]
        pairs += [(rng.randrange(256), rng.randrange(256)) for _ in range(20)]
        for first, second in pairs:
            sold, second_wins, price = auction(first, second)
            inputs, outputs = (bits(first), bits(second)), (sold, second_wins, bits(price))
            self.assert_outputs(outputs, *inputs)
        self.assert_prints(text_of_lines(outputs), "run", "c.txt", SEED, *inputs)


if __name__ == "__main__":
    unittest.main()
