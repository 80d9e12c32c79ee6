"""Holds the program against vectors/: its JSON files, and the reference that made them.

    python3 tests/test_vectors.py
"""
import itertools
import unittest
from hashlib import sha256

from inputs import (
    VECTORS, by_about, damaged_text, draws, draw_values, load, respelled, worked_circuits)
from program import ProgramTest, ending_of, ending_of_eval, sealed, text_of_lines

import bristol
import cases
import reference

WORKERS = 1, 2, 64


class CheckedInFiles(unittest.TestCase):
    """The files in vectors/, without the program."""

    def test_are_those_that_the_reference_writes(self):
        made = reference.documents()
        self.assertEqual({path.name for path in VECTORS.glob("*.json")}, set(made))
        for name, contents in made.items():
            with self.subTest(name):
                self.assertEqual((VECTORS / name).read_text(), contents)

    def test_are_small(self):
        self.assertLess(sum(path.stat().st_size for path in VECTORS.glob("*.*")), 600_000)

    def test_have_each_fault_of_a_circuit(self):
        self.assertEqual({bad["fault"] for bad in load("bad_circuits")}, set(range(1, 13)))


class Standards(unittest.TestCase):
    """The reference, held against published values."""

    def test_keystream(self):
        """RFC 8439, appendix A.1, test vectors 1 to 4."""
        for key, counter, first, second in (
            ("00" * 32, 0,
             "76b8e0ada0f13d90405d6ae55386bd28bdd219b8a08ded1aa836efcc8b770dc7",
             "da41597c5157488d7724e03fb8d84a376a43b8f41518a11cc387b669b2ee6586"),
            ("00" * 32, 1,
             "9f07e7be5551387a98ba977c732d080dcb0f29a048e3656912c6533e32ee7aed",
             "29b721769ce64e43d57133b074d839d531ed1f28510afb45ace10a1f4b794d6f"),
            ("00" * 31 + "01", 1,
             "3aeb5224ecf849929b9d828db1ced4dd832025e8018b8160b82284f3c949aa5a",
             "8eca00bbb4a73bdad192b5c42f73f2fd4e273644c8b36125a64addeb006c13a0"),
            ("00ff" + "00" * 30, 2,
             "72d54dfbf12ec44b362692df94137f328fea8da73990265ec1bbbea1ae9af0ca",
             "13b25aa26cb4a648cb9b9d1be65b2c0924a66c54d545ec1b7374f4872e99f096"),
        ):
            block = reference.chacha20_block(bytes.fromhex(key), counter)
            self.assertEqual(block.hex(), first + second)


class VectorTest(ProgramTest):
    """Holds the program against what JSON files and the reference say."""

    def each(self, named, hold):
        """Holds each of these, in a subtest of its name."""
        for name, item in named:
            with self.subTest(name):
                hold(item)

    def put_circuit(self, document):
        """Writes the circuit of a JSON file, and returns its name."""
        return self.put("circuit.txt", "\n".join(document["circuit"]))

    def assert_lines(self, lines, *words):
        """The program prints these lines, and has status 0."""
        self.assert_prints(text_of_lines(lines), *words)

    def assert_bad(self, bad, *words):
        """The program prints the fault alone that `bad` names, and has status 1."""
        self.assert_fault(f"{bad['fault']} {bad['name']}", *words)


def lines_of_check(gates, wires, and_gates, input_widths, output_widths, digest):
    """What `check` prints."""
    lines = [["gates", gates], ["wires", wires], ["and", and_gates],
             ["inputs", len(input_widths), *input_widths],
             ["outputs", len(output_widths), *output_widths], ["digest", digest]]
    return [" ".join(map(str, line)) for line in lines]


def lines_of_circuit(circuit):
    """What `check` prints of a circuit."""
    return lines_of_check(len(circuit.gates), circuit.wires, bristol.and_count(circuit),
                          circuit.input_widths, circuit.output_widths,
                          bristol.digest(circuit).hex())


class WorkedCircuits(VectorTest):
    """The program, held against the JSON files of worked circuits."""

    def test_check(self):
        self.each(worked_circuits(), self.hold_check)

    def test_run_and_plain(self):
        self.each(worked_circuits(), self.hold_run_and_plain)

    def test_garble(self):
        self.each(worked_circuits(), self.hold_garble)

    def test_deal(self):
        self.each(worked_circuits(), self.hold_deal)

    def test_eval(self):
        self.each(worked_circuits(), self.hold_eval)

    def hold_check(self, vector):
        names = "gates wires and_gates input_widths output_widths digest".split()
        lines = lines_of_check(*(vector[name] for name in names))
        self.assert_lines(lines, "check", self.put_circuit(vector))

    def hold_run_and_plain(self, vector):
        circuit, seed = self.put_circuit(vector), vector["seed"]
        for evaluation in vector["evaluations"]:
            outputs = evaluation["outputs"]
            self.assert_lines(outputs, "run", circuit, seed, *evaluation["values"])
            self.assert_lines(outputs, "plain", circuit, *evaluation["hex_values"])

    def hold_garble(self, vector):
        circuit, seed = self.put_circuit(vector), vector["seed"]
        for version, workers in itertools.product("12", WORKERS):
            data = bytes.fromhex("".join(vector[f"garbled_file_{version}"]))
            options = "--format", version, "--workers", workers
            self.assert_writes(data, "out", "garble", circuit, seed, "out", *options)

    def hold_deal(self, vector):
        circuit, seed = self.put_circuit(vector), vector["seed"]
        for evaluation in vector["evaluations"]:
            files = map(bytes.fromhex, evaluation["label_files"])
            for index, (text, data) in enumerate(zip(evaluation["values"], files)):
                self.assert_writes(data, "out", "deal", circuit, seed, index, text, "out")

    def hold_eval(self, vector):
        circuit = self.put_circuit(vector)
        for evaluation in vector["evaluations"]:
            labels = self.put_all("labels", map(bytes.fromhex, evaluation["label_files"]))
            for version in "12":
                data = bytes.fromhex("".join(vector[f"garbled_file_{version}"]))
                garbled = self.put("garbled", data)
                self.assert_lines(evaluation["outputs"], "eval", circuit, garbled, *labels[::-1])


class Faults(VectorTest):
    """The program, held against the JSON files of inputs with faults."""

    def test_of_circuits(self):
        self.each(by_about(load("bad_circuits")), self.hold_fault_of_circuit)

    def test_of_values(self):
        self.each(by_about(load("bad_values")), self.hold_fault_of_values)

    def test_of_seeds(self):
        self.each(by_about(load("bad_seeds")), self.hold_fault_of_seed)

    def test_of_files(self):
        document = load("bad_files")
        self.put_circuit(document)
        self.each(by_about(document["files"]), self.hold_fault_of_files)

    def hold_fault_of_circuit(self, bad):
        circuit = self.put("circuit.txt", bad["text"].encode())
        self.assert_bad(bad, "check", circuit)

    def hold_fault_of_values(self, bad):
        widths = bad["widths"]
        words = map(str, [0, sum(widths), len(widths), *widths, 0])
        circuit = self.put("circuit.txt", " ".join(words).encode())
        values = [value.encode() for value in bad["values"]]
        self.assert_bad(bad, "plain", circuit, *values)
        self.assert_bad(bad, "run", circuit, "00" * 32, *values)

    def hold_fault_of_seed(self, bad):
        circuit = self.put("circuit.txt", b"0 0 0 0")
        self.assert_bad(bad, "run", circuit, bad["seed"])
        self.assert_bad(bad, "garble", circuit, bad["seed"], "unwritten")
        self.assertFalse((self.folder / "unwritten").exists())

    def hold_fault_of_files(self, bad):
        garbled = self.put("garbled", bytes.fromhex(bad["garbled"]))
        labels = self.put_all("labels", map(bytes.fromhex, bad["labels"]))
        self.assert_bad(bad, "eval", "circuit.txt", garbled, *labels)


def damaged_bytes(draw, data):
    """The bytes after one random edit."""
    at, kind = draw.below(len(data) + 1), draw.below(6)
    if kind == 0:
        return data[:at]
    if kind == 1:
        return data[:at] + data[at + 1 + draw.below(20):]
    if kind == 2:
        return data[:at] + bytes([draw.below(256)]) * (1 + draw.below(20)) + data[at:]
    if kind == 3:
        at = draw.below(min(48, len(data) + 1))
    return data[:at] + bytes(byte ^ 1 << draw.below(8) for byte in data[at:at + 1]) + data[at + 1:]


def damaged_garbled(draw, data):
    """The garbled file after one random edit, mostly with a trailer that is right again."""
    if draw.below(2):
        return damaged_bytes(draw, data)
    if draw.below(4):
        body = damaged_bytes(draw, data[:-32])
    else:
        body = data[:40] + one_more(data[40:44]) + data[44:48] + bytes(32) + data[48:-32]
    return sealed(body)


def damaged_labels(draw, files):
    """The label files in another order, one of them missing, there twice or damaged."""
    files = draw.shuffled(files)
    place, kind = draw.below(len(files)), draw.below(8)
    if kind == 0:
        return files[:place] + files[place + 1:]
    if kind == 1:
        return [*files, files[place]]
    if kind == 2:
        files[place] = draw.choice(files)
    elif kind == 3:
        data = files.pop(place) if draw.below(2) else files[place]
        files.append(data[:12] + one_more(data[12:16]) + data[16:] + bytes(16))
    else:
        files[place] = damaged_bytes(draw, files[place])
    return files


def one_more(number):
    """The four bytes of a number that is larger by one."""
    return (int.from_bytes(number, "little") + 1).to_bytes(4, "little")


class Agreement(VectorTest):
    """The program and the reference, on random inputs."""

    def test_random_circuits(self):
        self.each(draws(150, "circuit"), self.agree_on_circuit)

    def test_damaged_texts(self):
        self.each(draws(400, "text"), self.agree_on_text)

    def test_damaged_files(self):
        self.each(draws(16, "circuit of files"), self.agree_on_files)

    def agree_on_circuit(self, draw):
        inputs, gates, unset = draw.below(12), draw.below(61), draw.below(2) * draw.below(9)
        text = respelled(draw, cases.random_circuit(draw, inputs, gates, unset))
        name, circuit = self.put_and_read(text.encode())
        seed = sha256(draw.name.encode()).digest()
        garbling = reference.garble(circuit, seed)
        values, texts = draw_values(draw, circuit)
        labels = reference.deal(circuit, garbling, values)
        outputs = bristol.show_values(bristol.plain_eval(circuit, values), circuit.output_widths)

        self.assert_lines(lines_of_circuit(circuit), "check", name)
        self.assert_lines(outputs, "plain", name, *texts)
        self.assert_lines(outputs, "run", name, seed.hex(), *texts)
        files = [reference.garbled_file(circuit, garbling, version) for version in (1, 2)]
        for version, data in enumerate(files, 1):
            workers = draw.choice((1, 2, 3, 64))
            words = name, seed.hex(), "out", "--format", version, "--workers", workers
            self.assert_writes(data, "out", "garble", *words)
        self.assert_same_eval(circuit, draw.choice(files), draw.shuffled(labels))
        for index, (text, data) in enumerate(zip(texts, labels)):
            self.assert_writes(data, "out", "deal", name, seed.hex(), index, text, "out")

    def agree_on_text(self, draw):
        text = cases.random_circuit(draw, draw.below(6), draw.below(10), draw.below(2))
        text = damaged_text(draw, text.encode())
        name = self.put("circuit.txt", text)
        ending = ending_of(lambda: lines_of_circuit(bristol.read_circuit(text)))
        self.assert_ends(ending, "check", name)

    def agree_on_files(self, draw):
        text = cases.random_circuit(draw, 1 + draw.below(12), draw.below(21), draw.below(2))
        _, circuit = self.put_and_read(text.encode())
        garbling = reference.garble(circuit, sha256(draw.name.encode()).digest())
        labels = reference.deal(circuit, garbling, draw_values(draw, circuit)[0])
        for version in 1, 2:
            garbled = reference.garbled_file(circuit, garbling, version)
            for _ in range(6):
                self.assert_same_eval(circuit, damaged_garbled(draw, garbled), labels)
                self.assert_same_eval(circuit, garbled, damaged_labels(draw, labels))

    def put_and_read(self, text):
        """The name of a circuit's file, and the circuit."""
        return self.put("circuit.txt", text), bristol.read_circuit(text)

    def assert_same_eval(self, circuit, garbled, labels):
        """Both evaluate these files to the same outputs, or tell the same fault."""
        ending = ending_of_eval(circuit, garbled, labels)
        names = [self.put("garbled", garbled), *self.put_all("labels", labels)]
        self.assert_ends(ending, "eval", "circuit.txt", *names)


if __name__ == "__main__":
    unittest.main()
