#!/usr/bin/env python3
"""A plain reading of the scheme of halfgates, and the maker of the JSON files next to it.

It follows "Two Halves Make a Whole" (Zahur, Rosulek, Evans, 2015), RFC 8439 (ChaCha20), FIPS 180-4
(SHA-256, by hashlib) and the project's docs/. bristol.py has what a circuit is. The code goes for
clarity alone: it is slow, and it hides nothing from anybody who measures it.

A label is 16 bytes. Run without arguments, it writes the JSON files; README.md says what they hold.
"""
import json
import struct
from collections import namedtuple
from hashlib import sha256
from pathlib import Path

import cases
from bristol import (
    MAX_GATES, MAX_WIRES, Fault, and_count, demand, digest, input_wires, output_wires, pack,
    place_of, plain_eval, read_circuit, read_seed, read_values, show_values, statistics, unpack,
    walk)

ZERO = bytes(16)

# AND numbers are below this, so that twice a number, and one more, has 64 bits.
MAX_AND_NUMBERS = 2**62


# ChaCha20 (RFC 8439), and what the seed stands for.


def quarter_round(state, a, b, c, d):
    """RFC 8439, section 2.1."""
    for x, y, z, turn in (a, b, d, 16), (c, d, b, 12), (a, b, d, 8), (c, d, b, 7):
        state[x] = (state[x] + state[y]) % 2**32
        word = state[z] ^ state[x]
        state[z] = (word << turn | word >> (32 - turn)) % 2**32


def chacha20_block(key, counter):
    """RFC 8439, section 2.3, with a 64-bit block counter as words 12 and 13, and then zeros."""
    start = struct.unpack("<16I", b"expand 32-byte k" + key + struct.pack("<QQ", counter, 0))
    state = list(start)
    for _ in range(10):
        for i in range(4):
            quarter_round(state, i, 4 + i, 8 + i, 12 + i)
        for i in range(4):
            quarter_round(state, i, 4 + (i + 1) % 4, 8 + (i + 2) % 4, 12 + (i + 3) % 4)
    return struct.pack("<16I", *((word + more) % 2**32 for word, more in zip(start, state)))


def offset_of(seed):
    """The free-XOR offset: bytes 0 to 15 of the keystream, with the colour bit set to 1."""
    first = chacha20_block(seed, 0)[:16]
    return bytes([first[0] | 1]) + first[1:]


def input_zero_labels(seed, count):
    """The zero label of input wire w is bytes 16(w + 1) to 16(w + 1) + 15 of the keystream."""
    stream = b"".join(chacha20_block(seed, block) for block in range(count // 4 + 1))
    return [stream[16 * (w + 1):16 * (w + 2)] for w in range(count)]


# Labels and half gates ("Two Halves Make a Whole").


def xor(*labels):
    """The bit by bit exclusive or of labels."""
    total = 0
    for label in labels:
        total ^= int.from_bytes(label, "little")
    return total.to_bytes(16, "little")


def times(bit, label):
    """The label where the bit is 1, else 16 zero bytes."""
    return label if bit else ZERO


def colour(label):
    """The point-and-permute bit: the lowest bit of byte 0."""
    return label[0] & 1


def tweaked_hash(label, tweak):
    """The first 16 bytes of the SHA-256 of the label and the tweak, 8 bytes little-endian."""
    return sha256(label + struct.pack("<Q", tweak)).digest()[:16]


def garble_and(a, b, offset, number):
    """The zero label, generator half gate and evaluator half gate of the AND gate of this number.

    a and b are the zero labels of the wires read. The paper calls this GbAnd.
    """
    hash_a0, hash_a1 = (tweaked_hash(label, 2 * number) for label in (a, xor(a, offset)))
    hash_b0, hash_b1 = (tweaked_hash(label, 2 * number + 1) for label in (b, xor(b, offset)))
    generator = xor(hash_a0, hash_a1, times(colour(b), offset))
    evaluator = xor(hash_b0, hash_b1, a)
    generator_zero = xor(hash_a0, times(colour(a), generator))
    evaluator_zero = xor(hash_b0, times(colour(b), xor(evaluator, a)))
    return xor(generator_zero, evaluator_zero), generator, evaluator


def evaluate_and(a, b, rows, number):
    """The active label that an AND gate sets, from those that it reads. The paper calls it Ev."""
    generator, evaluator = rows
    from_a = xor(tweaked_hash(a, 2 * number), times(colour(a), generator))
    from_b = xor(tweaked_hash(b, 2 * number + 1), times(colour(b), xor(evaluator, a)))
    return xor(from_a, from_b)


# `zero` has the zero label of each set wire; `rows` has the two half gates of each AND gate.
Garbling = namedtuple("Garbling", "offset zero rows")


def garble(circuit, seed):
    """The garbling of the circuit under the seed. AND gates are numbered from 0, in file order."""
    inputs = input_zero_labels(seed, len(input_wires(circuit)))
    return garble_from(circuit, offset_of(seed), inputs, 0)


def garble_from(circuit, offset, inputs, first):
    """The garbling from an offset, the zero labels of the input wires, and the first AND number."""
    demand(colour(offset) == 1 and len(inputs) == len(input_wires(circuit)), 60, "BadArgument")
    demand(first + and_count(circuit) <= MAX_AND_NUMBERS, 60, "BadArgument")
    rows = []

    def zero_label(gate, a=ZERO, b=ZERO):
        if gate.operation == "AND":
            zero, *pair = garble_and(a, b, offset, first + len(rows))
            rows.append(pair)
            return zero
        constant = times(gate.numbers[0], offset)
        zeros = {"XOR": xor(a, b), "INV": xor(a, offset), "EQ": constant, "EQW": a}
        return zeros[gate.operation]

    return Garbling(offset, walk(circuit, inputs, zero_label), rows)


def encode(garbling, wire, bit):
    """The active label that stands for the bit on the wire."""
    return xor(garbling.zero[wire], times(bit, garbling.offset))


def decode_bits(circuit, garbling):
    """A decode bit for each output wire: the colour of its zero label."""
    return [colour(garbling.zero[wire]) for wire in output_wires(circuit)]


def decode_entries(circuit, garbling):
    """Two decode entries for each output wire: the hashes of its labels of colour 0 and colour 1.

    Output i has the tweak 2A + i, where A is the number of AND gates.
    """
    pairs = []
    for tweak, wire in enumerate(output_wires(circuit), 2 * len(garbling.rows)):
        labels = sorted((encode(garbling, wire, bit) for bit in (0, 1)), key=colour)
        pairs.append([tweaked_hash(label, tweak) for label in labels])
    return pairs


# Garbled files and label files. All their numbers are four bytes, little-endian.

MAGICS = {1: b"HGARBLE1", 2: b"HGARBLE2"}
LABELS_MAGIC = b"HLABELS1"
Garbled = namedtuple("Garbled", "digest rows decode_bits decode_entries")


def garbled_file(circuit, garbling, version):
    """The garbled file of version 1, or 2, which has decode entries too."""
    bits = decode_bits(circuit, garbling)
    body = MAGICS[version] + digest(circuit) + struct.pack("<II", len(garbling.rows), len(bits))
    body += b"".join(half for pair in garbling.rows for half in pair) + pack(bits)
    if version == 2:
        body += b"".join(entry for pair in decode_entries(circuit, garbling) for entry in pair)
    return body + sha256(body).digest()


def label_file(circuit, garbling, index, bits):
    """The label file of the input value of this index, counted from 0."""
    first = sum(circuit.input_widths[:index])
    labels = [encode(garbling, first + i, bit) for i, bit in enumerate(bits)]
    return LABELS_MAGIC + struct.pack("<II", index, len(bits)) + b"".join(labels)


class Pieces:
    """The bytes of a file, from its beginning on. A fault shows as soon as its bytes are there."""

    def __init__(self, data, *magics):
        self.data, self.at = data, 0
        demand(any(magic.startswith(data[:8]) for magic in magics), 30, "BadMagic")
        self.magic = self.take(8)

    def take(self, count):
        """The next bytes, this many."""
        piece = self.data[self.at:self.at + count]
        demand(len(piece) == count, 31, "Truncated")
        self.at += count
        return piece

    def number(self, limit=2**32 - 1):
        """The next number."""
        value = int.from_bytes(self.take(4), "little")
        demand(value <= limit, 33, "CountTooLarge")
        return value

    def labels(self, count):
        """This many pieces of 16 bytes."""
        data = self.take(16 * count)
        return [data[i:i + 16] for i in range(0, len(data), 16)]

    def pairs(self, count):
        """This many pairs of pieces of 16 bytes."""
        halves = iter(self.labels(2 * count))
        return list(zip(halves, halves))

    def end(self):
        """Nothing follows."""
        demand(self.at == len(self.data), 32, "Trailing")


def read_garbled(data):
    """The parts of a garbled file of either version; there are no decode entries in version 1."""
    pieces = Pieces(data, *MAGICS.values())
    circuit_digest = pieces.take(32)
    row_count, output_count = pieces.number(MAX_GATES), pieces.number(MAX_WIRES)
    rows = pieces.pairs(row_count)
    bits, others_zero = unpack(pieces.take((output_count + 7) // 8), output_count)
    demand(others_zero, 34, "SpareBits")
    entries = pieces.pairs(output_count) if pieces.magic == MAGICS[2] else None
    expected = sha256(data[:pieces.at]).digest()
    demand(pieces.take(32) == expected, 35, "BadTrailer")
    pieces.end()
    return Garbled(circuit_digest, rows, bits, entries)


def read_label_file(data):
    """The index of the input value, and its labels."""
    pieces = Pieces(data, LABELS_MAGIC)
    index, width = pieces.number(), pieces.number(MAX_WIRES)
    labels = pieces.labels(width)
    pieces.end()
    return index, labels


def bind(circuit, garbled, label_files):
    """The active labels of the input wires, where the files fit the circuit."""
    demand(garbled.digest == digest(circuit), 40, "OtherCircuit")
    counts = len(garbled.rows), len(garbled.decode_bits)
    demand(counts == (and_count(circuit), len(output_wires(circuit))), 41, "OtherCounts")
    values = {}
    for index, labels in label_files:
        demand(index < len(circuit.input_widths), 42, "NoSuchValue")
        demand(len(labels) == circuit.input_widths[index], 43, "WrongWidth")
        demand(index not in values, 44, "DoubleValue")
        values[index] = labels
    demand(len(values) == len(circuit.input_widths), 45, "MissingValue")
    return [label for index in sorted(values) for label in values[index]]


def evaluate_labels(circuit, rows, inputs, first):
    """The active labels of the output wires, from those of the input wires."""
    rows = iter(enumerate(rows, first))

    def active_label(gate, a=ZERO, b=ZERO):
        if gate.operation == "AND":
            number, pair = next(rows)
            return evaluate_and(a, b, pair, number)
        return {"XOR": xor(a, b), "INV": a, "EQ": ZERO, "EQW": a}[gate.operation]

    active = walk(circuit, inputs, active_label)
    return [active[wire] for wire in output_wires(circuit)]


def decode(labels, bits):
    """The bits of active output labels: each decode bit, changed by the label's colour."""
    return [bit ^ colour(label) for bit, label in zip(bits, labels)]


def evaluate(circuit, garbled, inputs):
    """The active labels of the output wires, and the bits that they decode to."""
    labels = evaluate_labels(circuit, garbled.rows, inputs, 0)
    for i, (label, entries) in enumerate(zip(labels, garbled.decode_entries or [])):
        is_known = entries[colour(label)] == tweaked_hash(label, 2 * len(garbled.rows) + i)
        demand(is_known, 48, "UnknownOutputLabel")
    return labels, decode(labels, garbled.decode_bits)


# The JSON files.


def fault_of(read, *inputs):
    """The first fault that the reading of these inputs raises, and its place if it has one."""
    try:
        read(*inputs)
    except Fault as fault:
        place = {} if fault.at is None else place_of(*inputs, fault)
        return {"fault": fault.number, "name": fault.name, **place}
    raise ValueError(f"no fault: {inputs}")


def eval_files(circuit, garbled_data, label_data):
    """The active output labels and the output bits of these files."""
    garbled = read_garbled(garbled_data)
    label_files = [read_label_file(data) for data in label_data]
    return evaluate(circuit, garbled, bind(circuit, garbled, label_files))


def lines_of(data):
    """Hexadecimal digits, 32 bytes a line."""
    return [data[i:i + 32].hex() for i in range(0, len(data), 32)]


def deal(circuit, garbling, values):
    """The label files of all values."""
    return [label_file(circuit, garbling, index, bits) for index, bits in enumerate(values)]


def vector(case):
    """The worked circuit of a case: all that a garbling of it has, and evaluations."""
    circuit, seed = read_circuit(case.text.encode()), read_seed(case.seed)
    garbling = garble(circuit, seed)
    files = {version: garbled_file(circuit, garbling, version) for version in MAGICS}
    evaluations = []
    for texts in case.value_lists(circuit.input_widths):
        values = read_values(texts, circuit.input_widths)
        label_data = deal(circuit, garbling, values)
        labels, bits = eval_files(circuit, files[2], label_data)
        assert bits == plain_eval(circuit, values)
        evaluations.append({
            "values": texts,
            "hex_values": ["x" + pack(bits).hex() for bits in values],
            "label_files": [data.hex() for data in label_data],
            "active_output_labels": [label.hex() for label in labels],
            "outputs": show_values(bits, circuit.output_widths),
        })
    return {
        "about": case.about,
        "circuit": case.text.split("\n"),
        "digest": digest(circuit).hex(),
        "gates": len(circuit.gates),
        "wires": circuit.wires,
        "and_gates": and_count(circuit),
        "input_widths": circuit.input_widths,
        "output_widths": circuit.output_widths,
        "statistics": statistics(circuit),
        "seed": case.seed,
        "offset": garbling.offset.hex(),
        "zero_labels": {str(wire): garbling.zero[wire].hex() for wire in sorted(garbling.zero)},
        "rows": [dict(zip(("generator", "evaluator"), (half.hex() for half in pair)))
                 for pair in garbling.rows],
        "decode_bits": "".join(map(str, decode_bits(circuit, garbling))),
        "decode_entries": [[entry.hex() for entry in pair]
                           for pair in decode_entries(circuit, garbling)],
        "garbled_file_1": lines_of(files[1]),
        "garbled_file_2": lines_of(files[2]),
        "evaluations": evaluations,
    }


def bad_files():
    """Garbled files and label files that a circuit can't be evaluated with."""
    case = cases.OF_BAD_FILES
    circuit = read_circuit(case.text.encode())
    garbling = garble(circuit, read_seed(case.seed))
    garbled = [garbled_file(circuit, garbling, version) for version in MAGICS]
    widths = circuit.input_widths
    labels = deal(circuit, garbling, read_values(case.value_lists(widths)[0], widths))
    return {"circuit": case.text.split("\n"), "files": [
        {"about": about, "garbled": data.hex(), "labels": [file.hex() for file in label_data],
         **fault_of(eval_files, circuit, data, label_data)}
        for about, data, label_data in cases.bad_files(*garbled, labels)]}


def texts_of(labels):
    """The labels in hexadecimal digits."""
    return [label.hex() for label in labels]


def split(items, widths):
    """The items in lists of these lengths."""
    items = iter(items)
    return [[next(items) for _ in range(width)] for width in widths]


def chain(case):
    """Garblings under one offset, where input wires take over outputs of the circuit before.

    The AND gates of each circuit have the numbers after those of the circuit before.
    """
    links, first = [], case.first
    out_zeros, out_bits, out_actives = [], [], []  # of the circuit before
    for text, joint in zip(case.texts, case.joints):
        circuit, own, own_bits = read_circuit(text.encode()), case.labels(joint), case.bits(joint)
        own_actives = [xor(it, times(bit, case.offset)) for it, bit in zip(own, own_bits)]
        zeros = taken(joint, own, out_zeros)
        bits = taken(joint, own_bits, out_bits)
        actives = taken(joint, own_actives, out_actives)
        garbling = garble_from(circuit, case.offset, zeros, first)
        out_zeros = [garbling.zero[wire] for wire in output_wires(circuit)]
        out_actives = evaluate_labels(circuit, garbling.rows, actives, first)
        out_bits = decode(out_actives, decode_bits(circuit, garbling))
        assert out_bits == plain_eval(circuit, split(bits, circuit.input_widths))
        links.append({
            "circuit": text.split("\n"),
            "joint": joint,
            "first": str(first),
            "input_zero_labels": texts_of(zeros),
            "rows": ["".join(texts_of(pair)) for pair in garbling.rows],
            "decode_bits": "".join(map(str, decode_bits(circuit, garbling))),
            "output_zero_labels": texts_of(out_zeros),
            "output_one_labels": texts_of(xor(it, case.offset) for it in out_zeros),
            "bits": "".join(map(str, bits)),
            "active_input_labels": texts_of(actives),
            "active_output_labels": texts_of(out_actives),
            "outputs": "".join(map(str, out_bits)),
        })
        first += and_count(circuit)
    return {"about": case.about, "offset": case.offset.hex(), "links": links}


def taken(joint, own, before):
    """What each input wire has: its own, or what the output has that the joint names."""
    return [mine if output is None else before[output] for output, mine in zip(joint, own)]


def documents():
    """What each JSON file holds, by its name."""
    made = {case.name: vector(case) for case in cases.CASES}
    made["joined"] = [chain(case) for case in cases.CHAINS]
    made["bad_circuits"] = [
        {"about": about, "text": text, **fault_of(read_circuit, text.encode())}
        for about, text in cases.BAD_CIRCUITS]
    made["bad_values"] = [
        {"about": about, "widths": widths, "values": texts, **fault_of(read_values, texts, widths)}
        for about, widths, texts in cases.BAD_VALUES]
    made["bad_seeds"] = [
        {"about": about, "seed": text, **fault_of(read_seed, text)}
        for about, text in cases.BAD_SEEDS]
    made["bad_files"] = bad_files()
    return {f"{name}.json": pretty(document) + "\n" for name, document in made.items()}


def pretty(value, indent=""):
    """JSON in which a value has one line where it fits, and else a line for each of its parts."""
    line = json.dumps(value)
    if len(indent) + len(line) <= 110 or not isinstance(value, (dict, list)):
        return line
    inner = indent + " "
    if isinstance(value, dict):
        parts = [f"{json.dumps(key)}: {pretty(part, inner)}" for key, part in value.items()]
    else:
        parts = [pretty(part, inner) for part in value]
    return f"{line[0]}\n{inner}" + f",\n{inner}".join(parts) + f"\n{indent}{line[-1]}"


if __name__ == "__main__":
    for file_name, contents in documents().items():
        Path(__file__).with_name(file_name).write_text(contents)
