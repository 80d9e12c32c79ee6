#!/usr/bin/env python3
"""SHA-256 of a message of any length, by the circuit of its compression: a garbled circuit for each block, all under
one offset. The labels of the state that one block gives are the labels that the next block takes.

  sha256_chain.py CIRCUIT MESSAGE

CIRCUIT is the file that `examples/make_circuits.py sha256 CIRCUIT` writes. MESSAGE is hashed as UTF-8, and its digest
is printed. Both parties are in this one program. Row pairs go from one to the other in pieces, so neither holds those
of a block, however long the message is.
"""

import secrets
import sys
from argparse import ArgumentParser
from hashlib import sha256
from pathlib import Path

from halfgates import Circuit, Fault, decode, from_bits, to_bits

LABEL = 16
PIECE = 4096  # the AND gates of a piece of row pairs
BLOCK, STATE = 0, 1  # the input values of the circuit

# The initial hash value of FIPS 180-4, section 5.3.3.
INITIAL = bytes.fromhex("6a09e667bb67ae853c6ef372a54ff53a510e527f9b05688c1f83d9ab5be0cd19")


def padded(message):
    """The message as whole blocks (FIPS 180-4, section 5.1.1)."""
    zeros = -(len(message) + 9) % 64
    return message + b"\x80" + bytes(zeros) + (8 * len(message)).to_bytes(8, "big")


def bits_of(data):
    """Byte i is the wires 8i to 8i + 7, the lowest bit first."""
    return to_bits(int.from_bytes(data, "little"), 8 * len(data))


def active_labels(pairs, bits):
    """The labels of wires that stand for these bits, from both labels of each."""
    return b"".join(pairs[bit][LABEL * wire : LABEL * (wire + 1)] for wire, bit in enumerate(bits))


class Garbler:
    """Has the message. Where blocks are the evaluator's, their labels come by oblivious transfer."""

    def __init__(self, circuit):
        self.circuit, self.first, self.decode_bits = circuit, 0, None
        offset = secrets.token_bytes(LABEL)
        self.offset = bytes([offset[0] | 1]) + offset[1:]
        self.state = secrets.token_bytes(LABEL * circuit.input_widths[STATE])

    def begin(self):
        """Begins to garble a block. Its state takes over the zero labels of the state before it."""
        zeros = secrets.token_bytes(LABEL * self.circuit.input_widths[BLOCK])
        garbling = self.circuit.garbler_from(self.offset, zeros + self.state, self.first)
        self.first += self.circuit.and_gates  # under one offset no AND number is used twice
        return garbling

    def messages(self, message):
        """For each block what goes to the evaluator: its row pairs in pieces, which it takes before the next block, the
        labels of the block, and those of the initial state before the first block. The decode bits are for the end: the
        states between stay secret."""
        blocks = padded(message)
        for at in range(0, len(blocks), 64):
            with self.begin() as garbling:
                labels = active_labels(garbling.input_labels(BLOCK), bits_of(blocks[at : at + 64]))
                state = active_labels(garbling.input_labels(STATE), bits_of(INITIAL)) if at == 0 else None
                yield garbling.pieces(PIECE), labels, state
                self.state, _ = garbling.output_labels(0)
                self.decode_bits = garbling.decode_bits()


def evaluate(circuit, messages):
    """The labels of the last state, from what the garbler sends."""
    state, first = b"", 0
    for pieces, labels, initial in messages:
        with circuit.evaluator(first, labels + (initial or state)) as evaluation:
            for rows in pieces:
                evaluation.feed(rows)
            state = evaluation.output_labels()
        first += circuit.and_gates
    return state


def main():
    parser = ArgumentParser(description=__doc__.partition("\n\n")[0])
    parser.add_argument("circuit", type=Path, metavar="CIRCUIT")
    parser.add_argument("message", metavar="MESSAGE")
    words = parser.parse_args()
    message = words.message.encode()
    with Circuit.open(words.circuit, digest=False) as circuit:
        if (circuit.input_widths, circuit.output_widths) != ((512, 256), (256,)):
            sys.exit("the circuit isn't the compression of SHA-256: examples/make_circuits.py sha256 writes it")
        garbler = Garbler(circuit)
        state = evaluate(circuit, garbler.messages(message))
    digest = from_bits(decode(state, garbler.decode_bits)).to_bytes(32, "little")
    print(digest.hex())
    if digest != sha256(message).digest():
        sys.exit("hashlib has another digest")


if __name__ == "__main__":
    try:
        main()
    except (OSError, Fault) as error:
        sys.exit(str(error))
