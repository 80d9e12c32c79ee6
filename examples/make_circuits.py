#!/usr/bin/env python3
"""Writes circuits in Bristol Fashion.

Without arguments it writes full_adder.txt, adder64.txt and less8.txt next to this script. With the name
of a circuit it writes that circuit to FILE.

Wire 0 of a value is its lowest bit. So a number is typed as x and its bytes in hexadecimal digits,
lowest byte first: x0100000000000000 is the 1 of 64 bits. Byte i of a key, a block or a digest is
the wires 8i to 8i+7, lowest bit first: it is typed as x and its bytes as the standards print them.

The program prints a character for each wire, wire 0 first. This turns what it prints into bytes in
hexadecimal digits, in the order in which they are typed:

  ./halfgates plain aes128.txt xKEY xBLOCK |
  python3 -c 'for v in open(0): print(int(v[-2::-1], 2).to_bytes(len(v) // 8, "little").hex())'

answers.json next to this script has values to try, and what the circuits answer.
"""

import sys
from argparse import ArgumentParser, RawDescriptionHelpFormatter
from functools import partial
from pathlib import Path

from circuits import aes, arithmetic, sha256
from circuits.builder import Builder


def full_adder():
    circuit = Builder(1, 1, 1)
    [a], [b], [carry] = circuit.inputs
    a_carry, b_carry = circuit.xor(a, carry), circuit.xor(b, carry)
    both = circuit.and_(a_carry, b_carry)
    circuit.output([circuit.xor(a_carry, b), circuit.xor(both, carry)])
    return circuit


def add(width):
    circuit = Builder(width, width)
    circuit.output(arithmetic.add(circuit, *circuit.inputs))
    return circuit


def less(width):
    circuit = Builder(width, width)
    circuit.output([arithmetic.less(circuit, *circuit.inputs, tie=circuit.constant(0))])
    return circuit


def multiply(width):
    circuit = Builder(width, width)
    circuit.output(arithmetic.multiply(circuit, *circuit.inputs))
    return circuit


def sort(count, width):
    circuit = Builder(*[width] * count)
    circuit.output(*arithmetic.sort(circuit, circuit.inputs))
    return circuit


def aes128():
    circuit = Builder(128, 128)
    circuit.output(aes.cipher(circuit, *circuit.inputs))
    return circuit


def sha256_block():
    circuit = Builder(512, 256)
    circuit.output(sha256.compress(circuit, *circuit.inputs))
    return circuit


def chains(count, length):
    """Chain i begins with wire i of the first value, and each of its gates takes wire i of the
    second.
    """
    circuit = Builder(count, count)
    ends = []
    for end, other in zip(*circuit.inputs):
        for _ in range(length):
            end = circuit.and_(end, other)
        ends.append(end)
    circuit.output(ends)
    return circuit


# What makes each circuit, and what it computes.
CIRCUITS = {
    "full_adder": (full_adder, "The sum and the carry of three bits, as one value of two bits."),
    "add64": (partial(add, 64), "The sum of two numbers of 64 bits, modulo 2^64."),
    "less8": (partial(less, 8), "Whether the first of two numbers of 8 bits is less."),
    "less64": (partial(less, 64), "Whether the first of two numbers of 64 bits is less."),
    "mul32": (partial(multiply, 32), "The product, of 64 bits, of two numbers of 32 bits."),
    "mul64": (partial(multiply, 64), "The product, of 128 bits, of two numbers of 64 bits."),
    "sort8x8": (partial(sort, 8, 8), "Eight numbers of 8 bits in ascending order."),
    "aes128": (aes128, "AES-128 (FIPS 197): of a key and a block, the encrypted block."),
    "sha256": (
        sha256_block,
        "SHA-256's compression (FIPS 180-4): of a block of 64 bytes and a chaining value of 32, the"
        " next chaining value.",
    ),
    "chains": (chains, "Chains of AND gates, one after another in the file, on two values."),
}

# What is written where no circuit is named.
UNNAMED = {"full_adder.txt": "full_adder", "adder64.txt": "add64", "less8.txt": "less8"}


def positive(word):
    number = int(word)
    if number < 1:
        raise ValueError
    return number


def command_line():
    """The words of the command line."""
    parser = ArgumentParser(
        usage="%(prog)s [-h] [NAME .. FILE]",
        description=__doc__,
        formatter_class=RawDescriptionHelpFormatter,
    )
    names = parser.add_subparsers(
        dest="name", metavar="NAME", title="circuits", prog=parser.prog
    )
    for name, (_, said) in CIRCUITS.items():
        command = names.add_parser(name, help=said, description=said)
        if name == "chains":
            command.add_argument("count", type=positive, metavar="CHAINS")
            command.add_argument("length", type=positive, metavar="LENGTH")
        command.add_argument("file", type=Path, metavar="FILE")
        command.add_argument(
            "--times",
            type=positive,
            default=1,
            metavar="N",
            help="write N copies, one after another, each on values of its own: first the values of"
            " the first copy (the program takes 256 values at most)",
        )
        command.add_argument(
            "--by-depth",
            action="store_true",
            help="write the gates in order of AND depth, as the program's `order` does: garbling and"
            " evaluating the circuit then takes less time",
        )
    return parser.parse_args()


def write(path, name, *numbers, **how):
    """Writes the circuit of this name."""
    make, _ = CIRCUITS[name]
    with path.open("w") as file:
        make(*numbers).write(file, **how)


def main():
    words = command_line()
    if words.name is None:
        for file, name in UNNAMED.items():
            write(Path(__file__).with_name(file), name)
        return
    numbers = (words.count, words.length) if words.name == "chains" else ()
    write(words.file, words.name, *numbers, times=words.times, by_depth=words.by_depth)


if __name__ == "__main__":
    try:
        main()
    except OSError as error:
        sys.exit(str(error))
