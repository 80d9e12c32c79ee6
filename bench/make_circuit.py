#!/usr/bin/env python3
"""Writes a random circuit in Bristol Fashion. The same arguments give the same file.

  make_circuit.py GATES AND_SHARE FILE [independent]

Two inputs and one output of 64 wires. Each gate is AND with the given share, else XOR, and reads wires among the last
thousand before it; or, where the gates are to be independent, input wires alone.
"""
import random
import sys

INPUTS, OUTPUTS, WINDOW = 128, 64, 1000


def main():
    try:
        gates, share, name, *rest = int(sys.argv[1]), float(sys.argv[2]), *sys.argv[3:]
    except (IndexError, ValueError):
        sys.exit(__doc__)
    independent = rest == ["independent"]
    rng = random.Random(1)
    with open(name, "w") as out:
        out.write(f"{gates} {INPUTS + gates}\n2 64 64\n1 {OUTPUTS}\n\n")
        for wire in range(INPUTS, INPUTS + gates):
            first, end = (0, INPUTS) if independent else (max(0, wire - WINDOW), wire)
            a, b = rng.randrange(first, end), rng.randrange(first, end)
            out.write(f"2 1 {a} {b} {wire} {'AND' if rng.random() < share else 'XOR'}\n")


main()
