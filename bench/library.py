#!/usr/bin/env python3
"""Times the library from C and from Python, compared with the program and its parts.

  library.py PROGRAM BENCH LIBRARY

BENCH is gc_bench, and LIBRARY the shared library, with the archive next to it. What is compared runs in turns, and the
fastest run counts. A C compiler is needed.
"""

import os
import subprocess
import sys
import tempfile
import time
from pathlib import Path

from measure import TOP, make, times

# Circuits on which garbling from C is held against `garble_one_thread`.
CIRCUITS = {
    "within a thousand, half AND": "bench/make_circuit.py 1000000 0.5 FILE",
    "independent, all XOR": "bench/make_circuit.py 1000000 0 FILE independent",
    "aes128, 33 times": "examples/make_circuits.py aes128 FILE --times 33",
}
TURNS, SEEDS = 7, 100


def build(library, program):
    archive = Path(library).with_name("libhalfgates.a")
    words = [os.environ.get("CC", "cc"), "-O2", f"-I{TOP}/include", TOP / "bench/library.c", archive, "-o", program]
    subprocess.run(words, check=True)


def from_c(program, circuit, repeats, seeds):
    """The nanoseconds of each part, by name."""
    words = [program, circuit, str(repeats), str(seeds)]
    printed = subprocess.run(words, stdout=subprocess.PIPE, text=True, check=True).stdout
    return {name: int(number) for name, number in map(str.split, printed.splitlines())}


def from_python(circuit):
    """The nanoseconds of reading a circuit once and making its garbled files under SEEDS seeds."""
    from halfgates import Circuit

    start = time.monotonic_ns()
    with Circuit.read(Path(circuit).read_bytes()) as it:
        file = bytearray(it.garbled_size())
        for number in range(SEEDS):
            with it.garble(number.to_bytes(32, "little")) as garbling:
                garbling.write_into(file)
    return time.monotonic_ns() - start


def by_program(program, circuit, file):
    """The same by the program, which is started once for each seed."""
    start = time.monotonic_ns()
    for number in range(SEEDS):
        seed = number.to_bytes(32, "little").hex()
        subprocess.run([program, "garble", circuit, seed, file], stdout=subprocess.DEVNULL, check=True)
    return time.monotonic_ns() - start


def print_garbling(bench, program, circuit):
    for name, command in CIRCUITS.items():
        make(command, circuit)
        here, there = [], []
        for _ in range(TURNS):
            there.append(times(bench, circuit, 1, "garble")["garble"])
            here.append(from_c(program, circuit, 1, 0)["garble"])
        ratio = min(here) / min(there)
        print(f"{name}: garbling from C {min(here) / 1e6:.1f} ms, {ratio:.3f} times garble_one_thread (at most 1.05)")


def print_seeds(halfgates, program, circuit, file):
    make("examples/make_circuits.py aes128 FILE", circuit)
    took = {"C": [], "Python": [], "the program": []}
    for _ in range(TURNS):
        parts = from_c(program, circuit, 0, SEEDS)
        took["C"].append(parts["read"] + parts["files"])
        took["Python"].append(from_python(circuit))
        took["the program"].append(by_program(halfgates, circuit, file))
    said = ", ".join(f"{name} {min(runs) / 1e6:.1f} ms" for name, runs in took.items())
    print(f"AES-128 garbled under {SEEDS} seeds, with the files: {said}")


def main():
    halfgates, bench, library = sys.argv[1:]
    os.environ["HALFGATES_LIBRARY"] = library
    sys.path.append(str(TOP / "python"))
    with tempfile.TemporaryDirectory() as folder:
        program, circuit = f"{folder}/library", f"{folder}/circuit"
        build(library, program)
        print_garbling(bench, program, circuit)
        print_seeds(halfgates, program, circuit, f"{folder}/garbled")


main()
