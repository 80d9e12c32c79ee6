"""What the scripts of the benchmark share: circuits, and the times of parts, in tables."""

import subprocess
import sys
from pathlib import Path

TOP = Path(__file__).resolve().parents[1]

# Circuits of about a million gates, and what makes them. A circuit has 256 input values at most, so
# there are no more than 128 products.
CIRCUITS = {
    "SHA-256's compression, 8 times": "examples/make_circuits.py sha256 FILE --times 8",
    "AES-128, 33 times": "examples/make_circuits.py aes128 FILE --times 33",
    "32-bit products, 128 times": "examples/make_circuits.py mul32 FILE --times 128",
    "64 chains of AND gates": "examples/make_circuits.py chains 64 15625 FILE",
    "independent gates, all AND": "bench/make_circuit.py 1000000 1 FILE independent",
    "independent gates, half AND": "bench/make_circuit.py 1000000 0.5 FILE independent",
    "independent gates, a quarter AND": "bench/make_circuit.py 1000000 0.25 FILE independent",
    "independent gates, all XOR": "bench/make_circuit.py 1000000 0 FILE independent",
    "gates that read within a thousand, half AND": "bench/make_circuit.py 1000000 0.5 FILE",
}

# The same gates in order of AND depth.
BY_DEPTH = {
    f"{name}, by depth": f"{command} --by-depth"
    for name, command in CIRCUITS.items()
    if command.startswith("examples/")
}

# Two of them once, which the caches of a processor hold.
ONCE_BY_DEPTH = {
    "SHA-256's compression, by depth": "examples/make_circuits.py sha256 FILE --by-depth",
    "AES-128, by depth": "examples/make_circuits.py aes128 FILE --by-depth",
}

# Garbling and evaluating, on one thread and by one, two and four workers.
PARTS = ["garble", "garble1", "garble2", "garble4", "job", "job1", "job2", "job4"]


def make(command, file):
    """Writes a circuit by a script of this repository. FILE in the command stands for its file."""
    script, *words = [file if word == "FILE" else word for word in command.split()]
    subprocess.run([sys.executable, TOP / script, *words], check=True)


def input_widths(circuit):
    """The widths of the input values of a circuit's file."""
    with open(circuit) as file:
        file.readline()
        return [int(width) for width in file.readline().split()[1:]]


def times(bench, circuit, repeats, *parts):
    """The fastest runs of parts in nanoseconds, and the numbers of gates and AND gates, by name.

    The parts run in turns, since the speed of a machine changes while it works.
    """
    words = [bench, circuit, str(repeats), *parts]
    printed = subprocess.run(words, stdout=subprocess.PIPE, text=True, check=True).stdout
    return {name: int(number) for name, number in map(str.split, printed.splitlines())}


def print_row(name, *cells):
    print(f"{name:43}", *[f"{cell:>9}" for cell in cells], flush=True)


def print_columns(*names):
    """The head of a table of docs/SPEED.md."""
    print()
    print_cells(*names)
    print(f"|{len(names) * '---|'}", flush=True)


def print_cells(*cells):
    """A row of such a table."""
    print("|", " | ".join(cells), "|", flush=True)


def print_times(name, took):
    """A row with the numbers of gates and AND gates of a circuit, and the milliseconds of PARTS."""
    counts = [f"{took[count]:,}" for count in ("gates", "and")]
    milliseconds = [took[part] / 1e6 for part in PARTS]
    print_row(name, *counts, *[f"{it:.1f}" if it >= 10 else f"{it:.3f}" for it in milliseconds])
