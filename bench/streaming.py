#!/usr/bin/env python3
"""Times garbling and evaluating in pieces, beside the whole at once, and two processes that do so over a socket.

  streaming.py LIBRARY

LIBRARY is the shared library. What is compared runs in turns, and the fastest run counts. A C compiler is needed. The
tables are those of docs/SPEED.md.
"""

import os
import subprocess
import sys
import tempfile
from pathlib import Path

from measure import CIRCUITS, TOP, make, print_cells, print_columns

TURNS = 7
NAMES = [
    "SHA-256's compression, 8 times",
    "AES-128, 33 times",
    "64 chains of AND gates",
    "gates that read within a thousand, half AND",
]


def build(library, program):
    """Links with the shared library, of the kind of processor that is at hand."""
    library = Path(library).resolve()
    words = [os.environ.get("CC", "cc"), "-O2", f"-I{TOP}/include", TOP / "bench/streaming.c", library]
    subprocess.run([*words, f"-Wl,-rpath,{library.parent}", "-o", program], check=True)


def times_of(program, circuit):
    """The milliseconds of each part, by name."""
    words = [program, circuit, str(TURNS)]
    printed = subprocess.run(words, stdout=subprocess.PIPE, text=True, check=True).stdout
    return {name: int(number) / 1e6 for name, number in map(str.split, printed.splitlines())}


def main():
    [library] = sys.argv[1:]
    found = {}
    with tempfile.TemporaryDirectory() as folder:
        program, circuit = f"{folder}/streaming", f"{folder}/circuit"
        build(library, program)
        for name in NAMES:
            make(CIRCUITS[name], circuit)
            found[name] = times_of(program, circuit)
    parts = "garble", "garble256", "garble4096", "evaluate", "evaluate256", "evaluate4096"
    print_columns("In pieces", *("Garbling", "of 256", "of 4,096"), *("Evaluating", "of 256", "of 4,096"))
    for name, took in found.items():
        print_cells(name, *(f"{took[part]:.1f}" for part in parts))
    print_columns("Two processes", "All at once", "Pipelined", "Ratio", "First row pair", "Pipelined")
    for name, took in found.items():
        ratio = took["pipelined"] / took["apart"]
        whole, first = (took["apart"], took["pipelined"]), (took["first_apart"], took["first_pipelined"])
        print_cells(name, *(f"{it:.1f}" for it in whole), f"{ratio:.2f}", *(f"{it:.2f}" for it in first))


main()
