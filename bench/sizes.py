#!/usr/bin/env python3
"""Times garbling and evaluating circuits of a thousand to sixteen million gates.

  sizes.py BENCH

BENCH is gc_bench. It prints a table with the columns of workers.py. The gates read within a
thousand, and half of them are AND.
"""

import sys
import tempfile

from measure import PARTS, make, print_times, times

SIZES = 1_000, 4_000, 16_000, 64_000, 250_000, 1_000_000, 4_000_000, 16_000_000


def main():
    [bench] = sys.argv[1:]
    with tempfile.TemporaryDirectory() as folder:
        file = f"{folder}/circuit"
        for gates in SIZES:
            make(f"bench/make_circuit.py {gates} 0.5 FILE", file)
            repeats = max(2, min(100, 5_000_000 // gates))
            print_times(f"size {gates}", times(bench, file, repeats, *PARTS))


main()
