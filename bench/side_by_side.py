#!/usr/bin/env python3
"""Times garbling and evaluating one circuit several times, one after another and side by side.

  side_by_side.py BENCH

BENCH is gc_bench. It prints three tables of docs/SPEED.md, of the fastest of nine runs on one
thread: a garbling alone, and each of two side by side; a job alone, and each of four side by side.
The second has what an AND gate takes, beside its hashes alone, eight at once: four to garble it, and
two to evaluate it. A list has the same of circuits by depth, where only these three parts take turns.
The third has SHA-256 of a garbled file alone, and of each of eight side by side.
"""

import sys
import tempfile

from measure import (
    BY_DEPTH,
    CIRCUITS,
    ONCE_BY_DEPTH,
    make,
    print_cells,
    print_columns,
    times,
)

# How long one of several side by side may take at the most, in times one alone.
MOST = {
    "SHA-256's compression, 8 times": (0.66, 0.55),
    "AES-128, 33 times": (0.91, None),
    "64 chains of AND gates": (0.6, 0.35),
}

# How long an AND gate of a circuit by depth may take at the most, in times its hashes: to garble it,
# and to evaluate it.
MOST_BY_DEPTH = 1.35, 1.6

# A circuit without AND gates has no hashes to time.
WITHOUT_HASHES = "independent gates, all XOR"


def main():
    [bench] = sys.argv[1:]
    columns = "Garbling", "Each of two", "Ratio", "Evaluating", "Each of four", "Ratio"
    print_columns("Milliseconds", *columns)
    rows, hashed = {}, {}
    with tempfile.TemporaryDirectory() as folder:
        file = f"{folder}/circuit"
        for name, command in {**CIRCUITS, **BY_DEPTH}.items():
            if name == WITHOUT_HASHES:
                continue
            make(command, file)
            parts = "garble", "garble_two", "job", "job_four", "eight_lanes"
            took = times(bench, file, 9, *parts, "file_sha", "eight_sha", "kit_sha")
            rows[name] = print_ratios(name, took)
            hashed[name] = took
    columns = "Garbling", "Each of two", "4 hashes", "Evaluating", "Each of four", "2 hashes"
    print_columns("Nanoseconds an AND gate", *columns)
    for name, row in rows.items():
        print_cells(name, *[f"{it:.0f}" for it in row])
    print_by_depth(bench)
    print_columns("Milliseconds", "SHA-256 of a file", "Each of eight", "Ratio", "By `sha2`")
    for name, took in hashed.items():
        alone, beside, kit = took["file_sha"], took["eight_sha"] / 8, took["kit_sha"]
        cells = [f"{alone / 1e6:.2f}", f"{beside / 1e6:.2f}", f"{beside / alone:.2f}"]
        print_cells(name, *cells, f"{kit / 1e6:.2f}")


def print_by_depth(bench):
    """Prints what an AND gate takes by depth, in times its hashes."""
    garble, evaluate = MOST_BY_DEPTH
    with tempfile.TemporaryDirectory() as folder:
        file = f"{folder}/circuit"
        for name, command in {**ONCE_BY_DEPTH, **BY_DEPTH}.items():
            make(command, file)
            repeats = 99 if name in ONCE_BY_DEPTH else 9
            took = times(bench, file, repeats, "garble", "job", "eight_lanes")
            garbled, evaluated, hashes = took["garble"], took["job"], took["eight_lanes"]
            print(
                f"{name}: {garbled / hashes:.2f} times the hashes to garble (at most {garble}),"
                f" {2 * evaluated / hashes:.2f} to evaluate (at most {evaluate})",
                flush=True,
            )


def print_ratios(name, took):
    """Prints milliseconds and ratios, and returns what an AND gate takes."""
    garbled, beside = took["garble"], took["garble_two"] / 2
    evaluated, four = took["job"], took["job_four"] / 4
    cells = [f"{it / 1e6:.1f}" for it in (garbled, beside, evaluated, four)]
    ratios = beside / garbled, four / evaluated
    limits = [f" (at most {it})" if it else "" for it in MOST.get(name, (None, None))]
    ratios = [f"{it:.2f}{most}" for it, most in zip(ratios, limits)]
    print_cells(name, *cells[:2], ratios[0], *cells[2:], ratios[1])
    hashes = took["eight_lanes"]
    row = garbled, beside, hashes, evaluated, four, hashes / 2
    return [it / took["and"] for it in row]


main()
