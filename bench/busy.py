#!/usr/bin/env python3
"""Times garbling and evaluating by one and by four workers while other processes keep each processor busy.

  busy.py BENCH [RUNS]

BENCH is gc_bench. For each circuit it prints the medians of RUNS runs in turns (15), of garbling and evaluating alone,
and how long four workers take in times of one: at most 1.1. The status is 1 where they take longer.
"""

import os
import subprocess
import sys
import tempfile
from contextlib import contextmanager
from statistics import median

from measure import CIRCUITS, make, print_row, times

# A circuit that any number of workers leaves to one thread, and circuits that workers share.
NAMES = [
    "AES-128, 33 times",
    "independent gates, half AND",
    "independent gates, all AND",
    "64 chains of AND gates",
]

# What is timed, by one worker and by four.
WORKS = {"garble": ("garble1", "garble4"), "eval": ("job1", "job4")}

# How long four workers may take at the most, in times of one worker.
MOST = 1.1


@contextmanager
def busy_processors():
    """As many processes that only use time as there are processors."""
    words = [sys.executable, "-c", "while True: pass"]
    processes = [subprocess.Popen(words) for _ in range(os.cpu_count())]
    try:
        yield
    finally:
        for process in processes:
            process.kill()
            process.wait()


def medians(bench, circuit, runs):
    """The median of each part's times in milliseconds, by its name."""
    parts = [part for pair in WORKS.values() for part in pair]
    took = [times(bench, circuit, 1, *parts) for _ in range(runs)]
    return {part: median(run[part] for run in took) / 1e6 for part in parts}


def ratios(bench, name, circuit, runs):
    """Prints a row for each work on a circuit. Returns four workers' times in times of one worker's."""
    took = medians(bench, circuit, runs)
    found = []
    for work, (one, four) in WORKS.items():
        found.append(took[four] / took[one])
        print_row(name, work, f"{took[one]:.1f}", f"{took[four]:.1f}", f"{found[-1]:.2f}")
    return found


def main():
    bench, *rest = sys.argv[1:]
    runs = int(rest[0]) if rest else 15
    found = []
    title = f"milliseconds beside {os.cpu_count()} busy processes"
    print_row(title, "", "1 worker", "4 workers", "ratio")
    with tempfile.TemporaryDirectory() as folder:
        for name in NAMES:
            circuit = f"{folder}/circuit"
            make(CIRCUITS[name], circuit)
            with busy_processors():
                found += ratios(bench, name, circuit, runs)
    print(f"the highest ratio is {max(found):.2f}, and may be {MOST}")
    sys.exit(max(found) > MOST)


main()
