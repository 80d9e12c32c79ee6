#!/usr/bin/env python3
"""Times garbling and evaluating, on one thread and by one, two and four workers.

  workers.py BENCH

BENCH is gc_bench. It prints a table of the fastest of five runs, of garbling and evaluating alone:
reading, digests and files are not timed. The columns 1, 2 and 4 are workers.
"""

import sys
import tempfile
from concurrent.futures import ThreadPoolExecutor
from statistics import mean

from measure import BY_DEPTH, CIRCUITS, PARTS, make, print_row, print_times, times

# How many times as fast as one part another is to be, at the least.
TARGETS = [
    ("independent gates, all AND", "garble", "garble4", 3.4),
    ("independent gates, all AND", "garble1", "garble4", 3.2),
    ("independent gates, all AND", "job", "job4", 3.0),
]


def main():
    [bench] = sys.argv[1:]
    with tempfile.TemporaryDirectory() as folder:
        file = f"{folder}/circuit"
        print_targets(print_table(bench, file))
        make(CIRCUITS["independent gates, all AND"], file)
        print_against_programs(bench, file)


def print_table(bench, file):
    """Prints the table, and returns the times in nanoseconds."""
    took = {}
    print_row("milliseconds", "", "", "garbling", "", "", "", "evaluating")
    print_row("circuit", "gates", "AND", *2 * ["thread", "1", "2", "4"])
    for name, command in {**CIRCUITS, **BY_DEPTH}.items():
        make(command, file)
        took[name] = times(bench, file, 5, *PARTS)
        print_times(name, took[name])
    return took


def print_targets(took):
    for name, slow, fast, least in TARGETS:
        ratio = took[name][slow] / took[name][fast]
        print(f"{name}: {fast} {ratio:.2f} times as fast as {slow} (at least {least})")


def print_against_programs(bench, circuit):
    """Four workers, compared with four programs that garble by one worker each, at once.

    So much the machine gives to four, whatever else it does.
    """

    def garbling(part):
        return times(bench, circuit, 2, part)[part]

    one, four, apart = [], [], []
    with ThreadPoolExecutor(4) as programs:
        for _ in range(8):
            one.append(garbling("garble1"))
            four.append(garbling("garble4"))
            apart += programs.map(garbling, 4 * ["garble1"])
    print(
        "independent gates, all AND, by the mean of eight turns: four workers"
        f" {mean(one) / mean(four):.2f} times as fast as one, four programs of one worker each, at"
        f" once, {4 * mean(one) / mean(apart):.2f} times"
    )


main()
