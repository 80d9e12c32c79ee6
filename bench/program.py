#!/usr/bin/env python3
"""Times the commands of the program on a circuit, compared with the sums of the parts of their work.

  program.py PROGRAM BENCH CIRCUIT

BENCH is gc_bench, which times the parts. Commands and parts run in turns, since the speed of a machine changes while it
works, and the fastest run of each counts. The peak memory of each command is printed in bytes a gate, beyond the
circuit's file.
"""

import os
import subprocess
import sys
import tempfile
import time

from measure import input_widths, times

SEED = 64 * "0"
REPEATS = 12
PARTS = ["read", "digest", "lanes", "file_sha"]


def run(words):
    """The nanoseconds and the peak memory in bytes of one run."""
    start = time.monotonic_ns()
    child = subprocess.Popen(words, stdout=subprocess.DEVNULL)
    _, status, usage = os.wait4(child.pid, 0)
    took = time.monotonic_ns() - start
    if status:
        sys.exit(f"failed: {' '.join(words)}")
    return took, usage.ru_maxrss * 1024


def sums_of_parts(parts):
    """What each command takes at the least. `lanes` are the hashes of garbling; evaluating takes half of them."""
    reading = parts["read"] + parts["digest"]
    garbling = parts["lanes"] + parts["file_sha"]
    evaluating = parts["lanes"] // 2 + parts["file_sha"]
    return {
        "garble": reading + garbling,
        "eval": reading + evaluating,
        "run": reading + garbling + evaluating,
    }


def main():
    program, bench, circuit = sys.argv[1:]
    values = ["x" + 2 * ((width + 7) // 8) * "0" for width in input_widths(circuit)]
    parts, took, peaks = {}, {}, {}
    with tempfile.TemporaryDirectory() as folder:
        garbled = f"{folder}/garbled"
        labels = [f"{folder}/labels{index}" for index in range(len(values))]
        for index, value in enumerate(values):
            run([program, "deal", circuit, SEED, str(index), value, labels[index]])
        commands = {
            "garble": [circuit, SEED, garbled],
            "eval": [circuit, garbled, *labels],
            "run": [circuit, SEED, *values],
        }
        for _ in range(REPEATS):
            once = times(bench, circuit, 1, *PARTS)
            parts = {name: min(once[name], parts.get(name, once[name])) for name in once}
            for name, words in commands.items():
                nanoseconds, peak = run([program, name, *words])
                took[name] = min(nanoseconds, took.get(name, nanoseconds))
                peaks[name] = min(peak, peaks.get(name, peak))
    beyond = os.path.getsize(circuit)
    most = {"garble": 110, "eval": 110, "run": 150}
    for name, sum_of_parts in sums_of_parts(parts).items():
        print(
            f"{name}: {took[name]} ns, {took[name] / sum_of_parts:.2f} times its parts (at most 1.2);"
            f" peak memory beyond the circuit's file: {(peaks[name] - beyond) / parts['gates']:.0f}"
            f" bytes a gate (at most {most[name]})"
        )


main()
