#!/usr/bin/env python3
"""Times the parts of the program on a circuit, and compares them with what they are measured by.

  parts.py BENCH CIRCUIT [BASELINE]

BENCH is gc_bench. BASELINE is a program that takes the arguments `garble CIRCUIT SEED - --repeat N` and
reports parse_ns= on standard error. Times are the fastest of several runs.
"""

import re
import subprocess
import sys
import tempfile

from measure import make, times

SEED = 64 * "0"


def main():
    bench, circuit, *baseline = sys.argv[1:]
    took = times(bench, circuit, 9, "read", "plain", "lanes", "eight_lanes", "garble")
    print(f"reading: {took['read']} ns, {took['read'] / took['gates']:.1f} ns a gate")
    for program in baseline:
        print_baseline(program, bench, circuit)
    print(f"plain evaluation: {took['plain'] / took['gates']:.1f} ns a gate (at most 10)")
    print(
        f"hashes eight at once: {took['eight_lanes'] / took['lanes']:.2f} times the same hashes"
        " four at once"
    )
    print(
        f"garbling on one thread: {took['garble']} ns, {took['garble'] / took['lanes']:.2f} times"
        " the same hashes four at once"
    )
    print_files(bench, circuit)
    with tempfile.TemporaryDirectory() as folder:
        print_xor_gates(bench, f"{folder}/circuit")
        print_lists(bench, f"{folder}/circuit")


def print_baseline(program, bench, circuit):
    """Reading, compared with the reading of another program."""
    words = [program, "garble", circuit, SEED, "-", "--repeat", "1"]
    parses, reads = [], []
    for _ in range(7):
        errors = subprocess.run(words, capture_output=True, check=True).stderr
        parses.append(int(re.search(rb"parse_ns=(\d+)", errors)[1]))
        reads.append(times(bench, circuit, 1, "read")["read"])
    print(
        f"  the baseline: {min(parses)} ns; reading takes {min(reads) / min(parses):.2f} times as"
        " long (at most 0.7)"
    )


def print_files(bench, circuit):
    """The digest and the garbled file, compared with SHA-256 over their bytes."""
    parts = ["digest", "sha", "file_sha", "kit_sha", "write", "read_file", "pieces"]
    took = times(bench, circuit, 9, *parts)
    print(
        f"SHA-256 over the garbled file: {took['file_sha']} ns,"
        f" {took['file_sha'] / took['kit_sha']:.2f} times `sha2`'s (at most 0.8)"
    )
    print(
        f"digest: {took['digest']} ns, {took['digest'] / took['sha']:.2f} times SHA-256 over the"
        " canonical text (at most 1.5)"
    )
    print(
        "writing the garbled file, but for the circuit's digest:"
        f" {(took['write'] - took['digest']) / took['file_sha']:.2f} times SHA-256 over its bytes"
        " (at most 1.15)"
    )
    print(
        f"reading it: whole {took['read_file'] / took['file_sha']:.2f} times, in pieces of 4,096"
        f" bytes {took['pieces'] / took['file_sha']:.2f} times (at most 1.15)"
    )


def print_xor_gates(bench, file):
    make("bench/make_circuit.py 1000000 0 FILE", file)
    took = times(bench, file, 25, "garble")
    print(f"garbling XOR gates: {took['garble'] / took['gates']:.1f} ns a gate (at most 5)")


def print_lists(bench, file):
    make("bench/make_circuit.py 7000 1 FILE independent", file)
    took = times(bench, file, 5, "list", "list1", "list4")
    print(
        "a thousand jobs on 7,000 independent AND gates: by four workers"
        f" {took['list4'] / took['list']:.2f} times as long as one after another (at most 0.45),"
        f" by one {took['list1'] / took['list']:.2f} times (at most 1.3)"
    )


main()
