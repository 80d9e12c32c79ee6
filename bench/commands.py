#!/usr/bin/env python3
"""Times commands of the program, and lists of jobs, as tables of docs/SPEED.md.

  commands.py PROGRAM BENCH

All commands on a circuit run in turns, and the fastest of several runs of each counts, in
milliseconds. Reading, digests and files are part of these times. BENCH is gc_bench, which takes
SHA-256 of the circuit's canonical text and of its garbled file in the same turns: no program can
garble or evaluate faster by this implementation of SHA-256. A second table compares the medians of
commands with the medians of the hashing that they can't do without.
"""

import subprocess
import sys
import tempfile
import time
from pathlib import Path
from statistics import median

from measure import CIRCUITS, input_widths, make, print_cells, print_columns, times

SEED = 64 * "0"
REPEATS = 7

# What gc_bench hashes: the circuit's canonical text alone, or its garbled file too.
TEXT, BOTH = "SHA-256 of the text", "SHA-256 of both"
HASHED = {TEXT: ["sha"], BOTH: ["sha", "file_sha"]}

# The circuits of the first table, and its columns.
ON = (
    "SHA-256's compression, 8 times",
    "AES-128, 33 times",
    "gates that read within a thousand, half AND",
    "64 chains of AND gates",
)
COMMANDS = [
    ("`check`", "check CIRCUIT"),
    ("`locate`", "locate CIRCUIT"),
    ("`stats`", "stats CIRCUIT"),
    ("`garble` by 1", "garble CIRCUIT SEED made --workers 1"),
    ("by 4", "garble CIRCUIT SEED made --workers 4"),
    ("`eval` by 1", "eval CIRCUIT garbled LABELS --workers 1"),
    ("by 4", "eval CIRCUIT garbled LABELS --workers 4"),
    ("`audit`", "audit CIRCUIT SEED garbled"),
    ("SHA-256", BOTH),
]

# The columns of the table of medians, and what each command hashes at the least.
BOUNDS = {
    "check CIRCUIT": TEXT,
    "garble CIRCUIT SEED made --workers 1": BOTH,
    "garble CIRCUIT SEED made --workers 4": BOTH,
    "eval CIRCUIT garbled LABELS --workers 1": BOTH,
    "eval CIRCUIT garbled LABELS --workers 4": BOTH,
}

# The columns of the table of lists of jobs.
JOBS = [
    ("by 1 worker", "jobs CIRCUIT list --workers 1"),
    ("by 2", "jobs CIRCUIT list --workers 2"),
    ("by 4", "jobs CIRCUIT list --workers 4"),
]

# How many jobs are on a list, and what makes their circuit.
LISTS = {
    "500 jobs on 7,000 independent AND gates": (
        500,
        "bench/make_circuit.py 7000 1 FILE independent",
    ),
    "64 jobs on AES-128": (64, "examples/make_circuits.py aes128 FILE"),
    "64 jobs on SHA-256's compression": (64, "examples/make_circuits.py sha256 FILE"),
}


def main():
    program, bench = map(Path.resolve, map(Path, sys.argv[1:]))
    with tempfile.TemporaryDirectory() as folder:

        def run(command):
            """The seconds that a command takes, or SHA-256."""
            circuit = f"{folder}/circuit"
            if command in HASHED:
                took = times(bench, circuit, 1, *HASHED[command])
                return sum(took[part] for part in HASHED[command]) / 1e9
            labels = " ".join(f"labels{index}" for index in range(len(input_widths(circuit))))
            words = command.replace("CIRCUIT", "circuit").replace("SEED", SEED)
            # Each run writes a new file. The system takes ten milliseconds to cut off the one before.
            Path(folder, "made").unlink(missing_ok=True)
            how = {"cwd": folder, "stdout": subprocess.DEVNULL, "check": True}
            begun = time.monotonic()
            subprocess.run([program, *words.replace("LABELS", labels).split()], **how)
            return time.monotonic() - begun

        medians = []
        print_columns("Circuit", *names_of(COMMANDS))
        for name in ON:
            make(CIRCUITS[name], f"{folder}/circuit")
            run("garble CIRCUIT SEED garbled")
            deal_zeros(Path(folder), "", run)
            medians.append(print_times(name, COMMANDS, run, HASHED))
        bounded = [it for it in COMMANDS if it[1] in BOUNDS]
        print_columns("Medians over SHA-256", *names_of(bounded))
        for name, took in zip(ON, medians):
            print_cells(name, *[f"{took[it] / took[hashed]:.2f}" for it, hashed in BOUNDS.items()])
        print_columns("`jobs`", *names_of(JOBS))
        for name, (count, command) in LISTS.items():
            make(command, f"{folder}/circuit")
            make_list(Path(folder), count, run)
            print_times(name, JOBS, run)


def deal_zeros(folder, job, run):
    """Writes a label file of zeros for each input value, and returns their names."""
    names = []
    for index, width in enumerate(input_widths(folder / "circuit")):
        names.append(f"labels{job}{index}")
        run(f"deal CIRCUIT SEED {index} x{2 * ((width + 7) // 8) * '0'} {names[-1]}")
    return names


def make_list(folder, count, run):
    """Writes a list of jobs, each with a garbled file and label files of its own."""
    lines = []
    for job in range(count):
        run(f"garble CIRCUIT SEED job{job}")
        lines.append(" ".join([f"job{job}", *deal_zeros(folder, f"{job}_", run)]))
    (folder / "list").write_text("\n".join(lines))


def names_of(commands):
    return [name for name, _ in commands]


def print_times(name, commands, run, others=()):
    """Prints the fastest run of each command, and returns the medians, of other commands too."""
    took = {command: [] for command in [*[it for _, it in commands], *others]}
    for _ in range(REPEATS):
        for command, seconds in took.items():
            seconds.append(run(command))
    print_cells(name, *[f"{1000 * min(took[command]):,.0f}" for _, command in commands])
    return {command: median(seconds) for command, seconds in took.items()}


main()
