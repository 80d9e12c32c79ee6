#!/usr/bin/env python3
"""Times reading SHA-256's compression, 8 times, and making it of an array of gates, with its digest and without.

  gates.py LIBRARY

It prints nanoseconds a gate. The calls run in turns, and the fastest run counts.
"""

import os
import sys
import tempfile
import time
from array import array
from ctypes import byref, c_void_p
from pathlib import Path

from measure import CIRCUITS, TOP, make

TURNS = 9
NAME = "SHA-256's compression, 8 times"

# The most nanoseconds a gate of an array.
MOST = 12


def gates_of(lines, operations):
    """The numbers of the gates of a circuit's lines, four of each."""
    numbers = array("I")
    for *counts_and_wires, operation in filter(None, map(str.split, lines)):
        first, *others = map(int, counts_and_wires[2:])
        numbers.extend((operations[operation], first, others[0], others[-1]))
    return numbers


def took(library, call):
    """The nanoseconds of a call that writes a circuit."""
    circuit = c_void_p()
    start = time.perf_counter_ns()
    code = call(byref(circuit))
    end = time.perf_counter_ns()
    assert code == 0, code
    library.halfgates_circuit_free(circuit)
    return end - start


def main():
    [os.environ["HALFGATES_LIBRARY"]] = sys.argv[1:]
    sys.path.append(str(TOP / "python"))
    from halfgates import Operation
    from halfgates._library import library

    with tempfile.TemporaryDirectory() as folder:
        make(CIRCUITS[NAME], f"{folder}/circuit")
        text = Path(folder, "circuit").read_bytes()
    counts, *widths = [array("I", map(int, line.split())) for line in text.splitlines()[:3]]
    gates = gates_of(text.decode().splitlines()[3:], Operation.__members__)
    words = [len(gates) // 4, counts[1], *(it for w in widths for it in (w[1:].tobytes(), len(w) - 1))]
    at = gates.buffer_info()[0]
    calls = {}
    for suffix in ("", "_without_digest"):
        read = getattr(library, f"halfgates_circuit_read{suffix}")
        from_gates = getattr(library, f"halfgates_circuit_from_gates{suffix}")
        without = " without its digest" if suffix else ""
        calls[f"a text{without}"] = lambda place, call=read: call(text, len(text), place)
        calls[f"an array{without}"] = lambda place, call=from_gates: call(at, *words, place, None)
    runs = {name: [] for name in calls}
    for _ in range(TURNS):
        for name, call in calls.items():
            runs[name].append(took(library, call))
    for name, found in runs.items():
        limit = f" (at most {MOST})" if name == "an array without its digest" else ""
        print(f"{name}: {min(found) / counts[0]:.1f} ns a gate{limit}")


main()
