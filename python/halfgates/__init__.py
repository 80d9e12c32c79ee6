# SPDX-License-Identifier: MIT OR Apache-2.0
"""Garbles Boolean circuits with half gates, and evaluates garbled circuits.

A circuit is read once, and garbled under any number of seeds:

    with Circuit.open(path) as circuit, circuit.garble(seed) as garbling:
        garbled = garbling.write()
        labels = [circuit.deal(seed, index, bits) for index, bits in enumerate(values)]
    with Circuit.open(path) as circuit, circuit.bind(garbled, labels) as job:
        outputs = job.evaluate()

A garbling in pieces leaves while it is made, and an evaluator takes the pieces as they come:

    with circuit.garbler(seed) as garbler:
        for rows in garbler.pieces():
            connection.sendall(rows)

Only garbled files need a circuit's digest: read with `digest=False`, which takes less time, where there are none.

Texts and files are objects with the buffer protocol. They are read in place, but several label files are joined first.
Bits are bytes 0 and 1 in wire order: `to_bits` makes them of a number, and `from_bits` a number of them. A call that
fails raises a `Fault`, with its `code`, which `Code` has, its `name` and its `meaning`. `explain` and `locate` say what
the first fault of a text is, and where.
"""

from ._arrays import Gate, Gates, Operation
from ._bits import Bits, Buffer, from_bits, to_bits
from ._codes import Code
from ._handles import Circuit, Garbling, Job, decode
from ._library import Fault, MemoryFault, is_memory, version
from ._lists import evaluate_each, evaluate_many, write_many
from ._reports import GarbledReport, GateFault, LabelsReport, Place, RowsReport, WireLabels
from ._streaming import Evaluator, Garbler
from ._texts import explain, locate

__version__ = version()

__all__ = [
    "Bits",
    "Buffer",
    "Circuit",
    "Code",
    "Evaluator",
    "Fault",
    "Garbler",
    "Garbling",
    "GarbledReport",
    "Gate",
    "GateFault",
    "Gates",
    "Job",
    "LabelsReport",
    "MemoryFault",
    "Operation",
    "Place",
    "RowsReport",
    "WireLabels",
    "decode",
    "evaluate_each",
    "evaluate_many",
    "explain",
    "from_bits",
    "is_memory",
    "locate",
    "to_bits",
    "write_many",
]
