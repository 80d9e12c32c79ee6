# SPDX-License-Identifier: MIT OR Apache-2.0
"""Converts circuits of other formats to Bristol Fashion, as this library reads it.

  python3 -m halfgates.convert [--module NAME] [--check N] IN OUT

IN is one of these:

  - a circuit in the old Bristol format, as of emp-tool and MP-SPDZ: its second line has the widths of one or two input
    values and of the output value
  - a circuit in Bristol Fashion, with the operations NOT, OR, NAND, NOR, XNOR and MAND too
  - a netlist that Yosys writes with `write_json` once a module is flat and consists of gates, as after
    `synth -flatten; abc -g AND,XOR; opt_clean -purge`. Each port becomes a value, in the order of the netlist; wire i
    of a value is bit i of the port, so the lowest bit comes first. The module may not have flip-flops or latches

Each gate takes one AND gate, or none. What is printed is the index, name and width of each value; the values of Bristol
formats have no names. Where it is not clear what a bit is, nothing is written, and the status is 1.
"""

from __future__ import annotations

import argparse
import secrets
import sys
from pathlib import Path
from typing import Iterator, List, NamedTuple, Optional, Sequence, Tuple, Union

from ._bits import Buffer
from ._bristol import read_bristol
from ._gates import ConversionError, Source, Value, demand
from ._handles import Circuit
from ._library import Fault, MemoryFault
from ._yosys import read_yosys

__all__ = ["Conversion", "ConversionError", "Port", "convert"]

# How other formats begin, and how they become one of those that are read.
_OTHERS = {
    b"\x1f\x8b": "this is a gzip file: unpack it first",
    b"\xff\xfe": "this is UTF-16, and a circuit is ASCII",
    b"\xfe\xff": "this is UTF-16, and a circuit is ASCII",
    b".model": "this is BLIF: `read_blif` and `write_json` of Yosys make a netlist of it",
    b"aag ": "this is AIGER: `read_aiger` and `write_json` of Yosys make a netlist of it",
    b"aig ": "this is AIGER: `read_aiger` and `write_json` of Yosys make a netlist of it",
    b"module ": "this is Verilog: `synth` and `write_json` of Yosys make a netlist of it",
}

# How many inputs are tried at a time.
_BATCH = 256


class Port(NamedTuple):
    """An input value or an output value of a circuit: its name, "" where its source has none, and its width."""

    name: str
    width: int


class Conversion:
    """A circuit in Bristol Fashion, by `convert`."""

    text: bytes  #: the circuit, which `Circuit.read` takes
    inputs: Tuple[Port, ...]  #: its input values
    outputs: Tuple[Port, ...]  #: its output values

    def __init__(self, source: Source) -> None:
        self._source = source
        self.text = source.build()
        self.inputs, self.outputs = _ports(source.inputs), _ports(source.outputs)
        self._read().close()

    def _read(self) -> Circuit:
        try:
            return Circuit.read(self.text)
        except MemoryFault:
            raise
        except Fault as fault:
            raise ConversionError(f"what it becomes isn't read: {fault}") from None

    def check(self, count: int) -> None:
        """Evaluates the circuit in the clear on random inputs, and compares it with what its source computes.

        A difference raises ConversionError.
        """
        with self._read() as circuit:
            for first in range(0, count, _BATCH):
                size = min(_BATCH, count - first)
                inputs = [secrets.randbits(size) for _ in self._source.input_wires]
                outputs = self._source.evaluate(inputs)
                for bits, expected in zip(_rows(inputs, size), _rows(outputs, size)):
                    if circuit.plain(bits) != expected:
                        digits = "".join(map(str, bits))
                        raise ConversionError(f"what it becomes differs from it for the input {digits}")


def convert(source: Union[Buffer, str], *, module: Optional[str] = None) -> Conversion:
    """Converts a circuit, or the module of this name of a netlist: without a name its top module, or the only one.

    What is no circuit raises ConversionError, which is a ValueError.
    """
    data = source.encode() if isinstance(source, str) else bytes(memoryview(source))
    for begin, said in _OTHERS.items():
        demand(not data.startswith(begin), said)
    try:
        text = data.decode("utf-8-sig")
    except UnicodeDecodeError:
        raise ConversionError("this is no text") from None
    is_netlist = text.lstrip().startswith("{")
    return Conversion(read_yosys(text, module) if is_netlist else read_bristol(text))


def _ports(values: Sequence[Value]) -> Tuple[Port, ...]:
    return tuple(Port(value.name, len(value.wires)) for value in values)


def _rows(columns: Sequence[int], count: int) -> Iterator[bytes]:
    """The bits of each input, or of its outputs, where bit i of each wire's number belongs to input i."""
    return (bytes([column >> i & 1 for column in columns]) for i in range(count))


def _positive(word: str) -> int:
    number = int(word)
    if number < 1:
        raise ValueError
    return number


def _arguments(words: Optional[Sequence[str]]) -> argparse.Namespace:
    how = {"description": __doc__, "formatter_class": argparse.RawDescriptionHelpFormatter}
    parser = argparse.ArgumentParser(prog="python3 -m halfgates.convert", **how)
    parser.add_argument("source", type=Path, metavar="IN")
    parser.add_argument("circuit", type=Path, metavar="OUT")
    parser.add_argument("--module", metavar="NAME", help="the module of the netlist")
    said = "compare the circuit with IN on N random inputs, before it is written"
    parser.add_argument("--check", type=_positive, default=0, metavar="N", help=said)
    return parser.parse_args(words)


def _lines(conversion: Conversion) -> Iterator[str]:
    for side, ports in (("input", conversion.inputs), ("output", conversion.outputs)):
        for index, (name, width) in enumerate(ports):
            yield " ".join(filter(None, [side, str(index), name, str(width)]))


def main(words: Optional[List[str]] = None) -> None:
    arguments = _arguments(words)
    try:
        conversion = convert(arguments.source.read_bytes(), module=arguments.module)
        conversion.check(arguments.check)
        arguments.circuit.write_bytes(conversion.text)
    except ConversionError as error:
        sys.exit(f"{arguments.source}: {error}")
    except OSError as error:
        sys.exit(str(error))
    except MemoryError:
        sys.exit(f"{arguments.source}: memory ran out")
    print(*_lines(conversion), sep="\n")


if __name__ == "__main__":
    main()
