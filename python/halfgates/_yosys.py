# SPDX-License-Identifier: MIT OR Apache-2.0
"""Netlists that Yosys writes as JSON."""

from __future__ import annotations

import json
from typing import Any, Dict, List, Optional, Set, Tuple

from ._gates import KINDS, ConversionError, Gate, Source, Value, demand

#: The kind of gate that each cell is. A cell reads its first ports, and sets port Y.
GATES = {f"$_{kind}_": kind for kind in KINDS if KINDS[kind].reads}
PORTS = "ABS"

#: Cells that set nothing: names of scopes, what a simulation checks or prints, and times.
PASSED_OVER = frozenset(
    "$scopeinfo $print $check $assert $assume $live $fair $cover $specify2 $specify3 $specrule".split()
)

#: A bit is a number, or the text of a constant.
Bit = Any

NONE = "this is no netlist of Yosys"


def read_yosys(text: str, module: Optional[str]) -> Source:
    """The circuit of the module of this name, or of the one that `choose` finds."""
    try:
        return Netlist(choose(json.loads(text)["modules"], module)).read()
    except ConversionError:
        raise
    except (AttributeError, LookupError, RecursionError, TypeError, ValueError):
        # A part is missing, or of another type.
        raise ConversionError(NONE) from None


def is_top(module: Dict[str, Any]) -> bool:
    return int(module.get("attributes", {}).get("top", "0"), 2) == 1


def choose(modules: Dict[str, Any], name: Optional[str]) -> Dict[str, Any]:
    """The module of this name; without a name the top module, or the only one."""
    if name is not None:
        demand(name in modules, f"there is no module {name}")
        return modules[name]
    found = [it for it in modules.values() if is_top(it)] or [*modules.values()]
    demand(len(found) == 1, "which module is meant is not clear: name it by --module")
    return found[0]


class Netlist:
    """A module of Yosys, flat and of gates alone."""

    def __init__(self, module: Dict[str, Any]) -> None:
        demand("ports" in module and "cells" in module, NONE)
        self.ports = module["ports"]
        self.cells = {name: it for name, it in module["cells"].items() if it["type"] not in PASSED_OVER}
        for name, port in self.ports.items():
            is_one_way = port["direction"] in ("input", "output")
            demand(is_one_way, f"port {name} is neither an input nor an output")
        self.names = {
            bit: f"{name}[{i}]" if len(net["bits"]) > 1 else name
            for name, net in reversed(module.get("netnames", {}).items())
            for i, bit in enumerate(net["bits"])
        }
        self.is_set: Set[Bit] = set()  # the bits that inputs and the gates so far set
        self.setters: Dict[Bit, str] = {}  # the cell that sets each bit
        self.gates: List[Gate] = []

    def side(self, direction: str) -> List[Value]:
        """The ports of this direction."""
        return [Value(name, it["bits"]) for name, it in self.ports.items() if it["direction"] == direction]

    def name(self, bit: Bit) -> str:
        return f"{self.names[bit]} (bit {bit})" if bit in self.names else f"bit {bit}"

    def read(self) -> Source:
        """The circuit of the module."""
        inputs, outputs = self.side("input"), self.side("output")
        for name, bits in inputs:
            for bit in bits:
                self.demand_unset(bit, f"input port {name}")
                self.is_set.add(bit)
        for name, cell in self.cells.items():
            demand(cell["type"] in GATES, f"cell {name} is a {cell['type']}, which is no gate")
            [bit] = self.bits_of(name, "Y")
            self.demand_unset(bit, f"cell {name}")
            self.setters[bit] = name
        for bit in self.setters:
            self.add(bit)
        for bit in (bit for value in outputs for bit in value.wires):
            self.demand_set(bit)
        return Source(inputs, outputs, self.gates)

    def demand_unset(self, bit: Bit, setter: str) -> None:
        demand(isinstance(bit, int), f"{setter} sets the constant {bit}")
        is_unset = bit not in self.is_set and bit not in self.setters
        demand(is_unset, f"{self.name(bit)} is set twice, the second time by {setter}")

    def bits_of(self, name: str, ports: str) -> List[Bit]:
        """The bits at these ports of a cell."""
        connections = self.cells[name]["connections"]
        for port in ports:
            is_bit = len(connections.get(port, [])) == 1
            demand(is_bit, f"cell {name} needs exactly one bit at port {port}")
        return [connections[port][0] for port in ports]

    def gate(self, bit: Bit) -> Tuple[str, List[Bit]]:
        """The kind of the gate that sets a bit, and what it reads."""
        name = self.setters[bit]
        kind = GATES[self.cells[name]["type"]]
        return kind, self.bits_of(name, PORTS[: KINDS[kind].reads])

    def add(self, last: Bit) -> None:
        """Adds the gate that sets a bit, after those that it needs."""
        waiting, begun = [last], set()
        while waiting:
            bit = waiting[-1]
            if bit in self.is_set:
                waiting.pop()
                continue
            kind, read = self.gate(bit)
            needed = [it for it in read if it in self.setters and it not in self.is_set]
            if needed:
                demand(bit not in begun, f"{self.name(bit)} needs itself")
                begun.add(bit)
                waiting += needed
            else:
                for it in read:
                    self.demand_set(it)
                self.gates.append(Gate(kind, read, bit))
                self.is_set.add(bit)

    def demand_set(self, bit: Bit) -> None:
        """A bit is set, or it is a constant, which then is set where it is first read."""
        if bit in ("0", "1") and bit not in self.is_set:
            self.gates.append(Gate(bit, [], bit))
            self.is_set.add(bit)
        demand(bit not in ("x", "z"), f"a bit is {bit}, neither 0 nor 1")
        demand(bit in self.is_set, f"{self.name(bit)} is read, and nothing sets it")
