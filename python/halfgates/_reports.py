# SPDX-License-Identifier: MIT OR Apache-2.0
"""What the calls that trace and compare return. A gate, wire or output that there isn't is None."""

from typing import NamedTuple, Optional

from . import _library
from ._codes import OF_WIRES, Code
from ._library import NONE, Fault, name_of


def _or_none(number: int) -> Optional[int]:
    return None if number == NONE else number


class Place(NamedTuple):
    """Where the first fault of a text is. Lines and columns are counted from 1, gates and wires from 0."""

    code: int
    name: str
    line: int
    column: int
    gate: Optional[int]  #: the gate that the fault is found in
    wire: Optional[int]  #: the wire that the fault is about

    @classmethod
    def _of(cls, it: _library.Place) -> "Optional[Place]":
        if it.fault == Code.OK:
            return None
        # A token that is meant as a wire may be any number, NONE too.
        wire = it.wire if it.fault in OF_WIRES else None
        return cls(it.fault, name_of(it.fault), it.line, it.column, _or_none(it.gate), wire)


class GateFault(Fault):
    """Gates aren't those of a circuit: the fault, and the `gate` and the `wire` that it is about, or None."""

    def __init__(self, code: int, gate: Optional[int], wire: Optional[int]) -> None:
        super().__init__(code)
        self.gate, self.wire = gate, wire
        self.args = code, gate, wire

    def __str__(self) -> str:
        places = [f"{what} {it}" for what, it in (("gate", self.gate), ("wire", self.wire)) if it is not None]
        return super().__str__() + (f" ({', '.join(places)})" if places else "")

    @classmethod
    def _of(cls, it: _library.Place) -> "GateFault":
        return cls(it.fault, _or_none(it.gate), it.wire if it.fault in OF_WIRES else None)


class WireLabels(NamedTuple):
    """The labels of a wire, 16 bytes each: the zero label, the active one for the given bits, and the wire's bit."""

    zero: bytes
    active: bytes
    bit: int

    @classmethod
    def _of(cls, it: _library.WireLabels) -> "WireLabels":
        return cls(bytes(it.zero), bytes(it.active), it.bit)


class GarbledReport(NamedTuple):
    """What an audit finds of a garbled file: of each part the first difference from the garbling, if there is one."""

    honest: bool  #: whether nothing differs
    version: int  #: the version of the file, 1 or 2
    digest: bool  #: whether the digest is the circuit's
    counts: bool  #: whether each AND gate has a row pair and each output a decode bit; else no more is said
    row: Optional[int]  #: the number of the first AND gate whose row pair differs
    gate: Optional[int]  #: the place of that gate among all gates
    wire: Optional[int]  #: the wire that it sets
    generator: bool  #: whether its generator half gate differs
    evaluator: bool  #: whether its evaluator half gate differs
    decode_bit: Optional[int]  #: the first output whose decode bit differs
    entry: Optional[int]  #: the first output of which a decode entry differs; version 1 has no entries
    entry_colour: Optional[int]  #: the colour of that entry, 0 or 1

    def __bool__(self) -> bool:
        return self.honest

    @classmethod
    def _of(cls, it: _library.AuditReport) -> "GarbledReport":
        entry = _or_none(it.entry)
        return cls(
            *(bool(it.honest), it.version, bool(it.digest), bool(it.counts)),
            *(_or_none(it.row), _or_none(it.gate), _or_none(it.wire), bool(it.generator), bool(it.evaluator)),
            *(_or_none(it.decode_bit), entry, None if entry is None else it.entry_colour),
        )


class RowsReport(NamedTuple):
    """What an audit finds of row pairs and decode bits: of each the first difference from the garbling, if any."""

    honest: bool  #: whether nothing differs
    row: Optional[int]  #: the number of the first AND gate whose row pair differs
    gate: Optional[int]  #: the place of that gate among all gates
    wire: Optional[int]  #: the wire that it sets
    generator: bool  #: whether its generator half gate differs
    evaluator: bool  #: whether its evaluator half gate differs
    decode_bit: Optional[int]  #: the first output whose decode bit differs

    def __bool__(self) -> bool:
        return self.honest

    @classmethod
    def _of(cls, it: _library.RowsReport) -> "RowsReport":
        gate = _or_none(it.row), _or_none(it.gate), _or_none(it.wire)
        return cls(bool(it.honest), *gate, bool(it.generator), bool(it.evaluator), _or_none(it.decode_bit))


class LabelsReport(NamedTuple):
    """What an audit finds of a label file."""

    verdict: str  #: `Ok`, `NoSuchValue`, `WrongWidth`, or `WrongLabel`: a label is neither of the two of its wire
    index: int  #: the index of the input value, as the file has it
    bits: Optional[bytearray]  #: the bits that the labels stand for, where the verdict is `Ok`
    wire: Optional[int]  #: the first wire whose label is wrong

    @property
    def honest(self) -> bool:
        """Whether the file is the one that `Circuit.deal` makes for these bits."""
        return self.bits is not None

    def __bool__(self) -> bool:
        return self.honest

    @classmethod
    def _of(cls, it: _library.LabelsReport, bits: bytearray) -> "LabelsReport":
        return cls(name_of(it.verdict), it.index, bits if it.verdict == Code.OK else None, _or_none(it.wire))
