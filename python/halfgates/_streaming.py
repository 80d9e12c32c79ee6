# SPDX-License-Identifier: MIT OR Apache-2.0
"""Garbling and evaluating in pieces."""

from ctypes import byref, c_size_t
from operator import index as integer
from threading import RLock
from typing import Any, Callable, Iterator, Tuple, Type, TypeVar

from ._arguments import LABEL, ROW_PAIR
from ._bits import Buffer
from ._buffers import Lent
from ._handle import Handle, offset_of, owner, pairs_of
from ._library import check, library

S = TypeVar("S", bound="Streaming")


class Streaming(Handle):
    """A handle that calls change. One call at a time uses it: a call on another thread waits."""

    # Taken again by its own thread, as in a signal handler, it doesn't wait: there no call of the library is at work.
    _turn: Any

    @classmethod
    def _empty(cls: Type[S]) -> S:
        it = super()._empty()
        it._turn = RLock()
        return it

    def _call(self, function: Callable[..., Any], *words: object) -> Any:
        with self._turn:
            return super()._call(function, *words)


class Garbler(Streaming):
    """A garbling in progress, by `Circuit.garbler`: it produces its row pairs in pieces, and keeps none of them.

        with circuit.garbler(seed) as garbler:
            for rows in garbler.pieces():
                connection.sendall(rows)

    Whoever has it knows all labels. Closed before its end, it has abandoned the garbling. One call at a time uses it: a
    call on another thread waits. A call that is interrupted, as by Ctrl-C, may lose a piece: begin anew then, under a
    new seed.
    """

    _Owner = owner(library.halfgates_garbler_free)

    @property
    def offset(self) -> bytes:
        """The offset, 16 bytes, from the beginning on. Never give it to an evaluator."""
        return offset_of(self, library.halfgates_garbler_offset)

    def input_labels(self, index: int) -> Tuple[bytes, bytes]:
        """The zero labels and the one labels of the wires of an input value, 16 bytes a wire, from the beginning on.

        Fault 42: there is no such value.
        """
        return pairs_of(self, library.halfgates_garbler_input_labels, self._shape.input_widths, index)

    def rows_into(self, buffer: object) -> int:
        """Garbles the next AND gates: writes as many row pairs, 32 bytes each, as a writable buffer has room for.

        Returns how many bytes they have, or 0 once all were written. What the buffer has behind them stays. Fault 61:
        row pairs are left, and the buffer has less than 32 bytes.
        """
        written = c_size_t()
        with Lent(buffer, is_written=True) as out:
            code = self._call(library.halfgates_garbler_next, out.at, out.size, byref(written))
            check(code, ("buffer", out.size, ROW_PAIR))
        return written.value

    def pieces(self, and_gates: int = 4096) -> Iterator[bytearray]:
        """Garbles the AND gates that are left, at most this many at a time, and yields their row pairs."""
        and_gates = integer(and_gates)
        if and_gates < 1:
            raise ValueError("a piece has at least one AND gate")
        return self._pieces(ROW_PAIR * min(and_gates, self._shape.and_gates))

    def _pieces(self, size: int) -> Iterator[bytearray]:
        while True:
            rows = bytearray(size)
            written = self.rows_into(rows)
            if not written:
                return
            del rows[written:]
            yield rows

    def output_labels(self, index: int) -> Tuple[bytes, bytes]:
        """At the end: the zero labels and the one labels of the wires of an output value.

        Faults: 67 where row pairs are left, 42.
        """
        return pairs_of(self, library.halfgates_garbler_output_labels, self._shape.output_widths, index)

    def decode_bits(self) -> bytearray:
        """At the end: the decode bits of all output wires. Fault 67: row pairs are left."""
        bits = bytearray(self._shape.output_wires)
        with Lent(bits, is_written=True) as out:
            check(self._call(library.halfgates_garbler_decode_bits, out.at, out.size))
        return bits


class Evaluator(Streaming):
    """An evaluation in progress, by `Circuit.evaluator`: it takes row pairs as they come, and keeps none of them.

        with circuit.evaluator(0, labels) as evaluator:
            received = bytearray()
            while data := connection.recv(65536):
                received += data
                del received[: evaluator.feed(received)]
            outputs = evaluator.output_labels()

    One call at a time uses it: a call on another thread waits.
    """

    _Owner = owner(library.halfgates_evaluator_free)

    def feed(self, rows: Buffer) -> int:
        """Evaluates the next AND gates with these row pairs, 32 bytes each, and returns how many bytes were taken.

        A part of a row pair at the end is left for the next call. Nothing of the row pairs is trusted. Fault 66: there
        are more row pairs than are left, and none is taken.
        """
        taken = c_size_t()
        with Lent(rows) as lent:
            check(self._call(library.halfgates_evaluator_feed, lent.at, lent.size, byref(taken)))
        return taken.value

    def output_labels(self) -> bytearray:
        """At the end: the active labels of all output wires, 16 bytes each. Fault 67: row pairs are left."""
        labels = bytearray(LABEL * self._shape.output_wires)
        with Lent(labels, is_written=True) as out:
            check(self._call(library.halfgates_evaluator_output_labels, out.at, out.size))
        return labels
