# SPDX-License-Identifier: MIT OR Apache-2.0
"""Circuits, garblings and jobs: the handles of the library."""

from ctypes import byref, c_size_t, c_uint8, c_uint32, c_void_p, sizeof, string_at
from operator import index as integer
from os import PathLike
from pathlib import Path
from typing import Callable, Iterable, List, Optional, Tuple, Union

from . import _library
from ._arguments import HEAD_OF_LABELS, LABEL, ROW_PAIR, SEED, lent_bits, lent_of_size, size_of, u32, u64
from ._arrays import GATE, Gates, lent_gates, numbers_of
from ._bits import Bits, Buffer
from ._buffers import Lent
from ._codes import Code
from ._handle import Handle, Shape, offset_of, owner, pairs_of, width_of
from ._library import Fault, check, library
from ._reports import GarbledReport, GateFault, LabelsReport, RowsReport, WireLabels
from ._streaming import Evaluator, Garbler
from ._texts import check_text


class Circuit(Handle):
    """A circuit, by `Circuit.read`. Its numbers stay when it is closed, and so do its garblings and jobs.

    Several threads may use one circuit at once.
    """

    _Owner = owner(library.halfgates_circuit_free)
    _digest: Optional[bytes]

    gates: int  #: how many gates there are
    and_gates: int  #: how many of them are AND gates, so how many row pairs a garbling has
    wires: int  #: how many wires there are
    input_widths: Tuple[int, ...]  #: the number of wires of each input value
    output_widths: Tuple[int, ...]  #: the number of wires of each output value

    @classmethod
    def read(cls, text: Buffer, *, digest: bool = True) -> "Circuit":
        """Reads a circuit from its text in Bristol Fashion, and takes its digest unless it is told not to.

        Taking it takes longer than reading. Garbled files and jobs need it: see `take_digest`. Faults: 1 to 12, which
        say the line, the column and the sentence of `explain`, 13, 62.
        """
        it = cls._empty()
        read = library.halfgates_circuit_read if digest else library.halfgates_circuit_read_without_digest
        with Lent(text) as lent:
            check_text(read(lent.at, lent.size, byref(it._at)), lent)
        it._measure()
        return it

    @classmethod
    def open(cls, path: "Union[str, PathLike[str]]", *, digest: bool = True) -> "Circuit":
        """Reads a circuit from a file. A file that can't be read raises OSError. Faults as of `read`."""
        return cls.read(Path(path).read_bytes(), digest=digest)

    @classmethod
    def from_text(cls, text: str, *, digest: bool = True) -> "Circuit":
        """Reads a circuit from a string. Faults as of `read`."""
        if not isinstance(text, str):
            raise TypeError(f"a text is a str, and not a {type(text).__name__}: Circuit.read takes bytes")
        return cls.read(text.encode(), digest=digest)

    @classmethod
    def from_gates(
        cls,
        gates: Gates,
        wires: int,
        input_widths: Iterable[int],
        output_widths: Iterable[int],
        *,
        digest: bool = True,
    ) -> "Circuit":
        """The circuit of these gates in this order, of this many wires, and of values of these widths.

        Gates are `Gate` tuples, or a buffer of four numbers of 32 bits a gate, such as an `array("I")` or a NumPy array
        of uint32. The circuit is the one that `read` makes of their text, with its digest or without, and with the same
        faults: 2, 3, 5 to 10 and 12 as a `GateFault`, 13, 62. A number that has more than 32 bits raises OverflowError.
        """
        make = library.halfgates_circuit_from_gates if digest else library.halfgates_circuit_from_gates_without_digest
        it, place, wires = cls._empty(), _library.Place(), u32(wires)
        inputs, outputs = numbers_of(input_widths), numbers_of(output_widths)
        with lent_gates(gates) as lent, Lent(inputs) as widths, Lent(outputs) as others:
            words = lent.at, lent.size // GATE, wires, widths.at, len(inputs), others.at, len(outputs)
            code = make(*words, byref(it._at), byref(place))
        if code == place.fault != Code.OK:
            raise GateFault._of(place)
        check(code)
        it._measure()
        return it

    @property
    def digest(self) -> bytes:
        """The SHA-256 of the circuit's canonical text. Fault 68: it wasn't taken."""
        if self._digest is None:
            raise Fault(Code.NO_DIGEST)
        return self._digest

    def take_digest(self) -> None:
        """Takes the digest, where the circuit has none. Fault: 62.

        What `share` has returned stays without, and so do the garblings that were made before, or are in the making.
        """
        at = self._owned()
        if self._digest is None:
            it = self.share()  # a handle that no other thread knows: the call needs it alone
            check(it._call(library.halfgates_circuit_take_digest))
            self._digest = it._read_digest()
            if self._at is at:
                self._at = it._at

    def share(self) -> "Circuit":
        """One more handle of the same circuit, without a copy, which is closed separately. Fault: 62."""
        it = self._empty()
        check(self._call(library.halfgates_circuit_share, byref(it._at)))
        it._describe(self._shape, self._digest)
        return it

    def order(self) -> "Circuit":
        """The circuit with its gates in order of AND depth.

        It can be evaluated in half the time, and garbled in 0.7 to 0.8 of the time. It computes the same, and has
        another digest: each party needs it. It pays for single garblings and evaluations, not for `garble_many` and
        `evaluate_many`. Fault: 62.
        """
        it = self._empty()
        check(self._call(library.halfgates_circuit_order, byref(it._at)))
        it._measure()
        return it

    def text(self) -> bytearray:
        """The canonical text of the circuit, whose SHA-256 is the digest. Fault: 62."""
        written = c_size_t()
        code = self._call(library.halfgates_circuit_text, None, 0, byref(written))
        if code != Code.SMALL_BUFFER:
            check(code)
        text = bytearray(written.value)
        with Lent(text, is_written=True) as out:
            check(self._call(library.halfgates_circuit_text, out.at, out.size, byref(written)))
        return text

    def _measure(self) -> None:
        numbers = _library.Numbers()
        check(library.halfgates_circuit_numbers(self._at, numbers))
        inputs = self._widths(library.halfgates_circuit_input_widths, numbers.input_values)
        outputs = self._widths(library.halfgates_circuit_output_widths, numbers.output_values)
        shape = Shape(numbers.gates, numbers.and_gates, numbers.wires, inputs, outputs)
        self._describe(shape, self._read_digest())

    def _read_digest(self) -> Optional[bytes]:
        digest = (c_uint8 * 32)()
        code = self._call(library.halfgates_circuit_digest, digest)
        if code == Code.NO_DIGEST:
            return None
        check(code)
        return bytes(digest)

    def _widths(self, function: Callable[..., int], count: int) -> Tuple[int, ...]:
        widths = (c_uint32 * count)()
        check(function(self._at, widths, count))
        return tuple(widths)

    def _describe(self, shape: Shape, digest: Optional[bytes]) -> None:
        self._shape, self._digest = shape, digest
        self.gates, self.and_gates, self.wires, self.input_widths, self.output_widths = shape

    def garbled_size(self, version: int = 2) -> int:
        """How many bytes a garbled file of this version has, 1 or 2. Fault 60: there is no such version."""
        size = self._call(library.halfgates_garbled_size, u32(version))
        check(Code.OK if size else Code.BAD_ARGUMENT)
        return size

    def garble(self, seed: Buffer) -> "Garbling":
        """Garbles under a seed of 32 bytes: take `secrets.token_bytes(32)` for each garbling. Faults: 23, 62."""
        it = self._garbling()
        with lent_of_size(seed, "a seed", 32) as lent:
            check(self._call(library.halfgates_garble, lent.at, byref(it._at)))
        return it

    def garble_many(self, seeds: Iterable[Buffer]) -> List["Garbling"]:
        """Garbles under each of these seeds, as `garble` does, in their order.

        With AVX2 two at a time are made side by side, which takes less time than as many calls of `garble`. Faults: 23, 62. After a fault there is no garbling.
        """
        keys = bytearray()
        for seed in seeds:
            with lent_of_size(seed, "a seed", SEED) as lent:
                keys += string_at(lent.at, SEED)  # the seed itself may have an addition of its own, as arrays do
        made = [self._garbling() for _ in range(len(keys) // SEED)]
        places = (c_void_p * len(made))()
        for i, it in enumerate(made):  # each owns its place before the call writes it
            it._at = it._Owner.from_buffer(places, i * sizeof(c_void_p))
        with Lent(keys) as lent:
            check(self._call(library.halfgates_garble_many, lent.at, len(made), places))
        return made

    def garble_from(self, offset: Buffer, zero_labels: Buffer, first: int = 0) -> "Garbling":
        """Garbles from an offset of 16 bytes, a zero label for each input wire, and the number of the first AND gate.

        The zero labels are 16 bytes a wire, one after another. Under one offset use no AND number twice, or whoever
        evaluates can learn labels that it wasn't given: after this garbling go on from `first + and_gates`. Faults: 23,
        60 where the offset's colour bit is 0 or `first + and_gates` is above 2^62, 62, 66 where there is another number
        of labels.
        """
        it, first = self._garbling(), u64(first)
        with lent_of_size(offset, "an offset", LABEL) as lent, Lent(zero_labels) as labels:
            words = lent.at, labels.at, labels.size, first, byref(it._at)
            code = self._call(library.halfgates_garble_from, *words)
            check(code, ("zero_labels", labels.size, LABEL * self._shape.input_wires))
        return it

    def garbler(self, seed: Buffer) -> Garbler:
        """Begins to garble in pieces under a seed of 32 bytes, as `garble` does at once. Faults: 23, 62."""
        it = Garbler._empty()
        it._shape = self._shape
        with lent_of_size(seed, "a seed", SEED) as lent:
            check(self._call(library.halfgates_garbler_begin, lent.at, byref(it._at)))
        return it

    def garbler_from(self, offset: Buffer, zero_labels: Buffer, first: int = 0) -> Garbler:
        """Begins to garble in pieces from an offset, zero labels and a first AND number, as `garble_from` does at once.

        A garbler that is closed before its end has used its AND numbers all the same. Faults: those of `garble_from`.
        """
        it, first = Garbler._empty(), u64(first)
        it._shape = self._shape
        with lent_of_size(offset, "an offset", LABEL) as lent, Lent(zero_labels) as labels:
            words = lent.at, labels.at, labels.size, first, byref(it._at)
            code = self._call(library.halfgates_garbler_begin_from, *words)
            check(code, ("zero_labels", labels.size, LABEL * self._shape.input_wires))
        return it

    def evaluator(self, first: int, labels: Buffer) -> Evaluator:
        """Begins to evaluate in pieces, from the number of the first AND gate and the active labels of all input wires.

        Nothing of the labels is trusted. Faults: 46, 60 where `first + and_gates` is above 2^62, 62, 66 where there is
        another number of labels.
        """
        it, first = Evaluator._empty(), u64(first)
        it._shape = self._shape
        with Lent(labels) as lent:
            code = self._call(library.halfgates_evaluator_begin, first, lent.at, lent.size, byref(it._at))
            check(code, ("labels", lent.size, LABEL * self._shape.input_wires))
        return it

    def _garbling(self) -> "Garbling":
        it = Garbling._empty()
        it._shape = self._shape
        return it

    def deal(self, seed: Buffer, index: int, bits: Bits) -> bytearray:
        """The label file of the input value of this index, which stands for these bits under a seed of 32 bytes.

        Deal each value once for a seed: two label files of one value for different bits give the offset away, and so
        both labels of every wire. Faults: 13, 15, 16, 42, 62.
        """
        index, written = u32(index), c_size_t()
        with lent_of_size(seed, "a seed", 32) as key, lent_bits(bits) as value:
            file = bytearray(HEAD_OF_LABELS + LABEL * value.size)
            with Lent(file, is_written=True) as out:
                words = key.at, index, value.at, value.size, out.at, out.size, byref(written)
                check(self._call(library.halfgates_deal, *words))
        return file

    def label_file(self, index: int, labels: Buffer) -> bytearray:
        """The label file of the input value of this index, from labels that were received, 16 bytes a wire.

        Faults: 42, 62, 66 where there is another number of labels.
        """
        index, written = u32(index), c_size_t()
        with Lent(labels) as lent:
            file = bytearray(HEAD_OF_LABELS + lent.size)
            with Lent(file, is_written=True) as out:
                words = index, lent.at, lent.size, out.at, out.size, byref(written)
                code = self._call(library.halfgates_label_file, *words)
            check(code, ("labels", lent.size, LABEL * width_of(self._shape.input_widths, index)))
        return file

    def bind(self, garbled: Buffer, labels: Iterable[Buffer]) -> "Job":
        """Binds a garbled file and a label file for each input value, in any order, to a job.

        Nothing of the files is trusted. Faults: 68 where the circuit has no digest, 30 to 36 of the files in turn, 40
        to 46, 62.
        """
        it, files = Job._empty(), list(labels)
        it._shape = self._shape
        sizes = (c_size_t * len(files))(*map(size_of, files))
        joined = files[0] if len(files) == 1 else b"".join(files)
        with Lent(garbled) as file, Lent(joined) as lent:
            words = file.at, file.size, lent.at, lent.size, sizes, len(files), byref(it._at)
            check(self._call(library.halfgates_job_bind, *words))
        return it

    def plain(self, bits: Bits) -> bytearray:
        """The bits of all output wires for those of all input wires, without garbling. Faults: 13, 15, 16."""
        outputs = bytearray(self._shape.output_wires)
        with lent_bits(bits) as lent, Lent(outputs, is_written=True) as out:
            check(self._call(library.halfgates_plain, lent.at, lent.size, out.at, out.size))
        return outputs

    def evaluate_labels(self, rows: Buffer, labels: Buffer, first: int = 0) -> bytearray:
        """The active labels of all output wires, 16 bytes each, from the row pairs and those of all input wires.

        `first` is the number of the first AND gate, as for `garble_from`. Nothing of rows and labels is trusted.
        Faults: 46, 60 where `first + and_gates` is above 2^62, 66 where there is another number of rows or labels.
        """
        first, outputs = u64(first), bytearray(LABEL * self._shape.output_wires)
        with Lent(rows) as pairs, Lent(labels) as lent, Lent(outputs, is_written=True) as out:
            words = pairs.at, pairs.size, first, lent.at, lent.size, out.at, out.size
            code = self._call(library.halfgates_evaluate_labels, *words)
            expected = ROW_PAIR * self._shape.and_gates, LABEL * self._shape.input_wires
            check(code, ("rows", pairs.size, expected[0]), ("labels", lent.size, expected[1]))
        return outputs


class Garbling(Handle):
    """The garbling of a circuit, by `Circuit.garble`. Whoever has it knows all labels."""

    _Owner = owner(library.halfgates_garbling_free)

    def write(self, version: int = 2) -> bytearray:
        """The garbled file of a version, 1 or 2.

        Faults: 60 where there is no such version or the first AND number isn't 0, 62, 68 where the circuit had no
        digest.
        """
        version = u32(version)
        file = bytearray(self._size(version))
        self.write_into(file, version)
        return file

    def write_into(self, buffer: object, version: int = 2) -> int:
        """Writes the garbled file of a version, 1 or 2, to a writable buffer, and returns the number of its bytes.

        Faults: 60 where there is no such version or the first AND number isn't 0, 61 where the buffer has too little
        room and stays as it is, 62, 68 where the circuit had no digest.
        """
        version, written = u32(version), c_size_t()
        with Lent(buffer, is_written=True) as out:
            code = self._call(library.halfgates_garbling_write, version, out.at, out.size, byref(written))
            check(code, ("buffer", out.size, written.value))
        return written.value

    def _size(self, version: int) -> int:
        written = c_size_t()
        code = self._call(library.halfgates_garbling_write, version, None, 0, byref(written))
        if code != Code.SMALL_BUFFER:
            check(code)
        return written.value

    @property
    def offset(self) -> bytes:
        """The offset, 16 bytes: the label of a 1 is the zero label XOR the offset. Never give it to an evaluator."""
        return offset_of(self, library.halfgates_offset)

    def input_labels(self, index: int) -> Tuple[bytes, bytes]:
        """The zero labels and the one labels of the wires of an input value, 16 bytes a wire: what a transfer offers.

        Fault 42: there is no such value.
        """
        return pairs_of(self, library.halfgates_input_labels, self._shape.input_widths, index)

    def output_labels(self, index: int) -> Tuple[bytes, bytes]:
        """The zero labels and the one labels of the wires of an output value. Fault 42: there is no such value."""
        return pairs_of(self, library.halfgates_output_labels, self._shape.output_widths, index)

    def deal(self, index: int, bits: Bits) -> bytearray:
        """The label file of the input value of this index, which stands for these bits. See `Circuit.deal`.

        Faults: 13, 15, 16, 42, 62.
        """
        index, written = u32(index), c_size_t()
        with lent_bits(bits) as value:
            file = bytearray(HEAD_OF_LABELS + LABEL * value.size)
            with Lent(file, is_written=True) as out:
                words = index, value.at, value.size, out.at, out.size, byref(written)
                check(self._call(library.halfgates_garbling_deal, *words))
        return file

    def rows(self) -> bytearray:
        """The row pairs: for each AND gate the generator's row and the evaluator's row, 16 bytes each."""
        return self.rows_range(0)

    def rows_range(self, start: int, count: Optional[int] = None) -> bytearray:
        """The row pairs of `count` AND gates from AND gate `start` on, counted from 0, or of all from there.

        Fault 60: there are no such AND gates.
        """
        rows = bytearray(ROW_PAIR * self._range(u32(start), count))
        self.rows_into(rows, start, count)
        return rows

    def rows_into(self, buffer: object, start: int = 0, count: Optional[int] = None) -> int:
        """Writes the row pairs of all AND gates, or of such a range, to a writable buffer. Returns how many bytes.

        Faults: 60 where there are no such AND gates, 61 where the buffer has too little room and stays as it is.
        """
        start = u32(start)
        count = self._range(start, count)
        with Lent(buffer, is_written=True) as out:
            code = self._call(library.halfgates_rows_range, start, count, out.at, out.size)
            check(code, ("buffer", out.size, ROW_PAIR * count))
        return ROW_PAIR * count

    def _range(self, start: int, count: Optional[int]) -> int:
        """How many AND gates there are in a range."""
        most = self._shape.and_gates - start
        count = most if count is None else integer(count)
        check(Code.OK if 0 <= count <= most else Code.BAD_ARGUMENT)
        return count

    def open(self, index: int, labels: Buffer) -> bytearray:
        """The bits of labels of the output value of this index, 16 bytes a wire, that an evaluator returned.

        Unlike `decode` it takes only labels of this garbling. Faults: 42, 63 where a label is neither of its wire's
        two, 66 where there is another number of labels.
        """
        index = u32(index)
        bits = bytearray(width_of(self._shape.output_widths, index))
        with Lent(labels) as lent, Lent(bits, is_written=True) as out:
            code = self._call(library.halfgates_open, index, lent.at, lent.size, out.at, out.size)
            check(code, ("labels", lent.size, LABEL * out.size))
        return bits

    def decode_bits(self) -> bytearray:
        """The decode bits of all output wires: `decode` opens the outputs to whoever has those of their wires."""
        bits = bytearray(self._shape.output_wires)
        with Lent(bits, is_written=True) as out:
            check(self._call(library.halfgates_decode_bits, out.at, out.size))
        return bits

    def zero_label(self, wire: int) -> bytes:
        """The zero label of a wire, 16 bytes, zeros for a wire that isn't set. Fault 60: there is no such wire."""
        label = (c_uint8 * LABEL)()
        check(self._call(library.halfgates_zero_label, u32(wire), label))
        return bytes(label)

    def decode_bit(self, output: int) -> int:
        """The decode bit of an output wire, counted from 0 among these. Fault 60: there is no such output."""
        bit = c_uint8()
        check(self._call(library.halfgates_decode_bit, u32(output), byref(bit)))
        return bit.value

    def labels(self, bits: Bits, start: int = 0, count: Optional[int] = None) -> List[WireLabels]:
        """The labels of `count` wires from `start` on, or of all from there, for the bits of all input wires.

        Where a bit is 1 both labels of its wire are here, and so the offset: never give them to an evaluator.
        Faults: 13, 15, 16, 60 where there are no such wires.
        """
        start = u32(start)
        most = max(self._shape.wires - start, 0)
        count = most if count is None else integer(count)
        if not 0 <= count <= most:
            raise Fault(Code.BAD_ARGUMENT)
        found = (_library.WireLabels * count)()
        with lent_bits(bits) as lent:
            check(self._call(library.halfgates_labels, lent.at, lent.size, start, found, count))
        return [WireLabels._of(it) for it in found]

    def audit(self, garbled: Buffer) -> GarbledReport:
        """Compares a garbled file of either version with the garbling.

        Faults: 60 where the garbling's first AND number isn't 0, 68 where its circuit had no digest, 30 to 36 of the
        file.
        """
        report = _library.AuditReport()
        with Lent(garbled) as lent:
            check(self._call(library.halfgates_audit, lent.at, lent.size, report))
        return GarbledReport._of(report)

    def audit_rows(self, rows: Buffer, decode_bits: Bits) -> RowsReport:
        """Compares row pairs, 32 bytes an AND gate, and decode bits with the garbling, whatever its first AND number.

        Faults: 13, 15, 16 where there is another number of decode bits, 66 where there is another number of row pairs.
        """
        report = _library.RowsReport()
        with Lent(rows) as lent, lent_bits(decode_bits) as bits:
            code = self._call(library.halfgates_audit_rows, lent.at, lent.size, bits.at, bits.size, report)
            check(code, ("rows", lent.size, ROW_PAIR * self._shape.and_gates))
        return RowsReport._of(report)

    def audit_labels(self, labels: Buffer) -> LabelsReport:
        """Compares a label file with the garbling, and returns the bits that it stands for. Faults: 30 to 36, 46."""
        report = _library.LabelsReport()
        with Lent(labels) as lent:
            bits = bytearray(max(lent.size // LABEL - 1, 0))
            with Lent(bits, is_written=True) as out:
                words = lent.at, lent.size, out.at, out.size, report
                check(self._call(library.halfgates_audit_labels, *words))
        return LabelsReport._of(report, bits)


class Job(Handle):
    """What an evaluator has, by `Circuit.bind`: a circuit, a garbled file of it, and a label for each input wire."""

    _Owner = owner(library.halfgates_job_free)

    def evaluate(self) -> bytearray:
        """The bits of all output wires. A job may be evaluated again. Faults: 46, 48."""
        bits = bytearray(self._shape.output_wires)
        with Lent(bits, is_written=True) as out:
            check(self._call(library.halfgates_evaluate, out.at, out.size))
        return bits

    def output_labels(self) -> bytearray:
        """The active labels of all output wires, 16 bytes each. Fault: 46."""
        labels = bytearray(LABEL * self._shape.output_wires)
        with Lent(labels, is_written=True) as out:
            check(self._call(library.halfgates_job_output_labels, out.at, out.size))
        return labels


def decode(labels: Buffer, decode_bits: Bits) -> bytearray:
    """The bits of active output labels, 16 bytes each, by the decode bits of their wires.

    Any label decodes: that it is one of its wire's two isn't checked. Faults: 13, 46, 15 where a decode bit is neither
    0 nor 1, 66 where there is another number of labels than of bits.
    """
    with Lent(labels) as lent, lent_bits(decode_bits) as decoding:
        bits = bytearray(decoding.size)
        with Lent(bits, is_written=True) as out:
            words = lent.at, lent.size, decoding.at, decoding.size, out.at, out.size
            check(library.halfgates_decode(*words), ("labels", lent.size, LABEL * decoding.size))
    return bits
