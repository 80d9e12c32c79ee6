# SPDX-License-Identifier: MIT OR Apache-2.0
"""Texts that aren't those of a circuit: where their first fault is, and what it means."""

from typing import Optional

from . import _library
from ._bits import Buffer
from ._buffers import Lent
from ._codes import Code
from ._library import MemoryFault, check, fault_of, library
from ._reports import Place


def locate(text: Buffer) -> Optional[Place]:
    """Where the first fault of a text in Bristol Fashion is: None for a circuit. Fault: 13."""
    with Lent(text) as lent:
        return Place._of(_place_in(lent))


def explain(text: Buffer) -> str:
    """The sentence on the first fault of a text in Bristol Fashion, with a hint where it looks like another format.

    It is the one that the program prints with --explain, and names the gate and the wire. For a circuit it is "".
    Fault: 13.
    """
    with Lent(text) as lent:
        return _sentence_on(lent)


def check_text(code: int, text: Lent) -> None:
    """Raises the fault of reading a text, with its place and its sentence, unless the code is that of success."""
    if Code.CIRCUIT_TRUNCATED <= code <= Code.WIDTHS_EXCEED_WIRES:
        raise fault_of(code, _detail_of(code, text))
    check(code)


def _detail_of(code: int, text: Lent) -> str:
    """Where a text has this fault, and the sentence on it; "" if memory runs out or the text has changed."""
    try:
        place = _place_in(text)
        return f"line {place.line}, column {place.column}: {_sentence_on(text)}" if place.fault == code else ""
    except MemoryFault:
        return ""


def _place_in(text: Lent) -> _library.Place:
    place = _library.Place()
    check(library.halfgates_locate(text.at, text.size, place))
    return place


def _sentence_on(text: Lent) -> str:
    sentence = _library.Sentence()
    check(library.halfgates_explain(text.at, text.size, sentence))
    return sentence.text.decode()
