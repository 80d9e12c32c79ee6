# SPDX-License-Identifier: MIT OR Apache-2.0
"""The codes of the library, as include/halfgates.h has them."""

from enum import IntEnum


class Code(IntEnum):
    """The codes of calls: `fault.code == Code.UNSET`. Each has a `meaning`."""

    meaning: str

    def __new__(cls, code: int, meaning: str) -> "Code":
        it = int.__new__(cls, code)
        it._value_, it.meaning = code, meaning
        return it

    OK = 0, "success"

    CIRCUIT_TRUNCATED = 1, "the text ends before the circuit does"
    BAD_NUMBER = 2, "a token that should be a number isn't, or is above 4,294,967,295"
    TOO_LARGE = 3, "more than 16,777,216 gates, 33,554,432 wires or 256 input or output values"
    BAD_SHAPE = 4, "a gate's counts are not those of its operation"
    UNKNOWN_OPERATION = 5, "an operation other than XOR, AND, INV, EQ and EQW"
    BAD_CONSTANT = 6, "the constant of EQ is neither 0 nor 1"
    NO_SUCH_WIRE = 7, "a wire's number is not below the number of wires"
    UNSET = 8, "a gate reads a wire that is no input and that no earlier gate sets"
    SET_TWICE = 9, "a gate sets an input wire, or one that an earlier gate sets"
    OUTPUT_UNSET = 10, "an output wire is no input, and no gate sets it"
    TRAILING_TOKENS = 11, "tokens follow the last gate"
    WIDTHS_EXCEED_WIRES = 12, "the widths of a side add up to more than the wires"
    CIRCUIT_MEMORY = 13, "memory ran out for a circuit, for bits, or evaluating in the clear"

    BAD_DIGIT = 15, "a byte of bits is neither 0 nor 1"
    WRONG_LENGTH = 16, "the number of bits isn't the number of wires"

    GARBLING_MEMORY = 23, "memory ran out while garbling"

    BAD_MAGIC = 30, "the file doesn't begin with the magic of its kind"
    FILE_TRUNCATED = 31, "the file ends too early"
    TRAILING = 32, "bytes follow the end"
    COUNT_TOO_LARGE = 33, "a count is above its limit"
    SPARE_BITS = 34, "a bit of the last decode byte that stands for no output is set"
    BAD_TRAILER = 35, "the trailer isn't the SHA-256 of the bytes before it"
    FILE_MEMORY = 36, "memory ran out while reading a file"

    OTHER_CIRCUIT = 40, "the garbled file has another circuit's digest"
    OTHER_COUNTS = 41, "it doesn't have one row pair for each AND gate, or one decode bit per output"
    NO_SUCH_VALUE = 42, "the circuit has no input value of this index"
    WRONG_WIDTH = 43, "a label file has another number of labels than the value has wires"
    DOUBLE_VALUE = 44, "two label files are for one value"
    MISSING_VALUE = 45, "a value has no label file"
    JOB_MEMORY = 46, "memory ran out while binding or evaluating"
    UNKNOWN_OUTPUT_LABEL = 48, "an output's label isn't one that the garbled file recognises (version 2)"

    BAD_ARGUMENT = (
        60,
        "no such version, wire, output or AND gate, an offset of colour 0, an AND number that is too large, a file of a"
        " garbling whose `first` isn't 0",
    )
    SMALL_BUFFER = 61, "a buffer has too little room"
    MEMORY = 62, "memory ran out for a handle, a file or a list"
    WRONG_LABEL = (
        63,
        "a label is neither of the two labels of its wire: a code of halfgates_open, and a verdict of"
        " halfgates_audit_labels",
    )
    NULL_POINTER = 64, "a NULL for a handle, a buffer with a size or a place to write to"
    WRONG_HANDLE = 65, "a handle of another type, such as a garbling in place of a circuit"
    WRONG_SIZE = 66, "a buffer that is read has a wrong size"
    UNFINISHED = (
        67,
        "row pairs are left: a garbler hasn't made all of them, or an evaluator hasn't taken all of them",
    )
    NO_DIGEST = 68, "the circuit has no digest, which this call needs"


#: The faults that are about a wire.
OF_WIRES = Code.NO_SUCH_WIRE, Code.UNSET, Code.SET_TWICE, Code.OUTPUT_UNSET
