// SPDX-License-Identifier: MIT OR Apache-2.0

use std::error::Error;
use std::fmt;

use crate::sys;

/// Why a call failed. The call has changed nothing.
///
/// Each fault has the code and the name that the program `halfgates` prints. Of a text that is no
/// circuit, [`explain`](crate::explain) says what is wrong, and [`locate`](crate::locate) where. The
/// constants serve as patterns:
///
/// ```
/// use halfgates::{Circuit, Fault};
///
/// match Circuit::read("1 3\n2 1 1\n1 1\n2 1 0 1 2 NAND") {
///     Err(Fault::UNKNOWN_OPERATION) => {}
///     other => panic!("{other:?}"),
/// }
/// ```
#[derive(Clone, Copy, PartialEq, Eq, Hash)]
pub struct Fault(i32);

macro_rules! faults {
    ($($(#[$about:meta])* $constant:ident = $code:literal $name:literal;)*) => {
        impl Fault {
            $($(#[$about])* pub const $constant: Self = Self($code);)*

            /// The name of the fault, such as `BadTrailer`. Several codes share the names `Memory`
            /// and `Truncated`.
            #[must_use]
            pub const fn name(self) -> &'static str {
                match self.0 {
                    $($code => $name,)*
                    _ => "Unknown",
                }
            }
        }
    };
}

faults! {
    /// The text ends before the circuit does.
    CIRCUIT_TRUNCATED = 1 "Truncated";
    /// A token where a number belongs isn't a number, or is above 4,294,967,295.
    BAD_NUMBER = 2 "BadNumber";
    /// More than 16,777,216 gates, 33,554,432 wires, or 256 values on a side.
    TOO_LARGE = 3 "TooLarge";
    /// The counts of a gate aren't those of its operation.
    BAD_SHAPE = 4 "BadShape";
    /// An operation other than XOR, AND, INV, EQ and EQW.
    UNKNOWN_OPERATION = 5 "UnknownOperation";
    /// The constant of EQ is neither 0 nor 1.
    BAD_CONSTANT = 6 "BadConstant";
    /// The number of a wire isn't below the number of wires.
    NO_SUCH_WIRE = 7 "NoSuchWire";
    /// A gate reads a wire that is no input and that no earlier gate sets.
    UNSET = 8 "Unset";
    /// A gate sets an input wire, or a wire that an earlier gate sets.
    SET_TWICE = 9 "SetTwice";
    /// An output wire is no input, and no gate sets it.
    OUTPUT_UNSET = 10 "OutputUnset";
    /// Tokens follow the last gate.
    TRAILING_TOKENS = 11 "TrailingTokens";
    /// The widths of a side add up to more than the wires.
    WIDTHS_EXCEED_WIRES = 12 "WidthsExceedWires";
    /// No memory for a circuit, for bits, or to evaluate in the clear.
    CIRCUIT_MEMORY = 13 "Memory";
    /// A byte of bits is neither 0 nor 1. The `bool`s of this crate never are.
    BAD_DIGIT = 15 "BadDigit";
    /// The number of bits isn't the number of wires.
    WRONG_LENGTH = 16 "WrongLength";
    /// No memory to garble.
    GARBLING_MEMORY = 23 "Memory";
    /// The file doesn't begin as one of its kind does.
    BAD_MAGIC = 30 "BadMagic";
    /// The file ends too early.
    FILE_TRUNCATED = 31 "Truncated";
    /// Bytes follow the end of the file.
    TRAILING = 32 "Trailing";
    /// A count of the file is above its limit.
    COUNT_TOO_LARGE = 33 "CountTooLarge";
    /// The last decode byte has a bit set that belongs to no output.
    SPARE_BITS = 34 "SpareBits";
    /// The trailer isn't the SHA-256 of the bytes before it.
    BAD_TRAILER = 35 "BadTrailer";
    /// No memory to read a file.
    FILE_MEMORY = 36 "Memory";
    /// The garbled file has another circuit's digest.
    OTHER_CIRCUIT = 40 "OtherCircuit";
    /// The garbled file doesn't have one row pair for each AND gate, or one decode bit for each
    /// output.
    OTHER_COUNTS = 41 "OtherCounts";
    /// The circuit has no value of this index.
    NO_SUCH_VALUE = 42 "NoSuchValue";
    /// A label file has another number of labels than its value has wires.
    WRONG_WIDTH = 43 "WrongWidth";
    /// Two label files are for one value.
    DOUBLE_VALUE = 44 "DoubleValue";
    /// A value has no label file.
    MISSING_VALUE = 45 "MissingValue";
    /// No memory to bind or to evaluate a job.
    JOB_MEMORY = 46 "Memory";
    /// The garbled file, of version 2, doesn't recognise the label of an output.
    UNKNOWN_OUTPUT_LABEL = 48 "UnknownOutputLabel";
    /// There is no such wire or output, or an offset or an AND number isn't what the call takes.
    BAD_ARGUMENT = 60 "BadArgument";
    /// A buffer is too small.
    SMALL_BUFFER = 61 "SmallBuffer";
    /// No memory for a handle, a file, or a buffer of this crate.
    MEMORY = 62 "Memory";
    /// A label is neither of the two labels of its wire.
    WRONG_LABEL = 63 "WrongLabel";
    /// A pointer is null. The calls of this crate pass none.
    NULL_POINTER = 64 "NullPointer";
    /// A handle is of another type. The types of this crate keep handles apart.
    WRONG_HANDLE = 65 "WrongHandle";
    /// There is another number of labels or rows than the call takes.
    WRONG_SIZE = 66 "WrongSize";
    /// Row pairs are left: a garbler hasn't made all of them, or an evaluator hasn't taken all of
    /// them.
    UNFINISHED = 67 "Unfinished";
    /// The circuit has no digest, which the call needs.
    NO_DIGEST = 68 "NoDigest";
}

impl Fault {
    /// The number of the fault.
    #[must_use]
    pub const fn code(self) -> i32 {
        self.0
    }

    /// Whether memory ran out. The call can be tried again.
    #[must_use]
    #[doc(alias = "halfgates_is_memory")]
    pub fn is_memory(self) -> bool {
        // SAFETY: the call takes any number.
        unsafe { sys::halfgates_is_memory(self.0) != 0 }
    }

    /// The fault of a code, unless it is that of success.
    pub(crate) fn check(code: i32) -> Result<(), Self> {
        match code {
            sys::OK => Ok(()),
            _ => Err(Self(code)),
        }
    }
}

impl fmt::Display for Fault {
    fn fmt(&self, f: &mut fmt::Formatter<'_>) -> fmt::Result {
        write!(f, "fault {} {}", self.code(), self.name())
    }
}

impl fmt::Debug for Fault {
    fn fmt(&self, f: &mut fmt::Formatter<'_>) -> fmt::Result {
        write!(f, "Fault({} {})", self.code(), self.name())
    }
}

impl Error for Fault {}

/// Why a call that takes slices failed: the fault, and which slice it is about. It converts to
/// [`Fault`], which has no slice.
///
/// ```
/// use halfgates::Circuit;
///
/// let circuit = Circuit::read("1 3\n2 1 1\n1 1\n2 1 0 1 2 AND")?;
/// let fault = circuit.evaluator(0, &[[0; 16]]).unwrap_err();
/// assert_eq!(
///     fault.to_string(),
///     "fault 66 WrongSize: labels has length 1, where 2 is expected"
/// );
/// # Ok::<(), halfgates::Fault>(())
/// ```
#[derive(Clone, Copy, Debug, PartialEq, Eq)]
#[non_exhaustive]
pub struct SizeFault {
    /// The fault.
    pub fault: Fault,
    /// The slice of [`Fault::WRONG_SIZE`] and [`Fault::SMALL_BUFFER`].
    pub slice: Option<Slice>,
}

/// A slice that a call was given.
#[derive(Clone, Copy, Debug, PartialEq, Eq)]
#[non_exhaustive]
pub struct Slice {
    /// The name of the parameter.
    pub name: &'static str,
    /// How many items it has.
    pub given: usize,
    /// How many items are expected: of a buffer that is written, at least.
    pub expected: usize,
}

impl SizeFault {
    /// A fault of a call that takes these slices, each with the items that it has and that are
    /// expected.
    pub(crate) fn of(fault: Fault, slices: &[(&'static str, usize, usize)]) -> Self {
        let is_at_fault = |given, expected| match fault {
            Fault::WRONG_SIZE => given != expected,
            Fault::SMALL_BUFFER => given < expected,
            _ => false,
        };
        let slice = slices
            .iter()
            .find(|&&(_, given, expected)| is_at_fault(given, expected))
            .map(|&(name, given, expected)| Slice {
                name,
                given,
                expected,
            });
        Self { fault, slice }
    }
}

impl From<Fault> for SizeFault {
    fn from(fault: Fault) -> Self {
        Self { fault, slice: None }
    }
}

impl From<SizeFault> for Fault {
    fn from(it: SizeFault) -> Self {
        it.fault
    }
}

impl PartialEq<Fault> for SizeFault {
    fn eq(&self, other: &Fault) -> bool {
        self.fault == *other
    }
}

impl fmt::Display for SizeFault {
    fn fmt(&self, f: &mut fmt::Formatter<'_>) -> fmt::Result {
        self.fault.fmt(f)?;
        if let Some(it) = self.slice {
            let (name, given, expected) = (it.name, it.given, it.expected);
            let is_read = self.fault == Fault::WRONG_SIZE;
            let least = if is_read { "" } else { "at least " };
            write!(
                f,
                ": {name} has length {given}, where {least}{expected} is expected"
            )?;
        }
        Ok(())
    }
}

impl Error for SizeFault {}

#[cfg(test)]
mod tests {
    use super::*;

    #[test]
    fn names_and_memory_are_those_of_the_library() {
        for code in (-1..=100).filter(|&it| it != sys::OK) {
            // SAFETY: the call takes any number.
            let name = unsafe { sys::halfgates_fault_name(code) };
            let fault = Fault(code);
            assert_eq!(fault.name(), name.to_string(), "{code}");
            assert_eq!(fault.is_memory(), fault.name() == "Memory", "{code}");
        }
    }
}
