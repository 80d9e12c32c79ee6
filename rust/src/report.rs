// SPDX-License-Identifier: MIT OR Apache-2.0

use crate::fault::Fault;
use crate::{sys, Label};

/// Where the first fault of a text is.
#[derive(Clone, Copy, Debug, PartialEq, Eq)]
#[non_exhaustive]
pub struct Place {
    /// The fault that [`Circuit::read`](crate::Circuit::read) returns.
    pub fault: Fault,
    /// The line, counted from 1. Byte 10 ends a line.
    pub line: u64,
    /// The column, counted from 1 in bytes.
    pub column: u64,
    /// The gate being read, counted from 0.
    pub gate: Option<usize>,
    /// The wire of [`Fault::NO_SUCH_WIRE`], [`Fault::UNSET`], [`Fault::SET_TWICE`] and
    /// [`Fault::OUTPUT_UNSET`].
    pub wire: Option<usize>,
}

impl Place {
    pub(crate) fn of(it: &sys::halfgates_place) -> Option<Self> {
        let fault = Fault::check(it.fault).err()?;
        // The wire can be any number of 32 bits, `NONE` too.
        let has_wire = matches!(
            fault,
            Fault::NO_SUCH_WIRE | Fault::UNSET | Fault::SET_TWICE | Fault::OUTPUT_UNSET
        );
        Some(Self {
            fault,
            line: it.line,
            column: it.column,
            gate: some(it.gate),
            wire: has_wire.then_some(it.wire as usize),
        })
    }
}

/// The labels of a wire.
#[derive(Clone, Copy, Debug, PartialEq, Eq)]
#[non_exhaustive]
pub struct WireLabels {
    /// The zero label.
    pub zero: Label,
    /// The active label for the given bits: the zero label, plus the offset where the bit is 1.
    pub active: Label,
    /// The bit of the wire.
    pub bit: bool,
}

impl WireLabels {
    pub(crate) fn of(it: &sys::halfgates_wire_labels) -> Self {
        Self {
            zero: it.zero,
            active: it.active,
            bit: it.bit != 0,
        }
    }
}

/// What an audit finds of a garbled file: the first difference of each part, if there is one.
#[derive(Clone, Copy, Debug, PartialEq, Eq)]
#[non_exhaustive]
pub struct GarbledReport {
    /// Whether nothing differs: it is the file that [`Garbling::write`](crate::Garbling::write)
    /// writes.
    pub is_honest: bool,
    /// The version of the file, 1 or 2.
    pub version: u8,
    /// Whether the digest is the circuit's.
    pub has_digest: bool,
    /// Whether there is a row pair for each AND gate and a decode bit for each output wire.
    /// Otherwise no more is compared.
    pub has_counts: bool,
    /// The first row pair that differs.
    pub row: Option<RowDifference>,
    /// The first output, counted from 0, whose decode bit differs.
    pub decode_bit: Option<usize>,
    /// The first decode entry that differs. Version 1 has none.
    pub entry: Option<EntryDifference>,
}

/// A row pair that differs from the garbling's.
#[derive(Clone, Copy, Debug, PartialEq, Eq)]
#[non_exhaustive]
pub struct RowDifference {
    /// The number of the gate among the AND gates.
    pub row: usize,
    /// The number of the gate among all gates.
    pub gate: usize,
    /// The wire that the gate sets.
    pub wire: usize,
    /// Whether the generator's row differs.
    pub generator: bool,
    /// Whether the evaluator's row differs.
    pub evaluator: bool,
}

/// A decode entry that differs from the garbling's.
#[derive(Clone, Copy, Debug, PartialEq, Eq)]
#[non_exhaustive]
pub struct EntryDifference {
    /// The output, counted from 0.
    pub output: usize,
    /// The colour of the entry.
    pub colour: bool,
}

impl GarbledReport {
    pub(crate) fn of(it: &sys::halfgates_audit_report) -> Self {
        Self {
            is_honest: it.honest != 0,
            version: it.version,
            has_digest: it.digest != 0,
            has_counts: it.counts != 0,
            row: RowDifference::of([it.row, it.gate, it.wire], it.generator, it.evaluator),
            decode_bit: some(it.decode_bit),
            entry: some(it.entry).map(|output| EntryDifference {
                output,
                colour: it.entry_colour != 0,
            }),
        }
    }
}

impl RowDifference {
    /// The gate, the rows of which differ where a byte isn't 0.
    fn of(gate: [u32; 3], generator: u8, evaluator: u8) -> Option<Self> {
        let [row, gate, wire] = gate;
        some(row).map(|row| Self {
            row,
            gate: gate as usize,
            wire: wire as usize,
            generator: generator != 0,
            evaluator: evaluator != 0,
        })
    }
}

/// What an audit finds of row pairs and decode bits: the first difference of each, if there is one.
#[derive(Clone, Copy, Debug, PartialEq, Eq)]
#[non_exhaustive]
pub struct RowsReport {
    /// Whether nothing differs.
    pub is_honest: bool,
    /// The first row pair that differs.
    pub row: Option<RowDifference>,
    /// The first output, counted from 0, whose decode bit differs.
    pub decode_bit: Option<usize>,
}

impl RowsReport {
    pub(crate) fn of(it: &sys::halfgates_rows_report) -> Self {
        Self {
            is_honest: it.honest != 0,
            row: RowDifference::of([it.row, it.gate, it.wire], it.generator, it.evaluator),
            decode_bit: some(it.decode_bit),
        }
    }
}

/// What an audit finds of a label file.
#[derive(Clone, Debug, PartialEq, Eq)]
#[non_exhaustive]
pub struct LabelsReport {
    /// The index of the input value in the file.
    pub index: usize,
    /// What the labels are.
    pub verdict: Verdict,
}

/// What the labels of a label file are.
#[derive(Clone, Debug, PartialEq, Eq)]
#[non_exhaustive]
pub enum Verdict {
    /// The file is the one that dealing writes for these bits.
    Honest(Vec<bool>),
    /// The circuit has no input value of this index.
    NoSuchValue,
    /// The value has another number of wires.
    WrongWidth,
    /// A label is neither of the two labels of this wire, the first such.
    WrongLabel {
        /// The number of the wire.
        wire: usize,
    },
}

impl LabelsReport {
    pub(crate) fn of(it: &sys::halfgates_labels_report, bits: Vec<bool>) -> Self {
        let verdict = match it.verdict {
            sys::OK => Verdict::Honest(bits),
            sys::NO_SUCH_VALUE => Verdict::NoSuchValue,
            sys::WRONG_WIDTH => Verdict::WrongWidth,
            _ => Verdict::WrongLabel {
                wire: it.wire as usize,
            },
        };
        Self {
            index: it.index as usize,
            verdict,
        }
    }

    /// The bits that the labels stand for, where the file is honest.
    #[must_use]
    pub fn bits(&self) -> Option<&[bool]> {
        match &self.verdict {
            Verdict::Honest(bits) => Some(bits),
            _ => None,
        }
    }
}

/// A number, unless it stands for none.
fn some(number: u32) -> Option<usize> {
    (number != sys::NONE).then_some(number as usize)
}
