// SPDX-License-Identifier: MIT OR Apache-2.0

//! Garbles Boolean circuits with half gates, and evaluates garbled circuits.
//!
//! This is a safe view of the C library `halfgates`, whose calls are proved to meet their
//! contracts. The crate itself is tested, not proved. It is for Linux on x86-64 and ARM64, and
//! needs no other crate. It links the library in the folder that `HALFGATES_LIB_DIR` names, or else
//! the one of its repository for the target's processor, or else the one that pkg-config finds. With
//! the feature `unlinked` it links none: the program that uses it does.
//!
//! # Two parties
//!
//! The garbler reads a circuit in Bristol Fashion, garbles it under a seed, and deals a label file
//! for each input value. The evaluator binds the garbled file and the label files to a job, and
//! evaluates it.
//!
//! ```
//! use halfgates::{Circuit, Version};
//!
//! let and = "1 3\n2 1 1\n1 1\n2 1 0 1 2 AND";
//! let seed = [0; 32]; // For this page only: take 32 random bytes.
//!
//! let garbling = Circuit::read(and)?.garble(&seed)?;
//! let garbled = garbling.write(Version::V2)?;
//! let labels = [garbling.deal(0, &[true])?, garbling.deal(1, &[true])?];
//!
//! let outputs = Circuit::read(and)?.bind(&garbled, &labels)?.evaluate()?;
//! assert_eq!(outputs, [true]);
//! # Ok::<(), halfgates::Fault>(())
//! ```
//!
//! # Labels, for a protocol of one's own
//!
//! [`Garbling::input_labels`] are what an oblivious transfer offers. A garbling can also go on from
//! labels that another one left, and rows can be evaluated without files. Then the circuit needs no
//! digest, which takes longer than reading:
//!
//! ```
//! use halfgates::{decode, Circuit};
//!
//! let and = Circuit::read_without_digest("1 3\n2 1 1\n1 1\n2 1 0 1 2 AND")?;
//! let first = and.garble(&[0; 32])?;
//!
//! // A second AND gate, of the first one's output and a wire that both have.
//! let zero_labels = [first.output_labels(0)?[0][0], first.input_labels(1)?[0][0]];
//! let second = and.garble_from(&first.offset()?, &zero_labels, and.and_gates() as u64)?;
//!
//! // The evaluator has rows, decode bits, and one label for each wire: here those of 1 and 1.
//! let inputs = [first.input_labels(0)?[0][1], first.input_labels(1)?[0][1]];
//! let between = and.evaluate_labels(&first.rows()?, &inputs, 0)?;
//! let outputs = and.evaluate_labels(&second.rows()?, &[between[0], inputs[1]], 1)?;
//! assert_eq!(decode(&outputs, &second.decode_bits()?)?, [true]);
//! # Ok::<(), halfgates::Fault>(())
//! ```
//!
//! # In pieces
//!
//! A [`Garbler`] produces its row pairs in pieces, which leave while the next ones are made, and an
//! [`Evaluator`] takes them as they come. Neither keeps row pairs.
//!
//! ```
//! use halfgates::{decode, Circuit};
//!
//! let and = Circuit::read("1 3\n2 1 1\n1 1\n2 1 0 1 2 AND")?;
//! let mut garbler = and.garbler(&[0; 32])?;
//! let inputs = [garbler.input_labels(0)?[0][1], garbler.input_labels(1)?[0][1]];
//!
//! let mut evaluator = and.evaluator(0, &inputs)?;
//! for piece in garbler.pieces(4096) {
//!     evaluator.feed_rows(&piece?)?;
//! }
//! assert_eq!(decode(&evaluator.output_labels()?, &garbler.decode_bits()?)?, [true]);
//! # Ok::<(), halfgates::Fault>(())
//! ```
//!
//! # Secrets
//!
//! Whoever has a seed, a [`Garbling`] or a [`Garbler`] knows every label. The vectors that calls
//! return are not wiped when they are dropped. `SECURITY.md` of the repository says what the library
//! promises.

mod call;
mod circuit;
mod fault;
mod garbling;
mod gates;
mod job;
mod report;
mod streaming;
mod sys;

use call::{bits_of, filled, text_of};

pub use circuit::Circuit;
pub use fault::{Fault, SizeFault, Slice};
pub use garbling::{write_many, Garbling};
pub use gates::{Gate, GateFault, Operation};
pub use job::{evaluate_each, evaluate_many, Job};
pub use report::{
    EntryDifference, GarbledReport, LabelsReport, Place, RowDifference, RowsReport, Verdict,
    WireLabels,
};

pub use streaming::{Evaluator, Garbler, Pieces};

/// A label of a wire. Its colour, by which rows are chosen, is the lowest bit of the first byte.
pub type Label = [u8; 16];

/// The two rows of an AND gate. Files and networks have them as 32 bytes, the generator's first:
///
/// ```
/// use halfgates::{Circuit, RowPair};
///
/// let rows = Circuit::read("1 3\n2 1 1\n1 1\n2 1 0 1 2 AND")?.garble(&[0; 32])?.rows()?;
/// let sent: Vec<u8> = rows.iter().flat_map(|pair| pair.to_bytes()).collect();
/// let pair_of = |bytes: &[u8]| RowPair::from_bytes(bytes.try_into().unwrap());
/// let received: Vec<RowPair> = sent.chunks_exact(32).map(pair_of).collect();
/// assert_eq!(received, rows);
/// # Ok::<(), halfgates::Fault>(())
/// ```
#[repr(C)]
#[derive(Clone, Copy, Debug, PartialEq, Eq, Hash)]
pub struct RowPair {
    /// The row of the generator half gate.
    pub generator: Label,
    /// The row of the evaluator half gate.
    pub evaluator: Label,
}

impl RowPair {
    /// The row pair of these bytes.
    #[must_use]
    pub fn from_bytes(bytes: [u8; 32]) -> Self {
        let (mut generator, mut evaluator) = (Label::default(), Label::default());
        generator.copy_from_slice(&bytes[..16]);
        evaluator.copy_from_slice(&bytes[16..]);
        Self {
            generator,
            evaluator,
        }
    }

    /// The bytes of the row pair.
    #[must_use]
    pub fn to_bytes(self) -> [u8; 32] {
        let mut bytes = [0; 32];
        bytes[..16].copy_from_slice(&self.generator);
        bytes[16..].copy_from_slice(&self.evaluator);
        bytes
    }
}

impl From<[u8; 32]> for RowPair {
    fn from(bytes: [u8; 32]) -> Self {
        Self::from_bytes(bytes)
    }
}

impl From<RowPair> for [u8; 32] {
    fn from(pair: RowPair) -> Self {
        pair.to_bytes()
    }
}

/// The version of a garbled file.
#[derive(Clone, Copy, Debug, PartialEq, Eq, Hash, Default)]
pub enum Version {
    /// Rows and decode bits.
    V1 = 1,
    /// The evaluator also recognises the labels of the outputs, and refuses others.
    #[default]
    V2 = 2,
}

/// The version of the library, such as `0.9.9`.
#[must_use]
#[doc(alias = "halfgates_version")]
pub fn version() -> String {
    // SAFETY: the call takes nothing.
    unsafe { sys::halfgates_version() }.to_string()
}

/// Where the first fault of a text in Bristol Fashion is. `None` for a circuit.
///
/// # Errors
///
/// [`Fault::CIRCUIT_MEMORY`].
#[doc(alias = "halfgates_locate")]
pub fn locate(text: impl AsRef<[u8]>) -> Result<Option<Place>, Fault> {
    let text = text.as_ref();
    let mut place = sys::halfgates_place::default();
    // SAFETY: the call reads the text, and writes the place.
    Fault::check(unsafe { sys::halfgates_locate(text.as_ptr(), text.len(), &mut place) })?;
    Ok(Place::of(&place))
}

/// The sentence on the first fault of a text in Bristol Fashion, which the program `halfgates`
/// prints after the place with `--explain`. It names the gate and the wire, and ends with a hint
/// where the text looks like another format. It is empty for a circuit.
///
/// ```
/// use halfgates::{explain, Circuit};
///
/// let text = "1 3\n2 1 1\n1 1\n2 1 0 2 2 XOR";
/// let fault = Circuit::read(text).unwrap_err();
/// assert_eq!(
///     format!("{fault}: {}", explain(text)?),
///     "fault 8 Unset: gate 0, wire 2: \
///      the gate reads a wire that is no input and that no earlier gate sets"
/// );
/// # Ok::<(), halfgates::Fault>(())
/// ```
///
/// # Errors
///
/// [`Fault::CIRCUIT_MEMORY`].
#[doc(alias = "halfgates_explain")]
pub fn explain(text: impl AsRef<[u8]>) -> Result<String, Fault> {
    let text = text.as_ref();
    let mut sentence = sys::halfgates_sentence { text: [0; 256] };
    // SAFETY: the call reads the text, and writes the sentence.
    Fault::check(unsafe { sys::halfgates_explain(text.as_ptr(), text.len(), &mut sentence) })?;
    Ok(text_of(&sentence.text).into_owned())
}

/// The bits of active output labels: of each wire the decode bit XOR the colour of the label. Any
/// label decodes.
///
/// # Errors
///
/// [`Fault::WRONG_SIZE`] where there isn't one decode bit for each label;
/// [`Fault::CIRCUIT_MEMORY`], [`Fault::JOB_MEMORY`], [`Fault::MEMORY`].
#[doc(alias = "halfgates_decode")]
pub fn decode(labels: &[Label], decode_bits: &[bool]) -> Result<Vec<bool>, SizeFault> {
    let count = decode_bits.len();
    // SAFETY: the call reads the labels and the decode bits, and writes `count` bytes.
    let bits = unsafe {
        filled(count, |bits| {
            let (labels, size) = (labels.as_ptr().cast(), std::mem::size_of_val(labels));
            sys::halfgates_decode(
                labels,
                size,
                decode_bits.as_ptr().cast(),
                count,
                bits,
                count,
            )
        })
    };
    let bits = bits.map_err(|it| SizeFault::of(it, &[("labels", labels.len(), count)]))?;
    Ok(bits_of(bits))
}
