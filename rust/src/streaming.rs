// SPDX-License-Identifier: MIT OR Apache-2.0

use std::fmt;
use std::mem::{size_of, size_of_val};
use std::sync::Arc;

use crate::call::{bits_of, filled, pairs, room, Handle};
use crate::circuit::Shape;
use crate::fault::{Fault, SizeFault};
use crate::{sys, Label, RowPair};

const ROW_PAIR: usize = size_of::<RowPair>();

/// A garbling in progress. It produces its row pairs in pieces, and keeps none of them. Whoever has
/// it knows every label.
///
/// It comes from [`Circuit::garbler`](crate::Circuit::garbler) or
/// [`Circuit::garbler_from`](crate::Circuit::garbler_from). Dropped before its end, it has
/// abandoned the garbling.
///
/// ```
/// use halfgates::Circuit;
///
/// let circuit = Circuit::read("2 4\n2 1 1\n1 1\n2 1 0 1 2 AND\n2 1 2 1 3 AND")?;
/// let mut garbler = circuit.garbler(&[0; 32])?; // For this page only: take 32 random bytes.
/// let mut sent = Vec::new();
/// for piece in garbler.pieces(1) {
///     sent.extend(piece?);
/// }
/// assert_eq!(sent, circuit.garble(&[0; 32])?.rows()?);
/// # Ok::<(), halfgates::Fault>(())
/// ```
pub struct Garbler {
    handle: Handle<sys::halfgates_garbler>,
    shape: Arc<Shape>,
    left: usize,
}

/// A call that writes the zero labels and the one labels of a value.
type WritePairs =
    unsafe extern "C" fn(*const sys::halfgates_garbler, u32, *mut u8, *mut u8, usize) -> i32;

impl Garbler {
    pub(crate) fn new(handle: Handle<sys::halfgates_garbler>, shape: Arc<Shape>) -> Self {
        let left = shape.and_gates;
        Self {
            handle,
            shape,
            left,
        }
    }

    /// The offset, from the beginning on: the XOR of the two labels of any wire.
    ///
    /// # Errors
    ///
    /// None with the handles of this crate.
    #[doc(alias = "halfgates_garbler_offset")]
    pub fn offset(&self) -> Result<Label, Fault> {
        let mut offset = Label::default();
        // SAFETY: the call writes 16 bytes.
        Fault::check(unsafe {
            sys::halfgates_garbler_offset(self.handle.get(), offset.as_mut_ptr())
        })?;
        Ok(offset)
    }

    /// The zero label and the one label of each wire of an input value, counted from 0, from the
    /// beginning on: a transfer can run before the row pairs, or beside them.
    ///
    /// # Errors
    ///
    /// [`Fault::NO_SUCH_VALUE`], [`Fault::MEMORY`].
    #[doc(alias = "halfgates_garbler_input_labels")]
    pub fn input_labels(&self, index: usize) -> Result<Vec<[Label; 2]>, Fault> {
        let widths = &self.shape.input_widths;
        self.pairs(index, widths, sys::halfgates_garbler_input_labels)
    }

    fn pairs(
        &self,
        index: usize,
        widths: &[usize],
        write: WritePairs,
    ) -> Result<Vec<[Label; 2]>, Fault> {
        let width = widths.get(index).copied().unwrap_or_default();
        // A value that there isn't is refused by the call, after other faults.
        let index = u32::try_from(index).unwrap_or(u32::MAX);
        // SAFETY: the call writes `width` labels of each kind.
        unsafe {
            pairs(width, |zero, one, size| {
                write(self.handle.get(), index, zero, one, size)
            })
        }
    }

    /// Garbles the next AND gates: writes as many row pairs as there is room for, and returns how
    /// many. It returns 0 once all are written. What is behind them stays.
    ///
    /// # Errors
    ///
    /// [`Fault::SMALL_BUFFER`] where row pairs are left and there is room for none.
    #[doc(alias = "halfgates_garbler_next")]
    pub fn rows_into(&mut self, rows: &mut [RowPair]) -> Result<usize, SizeFault> {
        // SAFETY: the row pairs are exclusive, and any bytes make one.
        let written = unsafe { self.write_to(rows.as_mut_ptr().cast(), size_of_val(rows)) };
        let written = written.map_err(|it| SizeFault::of(it, &[("rows", rows.len(), 1)]))?;
        Ok(written / ROW_PAIR)
    }

    /// Garbles the next AND gates: writes the bytes of as many row pairs as there is room for, 32
    /// bytes each, and returns how many bytes. It returns 0 once all are written. What is behind
    /// them stays.
    ///
    /// # Errors
    ///
    /// [`Fault::SMALL_BUFFER`] where row pairs are left and there is room for none.
    #[doc(alias = "halfgates_garbler_next")]
    pub fn bytes_into(&mut self, bytes: &mut [u8]) -> Result<usize, SizeFault> {
        // SAFETY: the bytes are exclusive.
        unsafe { self.write_to(bytes.as_mut_ptr(), bytes.len()) }
            .map_err(|it| SizeFault::of(it, &[("bytes", bytes.len(), ROW_PAIR)]))
    }

    /// Garbles the AND gates that are left: an iterator of their row pairs, in pieces of this many.
    /// The last piece may have fewer. A piece has at least one.
    ///
    /// An item is [`Fault::MEMORY`] where there is no memory for a piece. The garbler stays as it
    /// was then, and the next item is that piece.
    pub fn pieces(&mut self, and_gates: usize) -> Pieces<'_> {
        Pieces {
            garbler: self,
            and_gates: and_gates.max(1),
        }
    }

    fn piece(&mut self, and_gates: usize) -> Result<Vec<RowPair>, Fault> {
        let count = and_gates.min(self.left);
        let mut rows: Vec<RowPair> = room(count)?;
        // SAFETY: there is room for `count` row pairs, and as many are there as the call has
        // written.
        unsafe {
            let written = self.write_to(rows.as_mut_ptr().cast(), count * ROW_PAIR)?;
            rows.set_len(written / ROW_PAIR);
        }
        Ok(rows)
    }

    /// # Safety
    ///
    /// `size` bytes can be written from `rows` on.
    unsafe fn write_to(&mut self, rows: *mut u8, size: usize) -> Result<usize, Fault> {
        let mut written = 0;
        // SAFETY: the caller's, and the handle is borrowed exclusively.
        Fault::check(unsafe {
            sys::halfgates_garbler_next(self.handle.get_mut(), rows, size, &mut written)
        })?;
        self.left -= written / ROW_PAIR;
        Ok(written)
    }

    /// The number of row pairs that are left.
    #[must_use]
    pub fn left(&self) -> usize {
        self.left
    }

    /// Once no row pairs are left: the zero label and the one label of each wire of an output
    /// value, counted from 0.
    ///
    /// # Errors
    ///
    /// [`Fault::UNFINISHED`], [`Fault::NO_SUCH_VALUE`], [`Fault::MEMORY`].
    #[doc(alias = "halfgates_garbler_output_labels")]
    pub fn output_labels(&self, index: usize) -> Result<Vec<[Label; 2]>, Fault> {
        let widths = &self.shape.output_widths;
        self.pairs(index, widths, sys::halfgates_garbler_output_labels)
    }

    /// Once no row pairs are left: the decode bit of each output wire.
    ///
    /// # Errors
    ///
    /// [`Fault::UNFINISHED`], [`Fault::MEMORY`].
    #[doc(alias = "halfgates_garbler_decode_bits")]
    pub fn decode_bits(&self) -> Result<Vec<bool>, Fault> {
        let count = self.shape.output_wires;
        // SAFETY: the call writes `count` bytes.
        let bits = unsafe {
            filled(count, |bits| {
                sys::halfgates_garbler_decode_bits(self.handle.get(), bits, count)
            })?
        };
        Ok(bits_of(bits))
    }
}

/// The pieces of a [`Garbler`], by [`Garbler::pieces`].
#[derive(Debug)]
pub struct Pieces<'a> {
    garbler: &'a mut Garbler,
    and_gates: usize,
}

impl Iterator for Pieces<'_> {
    type Item = Result<Vec<RowPair>, Fault>;

    fn next(&mut self) -> Option<Self::Item> {
        (self.garbler.left > 0).then(|| self.garbler.piece(self.and_gates))
    }
}

/// An evaluation in progress. It takes row pairs as they come, and keeps none of them.
///
/// It comes from [`Circuit::evaluator`](crate::Circuit::evaluator).
///
/// ```
/// use halfgates::Circuit;
///
/// let circuit = Circuit::read("1 3\n2 1 1\n1 1\n2 1 0 1 2 AND")?;
/// let mut garbler = circuit.garbler(&[0; 32])?; // For this page only: take 32 random bytes.
/// let labels = [garbler.input_labels(0)?[0][1], garbler.input_labels(1)?[0][1]];
///
/// let mut evaluator = circuit.evaluator(0, &labels)?;
/// let mut buffer = [0; 32 * 1024];
/// while garbler.left() > 0 {
///     let sent = garbler.bytes_into(&mut buffer)?;
///     evaluator.feed(&buffer[..sent])?;
/// }
/// assert_eq!(evaluator.output_labels()?, [garbler.output_labels(0)?[0][1]]);
/// # Ok::<(), halfgates::Fault>(())
/// ```
pub struct Evaluator {
    handle: Handle<sys::halfgates_evaluator>,
    output_wires: usize,
    left: usize,
}

impl Evaluator {
    pub(crate) fn new(handle: Handle<sys::halfgates_evaluator>, shape: &Shape) -> Self {
        Self {
            handle,
            output_wires: shape.output_wires,
            left: shape.and_gates,
        }
    }

    /// Evaluates the next AND gates with the whole row pairs of these bytes, 32 bytes each, and
    /// returns how many bytes were taken: a part of a row pair at the end is left for the next
    /// call. Nothing of the row pairs is trusted.
    ///
    /// # Errors
    ///
    /// [`Fault::WRONG_SIZE`] where there are more row pairs than are left, and none is taken.
    #[doc(alias = "halfgates_evaluator_feed")]
    pub fn feed(&mut self, rows: &[u8]) -> Result<usize, SizeFault> {
        let mut taken = 0;
        // SAFETY: the call reads the bytes, and the handle is borrowed exclusively.
        Fault::check(unsafe {
            let (evaluator, size) = (self.handle.get_mut(), rows.len());
            sys::halfgates_evaluator_feed(evaluator, rows.as_ptr(), size, &mut taken)
        })
        .map_err(|it| SizeFault::of(it, &[("rows", rows.len(), self.left * ROW_PAIR)]))?;
        self.left -= taken / ROW_PAIR;
        Ok(taken)
    }

    /// Evaluates the next AND gates with these row pairs. Nothing of them is trusted.
    ///
    /// # Errors
    ///
    /// [`Fault::WRONG_SIZE`] where they are more than are left, and none is taken.
    #[doc(alias = "halfgates_evaluator_feed")]
    pub fn feed_rows(&mut self, rows: &[RowPair]) -> Result<(), SizeFault> {
        let mut taken = 0;
        // SAFETY: the call reads the row pairs, and the handle is borrowed exclusively.
        Fault::check(unsafe {
            let (rows, size) = (rows.as_ptr().cast(), size_of_val(rows));
            sys::halfgates_evaluator_feed(self.handle.get_mut(), rows, size, &mut taken)
        })
        .map_err(|it| SizeFault::of(it, &[("rows", rows.len(), self.left)]))?;
        self.left -= taken / ROW_PAIR;
        Ok(())
    }

    /// The number of row pairs that are left.
    #[must_use]
    pub fn left(&self) -> usize {
        self.left
    }

    /// Once no row pairs are left: the active label of each output wire.
    ///
    /// # Errors
    ///
    /// [`Fault::UNFINISHED`], [`Fault::MEMORY`].
    #[doc(alias = "halfgates_evaluator_output_labels")]
    pub fn output_labels(&self) -> Result<Vec<Label>, Fault> {
        let count = self.output_wires;
        // SAFETY: the call writes `count` labels.
        unsafe {
            filled(count, |labels: *mut Label| {
                let (labels, size) = (labels.cast(), count * size_of::<Label>());
                sys::halfgates_evaluator_output_labels(self.handle.get(), labels, size)
            })
        }
    }
}

/// Shows no label.
impl fmt::Debug for Garbler {
    fn fmt(&self, f: &mut fmt::Formatter<'_>) -> fmt::Result {
        f.debug_struct("Garbler")
            .field("left", &self.left)
            .finish_non_exhaustive()
    }
}

/// Shows no label.
impl fmt::Debug for Evaluator {
    fn fmt(&self, f: &mut fmt::Formatter<'_>) -> fmt::Result {
        f.debug_struct("Evaluator")
            .field("left", &self.left)
            .finish_non_exhaustive()
    }
}
