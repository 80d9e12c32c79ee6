// SPDX-License-Identifier: MIT OR Apache-2.0

use std::borrow::Borrow;
use std::fmt;
use std::mem::{size_of, size_of_val};
use std::ops::Range;
use std::ptr;
use std::sync::Arc;

use crate::call::{bits_of, borrowed, filled, pairs, room, Handle};
use crate::circuit::{index_of_value, size_of_label_file, Shape};
use crate::fault::{Fault, SizeFault};
use crate::{sys, GarbledReport, Label, LabelsReport, RowPair, RowsReport, Version, WireLabels};

/// The garbling of a circuit: a zero label for each wire, and a row pair for each AND gate. Whoever
/// has it knows every label.
///
/// It comes from [`Circuit::garble`](crate::Circuit::garble) or
/// [`Circuit::garble_from`](crate::Circuit::garble_from). Several threads can use it at once.
pub struct Garbling {
    handle: Handle<sys::halfgates_garbling>,
    shape: Arc<Shape>,
}

/// A call that writes the zero labels and the one labels of a value.
type WritePairs =
    unsafe extern "C" fn(*const sys::halfgates_garbling, u32, *mut u8, *mut u8, usize) -> i32;

impl Garbling {
    pub(crate) fn new(handle: Handle<sys::halfgates_garbling>, shape: Arc<Shape>) -> Self {
        Self { handle, shape }
    }

    /// The garbled file of a version.
    ///
    /// # Errors
    ///
    /// [`Fault::BAD_ARGUMENT`] where the garbling's first AND number isn't 0; [`Fault::NO_DIGEST`]
    /// where its circuit had none; [`Fault::MEMORY`].
    #[doc(alias = "halfgates_garbling_write")]
    pub fn write(&self, version: Version) -> Result<Vec<u8>, Fault> {
        let (size, mut written) = (self.garbled_size(version)?, 0);
        // SAFETY: the file has `size` bytes.
        unsafe {
            filled(size, |file| {
                self.write_to(version, file, size, &mut written)
            })
        }
    }

    /// How many bytes the garbled file of a version has.
    fn garbled_size(&self, version: Version) -> Result<usize, Fault> {
        let mut size = 0;
        // SAFETY: a buffer of size 0 can be NULL.
        match Fault::check(unsafe { self.write_to(version, ptr::null_mut(), 0, &mut size) }) {
            Ok(()) | Err(Fault::SMALL_BUFFER) => Ok(size),
            Err(fault) => Err(fault),
        }
    }

    /// Writes the garbled file of a version to a buffer and returns its size. What the buffer has
    /// behind it stays.
    ///
    /// # Errors
    ///
    /// [`Fault::SMALL_BUFFER`] where the file doesn't fit, and the buffer stays as it is;
    /// the others as of [`Garbling::write`].
    #[doc(alias = "halfgates_garbling_write")]
    pub fn write_into(&self, version: Version, buffer: &mut [u8]) -> Result<usize, SizeFault> {
        let mut written = 0;
        // SAFETY: the buffer is exclusive, and has this size.
        Fault::check(unsafe {
            self.write_to(version, buffer.as_mut_ptr(), buffer.len(), &mut written)
        })
        .map_err(|it| SizeFault::of(it, &[("buffer", buffer.len(), written)]))?;
        Ok(written)
    }

    unsafe fn write_to(
        &self,
        version: Version,
        buffer: *mut u8,
        size: usize,
        written: &mut usize,
    ) -> i32 {
        // SAFETY: the caller's.
        unsafe {
            sys::halfgates_garbling_write(self.handle.get(), version as u32, buffer, size, written)
        }
    }

    /// The label file of an input value, counted from 0, for these bits. Deal each value once.
    ///
    /// # Errors
    ///
    /// [`Fault::NO_SUCH_VALUE`], [`Fault::WRONG_LENGTH`], [`Fault::CIRCUIT_MEMORY`],
    /// [`Fault::MEMORY`].
    #[doc(alias = "halfgates_garbling_deal")]
    pub fn deal(&self, index: usize, bits: &[bool]) -> Result<Vec<u8>, Fault> {
        let index = index_of_value(index)?;
        let (size, mut written) = (size_of_label_file(bits.len())?, 0);
        let (bits, count) = (bits.as_ptr().cast(), bits.len());
        // SAFETY: a `bool` is a byte 0 or 1, and the call writes the file, which has `size` bytes.
        unsafe {
            filled(size, |file| {
                sys::halfgates_garbling_deal(
                    self.handle.get(),
                    index,
                    bits,
                    count,
                    file,
                    size,
                    &mut written,
                )
            })
        }
    }

    /// The offset: the XOR of the two labels of any wire.
    ///
    /// # Errors
    ///
    /// None with the handles of this crate.
    #[doc(alias = "halfgates_offset")]
    pub fn offset(&self) -> Result<Label, Fault> {
        let mut offset = Label::default();
        // SAFETY: the call writes 16 bytes.
        Fault::check(unsafe { sys::halfgates_offset(self.handle.get(), offset.as_mut_ptr()) })?;
        Ok(offset)
    }

    /// The zero label and the one label of each wire of an input value, counted from 0: what an
    /// oblivious transfer offers.
    ///
    /// # Errors
    ///
    /// [`Fault::NO_SUCH_VALUE`], [`Fault::MEMORY`].
    #[doc(alias = "halfgates_input_labels")]
    pub fn input_labels(&self, index: usize) -> Result<Vec<[Label; 2]>, Fault> {
        self.pairs(index, &self.shape.input_widths, sys::halfgates_input_labels)
    }

    /// The zero label and the one label of each wire of an output value, counted from 0.
    ///
    /// # Errors
    ///
    /// [`Fault::NO_SUCH_VALUE`], [`Fault::MEMORY`].
    #[doc(alias = "halfgates_output_labels")]
    pub fn output_labels(&self, index: usize) -> Result<Vec<[Label; 2]>, Fault> {
        self.pairs(
            index,
            &self.shape.output_widths,
            sys::halfgates_output_labels,
        )
    }

    fn pairs(
        &self,
        index: usize,
        widths: &[usize],
        write: WritePairs,
    ) -> Result<Vec<[Label; 2]>, Fault> {
        let width = *widths.get(index).ok_or(Fault::NO_SUCH_VALUE)?;
        let index = index_of_value(index)?;
        // SAFETY: the call writes `width` labels of each kind.
        unsafe {
            pairs(width, |zero, one, size| {
                write(self.handle.get(), index, zero, one, size)
            })
        }
    }

    /// The row pair of each AND gate.
    ///
    /// # Errors
    ///
    /// [`Fault::MEMORY`].
    #[doc(alias = "halfgates_rows")]
    pub fn rows(&self) -> Result<Vec<RowPair>, Fault> {
        let count = self.shape.and_gates;
        // SAFETY: the call writes `count` row pairs.
        unsafe {
            filled(count, |rows: *mut RowPair| {
                sys::halfgates_rows(self.handle.get(), rows.cast(), count * size_of::<RowPair>())
            })
        }
    }

    /// The row pairs of a range of AND gates, counted from 0 in the order of the circuit.
    ///
    /// # Errors
    ///
    /// [`Fault::BAD_ARGUMENT`] where there are no such AND gates, [`Fault::MEMORY`].
    #[doc(alias = "halfgates_rows_range")]
    pub fn rows_range(&self, and_gates: Range<usize>) -> Result<Vec<RowPair>, Fault> {
        if and_gates.start > and_gates.end || and_gates.end > self.shape.and_gates {
            return Err(Fault::BAD_ARGUMENT);
        }
        let (count, size) = (and_gates.len(), and_gates.len() * size_of::<RowPair>());
        let number = |it: usize| u32::try_from(it).map_err(|_| Fault::BAD_ARGUMENT);
        let (from, range) = (number(and_gates.start)?, number(count)?);
        // SAFETY: the call writes `count` row pairs.
        unsafe {
            filled(count, |rows: *mut RowPair| {
                sys::halfgates_rows_range(self.handle.get(), from, range, rows.cast(), size)
            })
        }
    }

    /// Opens labels of an output value, counted from 0, that an evaluator returned: the bit of
    /// each. Unlike [`decode`](crate::decode) it takes only labels of this garbling.
    ///
    /// # Errors
    ///
    /// [`Fault::NO_SUCH_VALUE`]; [`Fault::WRONG_SIZE`] where there isn't one label for each wire;
    /// [`Fault::WRONG_LABEL`] where one is neither of the two labels of its wire;
    /// [`Fault::MEMORY`].
    #[doc(alias = "halfgates_open")]
    pub fn open(&self, index: usize, labels: &[Label]) -> Result<Vec<bool>, SizeFault> {
        let widths = &self.shape.output_widths;
        let count = *widths.get(index).ok_or(Fault::NO_SUCH_VALUE)?;
        let index = index_of_value(index)?;
        // SAFETY: the call reads the labels, and writes `count` bytes.
        let bits = unsafe {
            filled(count, |bits| {
                let (labels, size) = (labels.as_ptr().cast(), size_of_val(labels));
                sys::halfgates_open(self.handle.get(), index, labels, size, bits, count)
            })
        };
        let bits = bits.map_err(|it| SizeFault::of(it, &[("labels", labels.len(), count)]))?;
        Ok(bits_of(bits))
    }

    /// The decode bit of each output wire.
    ///
    /// # Errors
    ///
    /// [`Fault::MEMORY`].
    #[doc(alias = "halfgates_decode_bits")]
    pub fn decode_bits(&self) -> Result<Vec<bool>, Fault> {
        let count = self.shape.output_wires;
        // SAFETY: the call writes `count` bytes.
        let bits = unsafe {
            filled(count, |bits| {
                sys::halfgates_decode_bits(self.handle.get(), bits, count)
            })?
        };
        Ok(bits_of(bits))
    }

    /// The zero label of a wire: 16 zero bytes for a wire that no gate sets and that is no input
    /// wire.
    ///
    /// # Errors
    ///
    /// [`Fault::BAD_ARGUMENT`] where there is no such wire.
    #[doc(alias = "halfgates_zero_label")]
    pub fn zero_label(&self, wire: usize) -> Result<Label, Fault> {
        let mut label = Label::default();
        let wire = u32::try_from(wire).map_err(|_| Fault::BAD_ARGUMENT)?;
        // SAFETY: the call writes 16 bytes.
        Fault::check(unsafe {
            sys::halfgates_zero_label(self.handle.get(), wire, label.as_mut_ptr())
        })?;
        Ok(label)
    }

    /// The decode bit of an output wire, counted from 0 among the output wires.
    ///
    /// # Errors
    ///
    /// [`Fault::BAD_ARGUMENT`] where there is no such output.
    #[doc(alias = "halfgates_decode_bit")]
    pub fn decode_bit(&self, output: usize) -> Result<bool, Fault> {
        let mut bit = 0;
        let output = u32::try_from(output).map_err(|_| Fault::BAD_ARGUMENT)?;
        // SAFETY: the call writes a byte.
        Fault::check(unsafe { sys::halfgates_decode_bit(self.handle.get(), output, &mut bit) })?;
        Ok(bit != 0)
    }

    /// The labels of these wires, for the bits of all input wires.
    ///
    /// Where a bit is 1 both labels of the wire are there, and so the offset: never give them to
    /// an evaluator.
    ///
    /// # Errors
    ///
    /// [`Fault::WRONG_LENGTH`], [`Fault::BAD_ARGUMENT`] where there are no such wires,
    /// [`Fault::CIRCUIT_MEMORY`], [`Fault::MEMORY`].
    #[doc(alias = "halfgates_labels")]
    pub fn labels(&self, bits: &[bool], wires: Range<usize>) -> Result<Vec<WireLabels>, Fault> {
        if wires.start > wires.end || wires.end > self.shape.wires {
            return Err(Fault::BAD_ARGUMENT);
        }
        let from = u32::try_from(wires.start).map_err(|_| Fault::BAD_ARGUMENT)?;
        let count = wires.len();
        // SAFETY: a `bool` is a byte 0 or 1, and the call writes `count` items.
        let labels = unsafe {
            filled(count, |labels| {
                sys::halfgates_labels(
                    self.handle.get(),
                    bits.as_ptr().cast(),
                    bits.len(),
                    from,
                    labels,
                    count,
                )
            })?
        };
        Ok(labels.iter().map(WireLabels::of).collect())
    }

    /// Compares a garbled file of either version with the garbling. A file that differs is `Ok`.
    ///
    /// # Errors
    ///
    /// [`Fault::BAD_ARGUMENT`] where the garbling's first AND number isn't 0;
    /// [`Fault::NO_DIGEST`] where its circuit had none; codes 30 to 36, the first fault of the
    /// file.
    #[doc(alias = "halfgates_audit")]
    pub fn audit(&self, garbled: &[u8]) -> Result<GarbledReport, Fault> {
        let mut report = sys::halfgates_audit_report::default();
        // SAFETY: the call reads the file, and writes the report.
        Fault::check(unsafe {
            sys::halfgates_audit(
                self.handle.get(),
                garbled.as_ptr(),
                garbled.len(),
                &mut report,
            )
        })?;
        Ok(GarbledReport::of(&report))
    }

    /// Compares row pairs and decode bits with the garbling, whatever its first AND number. Rows or
    /// bits that differ are `Ok`.
    ///
    /// # Errors
    ///
    /// [`Fault::WRONG_SIZE`] where there isn't one row pair for each AND gate;
    /// [`Fault::WRONG_LENGTH`] where there isn't one decode bit for each output wire;
    /// [`Fault::CIRCUIT_MEMORY`].
    #[doc(alias = "halfgates_audit_rows")]
    pub fn audit_rows(
        &self,
        rows: &[RowPair],
        decode_bits: &[bool],
    ) -> Result<RowsReport, SizeFault> {
        let mut report = sys::halfgates_rows_report::default();
        // SAFETY: a `bool` is a byte 0 or 1. The call reads the rows and the bits, and writes the
        // report.
        Fault::check(unsafe {
            let (bits, count) = (decode_bits.as_ptr().cast(), decode_bits.len());
            let (pairs, size) = (rows.as_ptr().cast(), size_of_val(rows));
            sys::halfgates_audit_rows(self.handle.get(), pairs, size, bits, count, &mut report)
        })
        .map_err(|it| SizeFault::of(it, &[("rows", rows.len(), self.shape.and_gates)]))?;
        Ok(RowsReport::of(&report))
    }

    /// Compares a label file with the garbling, and returns the bits that it stands for. A file
    /// that differs is `Ok`.
    ///
    /// # Errors
    ///
    /// Codes 30 to 36, the first fault of the file; [`Fault::JOB_MEMORY`], [`Fault::MEMORY`].
    #[doc(alias = "halfgates_audit_labels")]
    pub fn audit_labels(&self, labels: &[u8]) -> Result<LabelsReport, Fault> {
        let mut report = sys::halfgates_labels_report::default();
        let most = labels.len() / 16;
        let mut bits: Vec<u8> = room(most)?;
        // SAFETY: the call reads the file, and writes the report and at most `most` bytes.
        Fault::check(unsafe {
            let (file, length) = (labels.as_ptr(), labels.len());
            sys::halfgates_audit_labels(
                self.handle.get(),
                file,
                length,
                bits.as_mut_ptr(),
                most,
                &mut report,
            )
        })?;
        // SAFETY: the call, which succeeded, has written as many bytes as the report says.
        unsafe { bits.set_len(report.count as usize) };
        Ok(LabelsReport::of(&report, bits_of(bits)))
    }
}

/// The garbled file of each garbling, as [`Garbling::write`] returns it.
///
/// Up to eight files in a row are digested side by side, which takes less time.
///
/// # Errors
///
/// [`Fault::BAD_ARGUMENT`] where the first AND number of a garbling isn't 0;
/// [`Fault::NO_DIGEST`] where the circuit of a garbling had none; [`Fault::MEMORY`].
#[doc(alias = "halfgates_write_many")]
pub fn write_many<G: Borrow<Garbling>>(
    garblings: &[G],
    version: Version,
) -> Result<Vec<Vec<u8>>, Fault> {
    let garblings = borrowed(garblings)?;
    let (mut handles, mut sizes) = (room(garblings.len())?, room(garblings.len())?);
    for garbling in &garblings {
        handles.push(garbling.handle.listed());
        sizes.push(garbling.garbled_size(version)?);
    }
    let (count, size) = (handles.len(), sizes.iter().sum());
    // SAFETY: the call reads the list and the garblings of its handles, and writes `size` bytes.
    let joined = unsafe {
        filled(size, |files| {
            sys::halfgates_write_many(handles.as_ptr(), count, version as u32, files, size)
        })?
    };
    let (mut files, mut rest) = (room(garblings.len())?, joined.as_slice());
    for size in sizes {
        let (file, others) = rest.split_at(size);
        let mut copy = room(size)?;
        copy.extend_from_slice(file);
        files.push(copy);
        rest = others;
    }
    Ok(files)
}

/// Shows no label.
impl fmt::Debug for Garbling {
    fn fmt(&self, f: &mut fmt::Formatter<'_>) -> fmt::Result {
        f.debug_struct("Garbling").finish_non_exhaustive()
    }
}
