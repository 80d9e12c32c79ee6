// SPDX-License-Identifier: MIT OR Apache-2.0

use std::fmt;
use std::mem::{size_of, size_of_val};
use std::ptr;
use std::sync::Arc;

use crate::call::{bits_of, filled, room, Handle};
use crate::fault::{Fault, SizeFault};
use crate::gates::{Gate, GateFault};
use crate::{sys, Evaluator, Garbler, Garbling, Job, Label, Place, RowPair, Version};

/// A circuit, read from a text in Bristol Fashion.
///
/// It is read once and garbled any number of times. Its garblings and jobs outlive it.
///
/// Several threads can use one circuit at once. [`Circuit::share`] gives one that is dropped by
/// itself.
pub struct Circuit {
    handle: Handle<sys::halfgates_circuit>,
    shape: Arc<Shape>,
    digest: Option<[u8; 32]>,
}

/// A call that reads a circuit, with its digest or without.
type Read = unsafe extern "C" fn(*const u8, usize, *mut *mut sys::halfgates_circuit) -> i32;

/// A call that makes a circuit of gates, with its digest or without.
type FromGates = unsafe extern "C" fn(
    *const Gate,
    usize,
    u32,
    *const u32,
    usize,
    *const u32,
    usize,
    *mut *mut sys::halfgates_circuit,
    *mut sys::halfgates_place,
) -> i32;

/// What a circuit, its garblings and its jobs know of its size.
pub(crate) struct Shape {
    pub gates: usize,
    pub and_gates: usize,
    pub wires: usize,
    pub input_wires: usize,
    pub output_wires: usize,
    pub input_widths: Vec<usize>,
    pub output_widths: Vec<usize>,
}

impl Circuit {
    /// Reads a circuit from its text in Bristol Fashion, and takes its digest.
    ///
    /// # Errors
    ///
    /// The first fault of the text, codes 1 to 13, which [`locate`](crate::locate) places and
    /// [`explain`](crate::explain) explains; [`Fault::MEMORY`].
    #[doc(alias = "halfgates_circuit_read")]
    pub fn read(text: impl AsRef<[u8]>) -> Result<Self, Fault> {
        Self::read_by(sys::halfgates_circuit_read, text.as_ref())
    }

    /// Reads a circuit without taking its digest, which takes longer than reading. Garbled files
    /// and jobs need it: see [`Circuit::take_digest`].
    ///
    /// # Errors
    ///
    /// Those of [`Circuit::read`].
    #[doc(alias = "halfgates_circuit_read_without_digest")]
    pub fn read_without_digest(text: impl AsRef<[u8]>) -> Result<Self, Fault> {
        Self::read_by(sys::halfgates_circuit_read_without_digest, text.as_ref())
    }

    fn read_by(read: Read, text: &[u8]) -> Result<Self, Fault> {
        // SAFETY: the call reads the text, and writes a handle.
        let handle = unsafe { Handle::new(|it| read(text.as_ptr(), text.len(), it))? };
        Self::of(handle)
    }

    fn of(handle: Handle<sys::halfgates_circuit>) -> Result<Self, Fault> {
        let shape = Arc::new(Shape::of(&handle)?);
        let digest = digest_of(&handle)?;
        Ok(Self {
            handle,
            shape,
            digest,
        })
    }

    /// The circuit of these gates in this order, of this many wires, and of values of these widths:
    /// what [`Circuit::read`] makes of their text. Where each wire is an input wire or set by a
    /// gate, `wires` is the number of input wires and of gates together.
    ///
    /// ```
    /// use halfgates::{Circuit, Gate};
    ///
    /// let and = Circuit::from_gates(&[Gate::and(0, 1, 2)], 3, &[1, 1], &[1])?;
    /// assert_eq!(and.plain(&[true, true])?, [true]);
    /// # Ok::<(), halfgates::Fault>(())
    /// ```
    ///
    /// # Errors
    ///
    /// The first fault of that text, with its gate and its wire; [`Fault::BAD_NUMBER`] for a number
    /// above 4,294,967,295; [`Fault::CIRCUIT_MEMORY`], [`Fault::MEMORY`].
    #[doc(alias = "halfgates_circuit_from_gates")]
    pub fn from_gates(
        gates: &[Gate],
        wires: usize,
        input_widths: &[usize],
        output_widths: &[usize],
    ) -> Result<Self, GateFault> {
        let call = sys::halfgates_circuit_from_gates;
        Self::from_gates_by(call, gates, wires, [input_widths, output_widths])
    }

    /// The circuit of these gates, as by [`Circuit::from_gates`], without its digest.
    ///
    /// # Errors
    ///
    /// Those of [`Circuit::from_gates`].
    #[doc(alias = "halfgates_circuit_from_gates_without_digest")]
    pub fn from_gates_without_digest(
        gates: &[Gate],
        wires: usize,
        input_widths: &[usize],
        output_widths: &[usize],
    ) -> Result<Self, GateFault> {
        let call = sys::halfgates_circuit_from_gates_without_digest;
        Self::from_gates_by(call, gates, wires, [input_widths, output_widths])
    }

    fn from_gates_by(
        call: FromGates,
        gates: &[Gate],
        wires: usize,
        [input_widths, output_widths]: [&[usize]; 2],
    ) -> Result<Self, GateFault> {
        let wires = number(wires)?;
        let (inputs, outputs) = (numbers(input_widths)?, numbers(output_widths)?);
        let mut place = sys::halfgates_place::default();
        // SAFETY: a gate has the layout of the header's. The call reads the gates and the widths,
        // and writes the place and a handle.
        let handle = unsafe {
            Handle::new(|it| {
                call(
                    gates.as_ptr(),
                    gates.len(),
                    wires,
                    inputs.as_ptr(),
                    inputs.len(),
                    outputs.as_ptr(),
                    outputs.len(),
                    it,
                    &mut place,
                )
            })
        }
        .map_err(|fault| GateFault::of(fault, Place::of(&place)))?;
        Ok(Self::of(handle)?)
    }

    /// Takes the digest, where the circuit has none. Garblings made before, and circuits that
    /// [`Circuit::share`] has returned, stay without.
    ///
    /// # Errors
    ///
    /// None with the handles of this crate.
    #[doc(alias = "halfgates_circuit_take_digest")]
    pub fn take_digest(&mut self) -> Result<(), Fault> {
        // SAFETY: the handle is borrowed exclusively.
        Fault::check(unsafe { sys::halfgates_circuit_take_digest(self.handle.get_mut()) })?;
        self.digest = digest_of(&self.handle)?;
        Ok(())
    }

    /// One more handle of this circuit. It copies nothing.
    ///
    /// # Errors
    ///
    /// [`Fault::MEMORY`].
    #[doc(alias = "halfgates_circuit_share")]
    pub fn share(&self) -> Result<Self, Fault> {
        // SAFETY: the call writes a handle.
        let handle =
            unsafe { Handle::new(|it| sys::halfgates_circuit_share(self.handle.get(), it))? };
        Ok(Self {
            handle,
            shape: Arc::clone(&self.shape),
            digest: self.digest,
        })
    }

    /// The circuit with its gates in order of AND depth, which can be evaluated in half the time,
    /// and garbled in 0.7 to 0.8 of the time.
    ///
    /// It computes the same, and has another digest: each party needs it. It pays for single
    /// garblings and evaluations, not for [`garble_many`](Self::garble_many) and
    /// [`evaluate_many`](crate::evaluate_many).
    ///
    /// # Errors
    ///
    /// [`Fault::MEMORY`].
    #[doc(alias = "halfgates_circuit_order")]
    pub fn order(&self) -> Result<Self, Fault> {
        // SAFETY: the call writes a handle.
        let handle =
            unsafe { Handle::new(|it| sys::halfgates_circuit_order(self.handle.get(), it))? };
        Self::of(handle)
    }

    /// The canonical text of the circuit.
    ///
    /// # Errors
    ///
    /// [`Fault::MEMORY`].
    #[doc(alias = "halfgates_circuit_text")]
    pub fn text(&self) -> Result<Vec<u8>, Fault> {
        let (circuit, mut size, mut written) = (self.handle.get(), 0, 0);
        // SAFETY: a buffer of size 0 can be NULL.
        match Fault::check(unsafe {
            sys::halfgates_circuit_text(circuit, ptr::null_mut(), 0, &mut size)
        }) {
            Ok(()) | Err(Fault::SMALL_BUFFER) => {}
            Err(fault) => return Err(fault),
        }
        // SAFETY: the text has `size` bytes.
        unsafe {
            filled(size, |text| {
                sys::halfgates_circuit_text(circuit, text, size, &mut written)
            })
        }
    }

    /// The number of gates.
    #[must_use]
    pub fn gates(&self) -> usize {
        self.shape.gates
    }

    /// The number of AND gates, which is the number of row pairs of a garbling.
    #[must_use]
    pub fn and_gates(&self) -> usize {
        self.shape.and_gates
    }

    /// The number of wires. They are numbered from 0.
    #[must_use]
    pub fn wires(&self) -> usize {
        self.shape.wires
    }

    /// The number of input wires, which are the first wires.
    #[must_use]
    pub fn input_wires(&self) -> usize {
        self.shape.input_wires
    }

    /// The number of output wires, which are the last wires.
    #[must_use]
    pub fn output_wires(&self) -> usize {
        self.shape.output_wires
    }

    /// The number of wires of each input value.
    #[must_use]
    pub fn input_widths(&self) -> &[usize] {
        &self.shape.input_widths
    }

    /// The number of wires of each output value.
    #[must_use]
    pub fn output_widths(&self) -> &[usize] {
        &self.shape.output_widths
    }

    /// The SHA-256 of the circuit's canonical text.
    ///
    /// # Errors
    ///
    /// [`Fault::NO_DIGEST`] where it wasn't taken.
    #[doc(alias = "halfgates_circuit_digest")]
    pub fn digest(&self) -> Result<&[u8; 32], Fault> {
        self.digest.as_ref().ok_or(Fault::NO_DIGEST)
    }

    /// Evaluates the circuit in the clear: the bits of all output wires, for those of all input
    /// wires.
    ///
    /// # Errors
    ///
    /// [`Fault::WRONG_LENGTH`], [`Fault::CIRCUIT_MEMORY`], [`Fault::MEMORY`].
    #[doc(alias = "halfgates_plain")]
    pub fn plain(&self, bits: &[bool]) -> Result<Vec<bool>, Fault> {
        let count = self.output_wires();
        // SAFETY: a `bool` is a byte 0 or 1, and the call writes `count` bytes.
        let outputs = unsafe {
            filled(count, |outputs| {
                sys::halfgates_plain(
                    self.handle.get(),
                    bits.as_ptr().cast(),
                    bits.len(),
                    outputs,
                    count,
                )
            })?
        };
        Ok(bits_of(outputs))
    }

    /// Garbles under a seed. Take 32 random bytes for each garbling that is sent to anybody:
    /// whoever knows the seed knows every label.
    ///
    /// # Errors
    ///
    /// [`Fault::GARBLING_MEMORY`], [`Fault::MEMORY`].
    #[doc(alias = "halfgates_garble")]
    pub fn garble(&self, seed: &[u8; 32]) -> Result<Garbling, Fault> {
        // SAFETY: the call reads the 32 bytes of the seed, and writes a handle.
        let handle = unsafe {
            Handle::new(|it| sys::halfgates_garble(self.handle.get(), seed.as_ptr(), it))?
        };
        Ok(Garbling::new(handle, Arc::clone(&self.shape)))
    }

    /// Garbles under each of these seeds, as [`Circuit::garble`] does, in their order. With AVX2
    /// two at a time are garbled side by side, which takes less time.
    ///
    /// # Errors
    ///
    /// [`Fault::GARBLING_MEMORY`], [`Fault::MEMORY`]. After an error there is no garbling.
    #[doc(alias = "halfgates_garble_many")]
    pub fn garble_many(&self, seeds: &[[u8; 32]]) -> Result<Vec<Garbling>, Fault> {
        let mut garblings = room(seeds.len())?;
        // SAFETY: the call reads the 32 bytes of each seed, and writes a handle for each.
        let handles = unsafe {
            Handle::many(seeds.len(), |places| {
                let (at, count) = (seeds.as_ptr().cast(), seeds.len());
                sys::halfgates_garble_many(self.handle.get(), at, count, places)
            })?
        };
        let shape = &self.shape;
        garblings.extend(
            handles
                .into_iter()
                .map(|it| Garbling::new(it, Arc::clone(shape))),
        );
        Ok(garblings)
    }

    /// Garbles from an offset, whose colour is 1, and from the zero labels of all input wires.
    ///
    /// `first` is the number of the first AND gate. Under one offset, use no AND number twice:
    /// `first` of the next circuit is at least `first` and the AND gates of this one together.
    /// Where a garbled file of version 2 is written, leave (outputs + 1) / 2 more numbers to its
    /// decode entries.
    ///
    /// A garbling whose `first` isn't 0 has rows and labels, but no garbled file.
    ///
    /// # Errors
    ///
    /// [`Fault::WRONG_SIZE`] where there isn't one label for each input wire;
    /// [`Fault::BAD_ARGUMENT`] where the offset has colour 0, or where `first` and the AND gates
    /// add up to more than 2^62; [`Fault::GARBLING_MEMORY`], [`Fault::MEMORY`].
    #[doc(alias = "halfgates_garble_from")]
    pub fn garble_from(
        &self,
        offset: &Label,
        zero_labels: &[Label],
        first: u64,
    ) -> Result<Garbling, SizeFault> {
        let (labels, size) = (zero_labels.as_ptr().cast(), size_of_val(zero_labels));
        // SAFETY: the call reads the 16 bytes of the offset and `size` bytes of labels, and writes
        // a handle.
        let handle = unsafe {
            Handle::new(|it| {
                sys::halfgates_garble_from(
                    self.handle.get(),
                    offset.as_ptr(),
                    labels,
                    size,
                    first,
                    it,
                )
            })
        };
        let handle = handle.map_err(|it| self.fault_of_inputs(it, "zero_labels", zero_labels))?;
        Ok(Garbling::new(handle, Arc::clone(&self.shape)))
    }

    /// Begins to garble in pieces under a seed, as [`Circuit::garble`] does at once.
    ///
    /// # Errors
    ///
    /// [`Fault::GARBLING_MEMORY`], [`Fault::MEMORY`].
    #[doc(alias = "halfgates_garbler_begin")]
    pub fn garbler(&self, seed: &[u8; 32]) -> Result<Garbler, Fault> {
        // SAFETY: the call reads the 32 bytes of the seed, and writes a handle.
        let handle = unsafe {
            Handle::new(|it| sys::halfgates_garbler_begin(self.handle.get(), seed.as_ptr(), it))?
        };
        Ok(Garbler::new(handle, Arc::clone(&self.shape)))
    }

    /// Begins to garble in pieces from an offset, zero labels and a first AND number, as
    /// [`Circuit::garble_from`] does at once. A garbler that is dropped before its end has used its
    /// AND numbers all the same.
    ///
    /// # Errors
    ///
    /// Those of [`Circuit::garble_from`].
    #[doc(alias = "halfgates_garbler_begin_from")]
    pub fn garbler_from(
        &self,
        offset: &Label,
        zero_labels: &[Label],
        first: u64,
    ) -> Result<Garbler, SizeFault> {
        let (labels, size) = (zero_labels.as_ptr().cast(), size_of_val(zero_labels));
        // SAFETY: the call reads the 16 bytes of the offset and `size` bytes of labels, and writes
        // a handle.
        let handle = unsafe {
            Handle::new(|it| {
                let circuit = self.handle.get();
                sys::halfgates_garbler_begin_from(circuit, offset.as_ptr(), labels, size, first, it)
            })
        };
        let handle = handle.map_err(|it| self.fault_of_inputs(it, "zero_labels", zero_labels))?;
        Ok(Garbler::new(handle, Arc::clone(&self.shape)))
    }

    /// Begins to evaluate in pieces, from the number of the first AND gate, as the garbler had it,
    /// and the active labels of all input wires. Nothing of the labels is trusted.
    ///
    /// # Errors
    ///
    /// [`Fault::WRONG_SIZE`] where there isn't one label for each input wire;
    /// [`Fault::BAD_ARGUMENT`] where `first` is too large; [`Fault::JOB_MEMORY`],
    /// [`Fault::MEMORY`].
    #[doc(alias = "halfgates_evaluator_begin")]
    pub fn evaluator(&self, first: u64, labels: &[Label]) -> Result<Evaluator, SizeFault> {
        let (at, size) = (labels.as_ptr().cast(), size_of_val(labels));
        // SAFETY: the call reads `size` bytes of labels, and writes a handle.
        let handle = unsafe {
            Handle::new(|it| sys::halfgates_evaluator_begin(self.handle.get(), first, at, size, it))
        };
        let handle = handle.map_err(|it| self.fault_of_inputs(it, "labels", labels))?;
        Ok(Evaluator::new(handle, &self.shape))
    }

    /// A fault of a call that takes a label for each input wire.
    fn fault_of_inputs(&self, fault: Fault, name: &'static str, labels: &[Label]) -> SizeFault {
        SizeFault::of(fault, &[(name, labels.len(), self.input_wires())])
    }

    /// The size of a garbled file in bytes, whatever the seed.
    #[must_use]
    #[doc(alias = "halfgates_garbled_size")]
    #[allow(clippy::cast_possible_truncation)] // A file has less than 2 GB.
    pub fn garbled_size(&self, version: Version) -> usize {
        // SAFETY: the handle is the library's.
        unsafe { sys::halfgates_garbled_size(self.handle.get(), version as u32) as usize }
    }

    /// The label file of an input value, counted from 0, for these bits under a seed.
    ///
    /// Deal each value once for a seed: two label files of one value for different bits give away
    /// the offset, and so every label.
    ///
    /// # Errors
    ///
    /// [`Fault::NO_SUCH_VALUE`], [`Fault::WRONG_LENGTH`], [`Fault::CIRCUIT_MEMORY`],
    /// [`Fault::MEMORY`].
    #[doc(alias = "halfgates_deal")]
    pub fn deal(&self, seed: &[u8; 32], index: usize, bits: &[bool]) -> Result<Vec<u8>, Fault> {
        let index = index_of_value(index)?;
        let (size, mut written) = (size_of_label_file(bits.len())?, 0);
        // SAFETY: the call reads the seed's 32 bytes and the bits, and writes the file, which has
        // `size` bytes.
        unsafe {
            filled(size, |file| {
                let (bits, count) = (bits.as_ptr().cast(), bits.len());
                sys::halfgates_deal(
                    self.handle.get(),
                    seed.as_ptr(),
                    index,
                    bits,
                    count,
                    file,
                    size,
                    &mut written,
                )
            })
        }
    }

    /// The label file of an input value, counted from 0, with labels that came some other way, as
    /// by oblivious transfer.
    ///
    /// # Errors
    ///
    /// [`Fault::NO_SUCH_VALUE`], [`Fault::WRONG_SIZE`] where there isn't one label for each wire,
    /// [`Fault::MEMORY`].
    #[doc(alias = "halfgates_label_file")]
    pub fn label_file(&self, index: usize, labels: &[Label]) -> Result<Vec<u8>, SizeFault> {
        let width = self.input_widths().get(index).copied().unwrap_or_default();
        let index = index_of_value(index)?;
        let (size, mut written) = (size_of_label_file(labels.len())?, 0);
        let (at, labels_size) = (labels.as_ptr().cast(), size_of_val(labels));
        // SAFETY: the call reads the labels, and writes the file, which has `size` bytes.
        let file = unsafe {
            filled(size, |file| {
                sys::halfgates_label_file(
                    self.handle.get(),
                    index,
                    at,
                    labels_size,
                    file,
                    size,
                    &mut written,
                )
            })
        };
        file.map_err(|it| SizeFault::of(it, &[("labels", labels.len(), width)]))
    }

    /// Binds a garbled file and a label file for each input value, in any order, to a job. Nothing
    /// of the files is trusted.
    ///
    /// # Errors
    ///
    /// [`Fault::NO_DIGEST`] where the circuit has none; codes 30 to 36, the first fault of the
    /// garbled file, then of each label file in turn; 40 to 46, the first fault of the binding;
    /// [`Fault::MEMORY`].
    #[doc(alias = "halfgates_job_bind")]
    pub fn bind<L: AsRef<[u8]>>(&self, garbled: &[u8], labels: &[L]) -> Result<Job, Fault> {
        let (joined, lengths) = joined(labels)?;
        // SAFETY: the call reads these buffers, and writes a handle.
        let handle = unsafe {
            Handle::new(|it| {
                sys::halfgates_job_bind(
                    self.handle.get(),
                    garbled.as_ptr(),
                    garbled.len(),
                    joined.as_ptr(),
                    joined.len(),
                    lengths.as_ptr(),
                    lengths.len(),
                    it,
                )
            })?
        };
        Ok(Job::new(handle, self.output_wires()))
    }

    /// Evaluates row pairs: the active label of each output wire, from those of all input wires.
    /// `first` is the number of the first AND gate, as the garbler had it.
    ///
    /// Nothing of rows and labels is trusted, and nothing recognises wrong ones: the labels that
    /// they lead to are returned.
    ///
    /// # Errors
    ///
    /// [`Fault::WRONG_SIZE`] where there isn't one row pair for each AND gate or one label for
    /// each input wire; [`Fault::BAD_ARGUMENT`] where `first` is too large; [`Fault::JOB_MEMORY`],
    /// [`Fault::MEMORY`].
    #[doc(alias = "halfgates_evaluate_labels")]
    pub fn evaluate_labels(
        &self,
        rows: &[RowPair],
        labels: &[Label],
        first: u64,
    ) -> Result<Vec<Label>, SizeFault> {
        let count = self.output_wires();
        // SAFETY: the call reads the rows and labels, and writes `count` labels.
        let outputs = unsafe {
            filled(count, |outputs: *mut Label| {
                sys::halfgates_evaluate_labels(
                    self.handle.get(),
                    rows.as_ptr().cast(),
                    size_of_val(rows),
                    first,
                    labels.as_ptr().cast(),
                    size_of_val(labels),
                    outputs.cast(),
                    count * size_of::<Label>(),
                )
            })
        };
        let sizes = [
            ("rows", rows.len(), self.and_gates()),
            ("labels", labels.len(), self.input_wires()),
        ];
        outputs.map_err(|it| SizeFault::of(it, &sizes))
    }
}

impl fmt::Debug for Circuit {
    fn fmt(&self, f: &mut fmt::Formatter<'_>) -> fmt::Result {
        f.debug_struct("Circuit")
            .field("gates", &self.gates())
            .field("and_gates", &self.and_gates())
            .field("wires", &self.wires())
            .field("input_widths", &self.input_widths())
            .field("output_widths", &self.output_widths())
            .finish_non_exhaustive()
    }
}

impl Shape {
    fn of(circuit: &Handle<sys::halfgates_circuit>) -> Result<Self, Fault> {
        let mut numbers = sys::halfgates_numbers::default();
        // SAFETY: the call writes the numbers.
        Fault::check(unsafe { sys::halfgates_circuit_numbers(circuit.get(), &mut numbers) })?;
        let (inputs, outputs) = (
            numbers.input_values as usize,
            numbers.output_values as usize,
        );
        // SAFETY: the calls write a width for each input value, and for each output value.
        let (input_widths, output_widths) = unsafe {
            let inputs = filled(inputs, |it| {
                sys::halfgates_circuit_input_widths(circuit.get(), it, inputs)
            })?;
            (
                inputs,
                filled(outputs, |it| {
                    sys::halfgates_circuit_output_widths(circuit.get(), it, outputs)
                })?,
            )
        };
        let counts = |widths: Vec<u32>| widths.into_iter().map(|width| width as usize).collect();
        Ok(Self {
            gates: numbers.gates as usize,
            and_gates: numbers.and_gates as usize,
            wires: numbers.wires as usize,
            input_wires: numbers.input_wires as usize,
            output_wires: numbers.output_wires as usize,
            input_widths: counts(input_widths),
            output_widths: counts(output_widths),
        })
    }
}

fn digest_of(circuit: &Handle<sys::halfgates_circuit>) -> Result<Option<[u8; 32]>, Fault> {
    let mut digest = [0; 32];
    // SAFETY: the call writes 32 bytes.
    match Fault::check(unsafe { sys::halfgates_circuit_digest(circuit.get(), digest.as_mut_ptr()) })
    {
        Ok(()) => Ok(Some(digest)),
        Err(Fault::NO_DIGEST) => Ok(None),
        Err(fault) => Err(fault),
    }
}

pub(crate) fn index_of_value(index: usize) -> Result<u32, Fault> {
    u32::try_from(index).map_err(|_| Fault::NO_SUCH_VALUE)
}

/// A number as the library takes it.
fn number(it: usize) -> Result<u32, Fault> {
    u32::try_from(it).map_err(|_| Fault::BAD_NUMBER)
}

fn numbers(widths: &[usize]) -> Result<Vec<u32>, Fault> {
    let mut found = room(widths.len())?;
    for &width in widths {
        found.push(number(width)?);
    }
    Ok(found)
}

/// The size of a label file in bytes.
pub(crate) fn size_of_label_file(labels: usize) -> Result<usize, Fault> {
    labels
        .checked_add(1)
        .and_then(|it| it.checked_mul(16))
        .ok_or(Fault::MEMORY)
}

/// Files one after another, and the size of each.
fn joined<F: AsRef<[u8]>>(files: &[F]) -> Result<(Vec<u8>, Vec<usize>), Fault> {
    let (mut bytes, mut lengths) = (Vec::new(), room(files.len())?);
    for file in files.iter().map(AsRef::as_ref) {
        bytes.try_reserve(file.len()).map_err(|_| Fault::MEMORY)?;
        bytes.extend_from_slice(file);
        lengths.push(file.len());
    }
    Ok((bytes, lengths))
}
