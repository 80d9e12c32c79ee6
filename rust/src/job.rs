// SPDX-License-Identifier: MIT OR Apache-2.0

use std::borrow::Borrow;
use std::fmt;
use std::mem::size_of;

use crate::call::{bits_of, borrowed, filled, room, Handle};
use crate::fault::Fault;
use crate::{sys, Label};

/// What an evaluator has: a circuit, a garbled file of it, and a label for each input wire.
///
/// It comes from [`Circuit::bind`](crate::Circuit::bind). Several threads can use it at once.
pub struct Job {
    handle: Handle<sys::halfgates_job>,
    output_wires: usize,
}

impl Job {
    pub(crate) fn new(handle: Handle<sys::halfgates_job>, output_wires: usize) -> Self {
        Self {
            handle,
            output_wires,
        }
    }

    /// The bits of all output wires. A job can be evaluated again.
    ///
    /// # Errors
    ///
    /// [`Fault::JOB_MEMORY`], [`Fault::UNKNOWN_OUTPUT_LABEL`], [`Fault::MEMORY`].
    #[doc(alias = "halfgates_evaluate")]
    pub fn evaluate(&self) -> Result<Vec<bool>, Fault> {
        let count = self.output_wires;
        // SAFETY: the call writes `count` bytes.
        let bits = unsafe {
            filled(count, |bits| {
                sys::halfgates_evaluate(self.handle.get(), bits, count)
            })?
        };
        Ok(bits_of(bits))
    }

    /// The active label of each output wire.
    ///
    /// # Errors
    ///
    /// [`Fault::JOB_MEMORY`], [`Fault::MEMORY`].
    #[doc(alias = "halfgates_job_output_labels")]
    pub fn output_labels(&self) -> Result<Vec<Label>, Fault> {
        let count = self.output_wires;
        // SAFETY: the call writes `count` labels.
        unsafe {
            filled(count, |labels: *mut Label| {
                sys::halfgates_job_output_labels(
                    self.handle.get(),
                    labels.cast(),
                    count * size_of::<Label>(),
                )
            })
        }
    }
}

/// The bits of all output wires of each job, as [`Job::evaluate`] returns them.
///
/// Up to four jobs in a row that have equal circuits are evaluated side by side, which takes less
/// time.
///
/// # Errors
///
/// The first fault in the order of the jobs: [`Fault::JOB_MEMORY`],
/// [`Fault::UNKNOWN_OUTPUT_LABEL`]; [`Fault::MEMORY`].
#[doc(alias = "halfgates_evaluate_many")]
pub fn evaluate_many<J: Borrow<Job>>(jobs: &[J]) -> Result<Vec<Vec<bool>>, Fault> {
    let jobs = borrowed(jobs)?;
    let (mut handles, mut outputs) = (room(jobs.len())?, room(jobs.len())?);
    handles.extend(jobs.iter().map(|it| it.handle.listed()));
    let size = jobs.iter().map(|it| it.output_wires).sum();
    // SAFETY: the call reads the list and the jobs of its handles, and writes `size` bytes.
    let bits = unsafe {
        filled(size, |bits| {
            sys::halfgates_evaluate_many(handles.as_ptr(), handles.len(), bits, size)
        })?
    };
    let mut bits = bits_of(bits).into_iter();
    for job in jobs {
        let mut of_job = room(job.output_wires)?;
        of_job.extend(bits.by_ref().take(job.output_wires));
        outputs.push(of_job);
    }
    Ok(outputs)
}

/// What comes of each job: the bits of all output wires, or the fault that [`Job::evaluate`]
/// returns.
///
/// Unlike [`evaluate_many`] it goes on after a job that fails.
///
/// # Errors
///
/// Of a job: [`Fault::JOB_MEMORY`], [`Fault::UNKNOWN_OUTPUT_LABEL`]. Of the call:
/// [`Fault::MEMORY`].
#[doc(alias = "halfgates_evaluate_each")]
#[allow(clippy::type_complexity)] // A list of what `Job::evaluate` returns.
pub fn evaluate_each<J: Borrow<Job>>(jobs: &[J]) -> Result<Vec<Result<Vec<bool>, Fault>>, Fault> {
    let jobs = borrowed(jobs)?;
    let (mut handles, mut outcomes) = (room(jobs.len())?, room(jobs.len())?);
    let (mut bits, mut codes) = (Vec::new(), room(jobs.len())?);
    handles.extend(jobs.iter().map(|it| it.handle.listed()));
    let (count, size) = (jobs.len(), jobs.iter().map(|it| it.output_wires).sum());
    bits.try_reserve_exact(size).map_err(|_| Fault::MEMORY)?;
    bits.resize(size, 0);
    codes.resize(count, sys::OK);
    // SAFETY: the call reads the list and the jobs of its handles, and writes at most `size` bytes
    // and `count` codes.
    Fault::check(unsafe {
        let (handles, codes) = (handles.as_ptr(), codes.as_mut_ptr());
        sys::halfgates_evaluate_each(handles, count, bits.as_mut_ptr(), size, codes)
    })?;
    let mut bits = bits_of(bits).into_iter();
    for (job, code) in jobs.into_iter().zip(codes) {
        let mut of_job = room(job.output_wires)?;
        of_job.extend(bits.by_ref().take(job.output_wires));
        outcomes.push(Fault::check(code).map(|()| of_job));
    }
    Ok(outcomes)
}

/// Shows no label.
impl fmt::Debug for Job {
    fn fmt(&self, f: &mut fmt::Formatter<'_>) -> fmt::Result {
        f.debug_struct("Job").finish_non_exhaustive()
    }
}
