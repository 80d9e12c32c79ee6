// SPDX-License-Identifier: MIT OR Apache-2.0
//! `include/halfgates.h`, in its order.

#![allow(non_camel_case_types)]

use std::marker::{PhantomData, PhantomPinned};
use std::mem::size_of;

pub const OK: i32 = 0;
pub const NO_SUCH_VALUE: i32 = 42;
pub const WRONG_WIDTH: i32 = 43;
pub const NONE: u32 = u32::MAX;

macro_rules! handles {
    ($($name:ident)*) => {
        $(
            #[repr(C)]
            pub struct $name {
                _bytes: [u8; 0],
                _owner: PhantomData<(*mut u8, PhantomPinned)>,
            }
        )*
    };
}

handles! {
    halfgates_circuit halfgates_garbling halfgates_job halfgates_garbler halfgates_evaluator
}

/// A gate, which `Gate` is in place of.
pub type halfgates_gate = crate::gates::Gate;

#[repr(C)]
pub struct halfgates_name {
    pub text: [u8; 32],
}

#[repr(C)]
#[derive(Default)]
pub struct halfgates_numbers {
    pub gates: u32,
    pub and_gates: u32,
    pub wires: u32,
    pub input_wires: u32,
    pub output_wires: u32,
    pub input_values: u32,
    pub output_values: u32,
}

#[repr(C)]
#[derive(Default)]
pub struct halfgates_place {
    pub fault: i32,
    pub gate: u32,
    pub wire: u32,
    pub line: u64,
    pub column: u64,
}

#[repr(C)]
pub struct halfgates_sentence {
    pub text: [u8; 256],
}

#[repr(C)]
pub struct halfgates_wire_labels {
    pub zero: [u8; 16],
    pub active: [u8; 16],
    pub bit: u8,
}

#[repr(C)]
#[derive(Default)]
pub struct halfgates_audit_report {
    pub honest: u8,
    pub version: u8,
    pub digest: u8,
    pub counts: u8,
    pub generator: u8,
    pub evaluator: u8,
    pub entry_colour: u8,
    pub row: u32,
    pub gate: u32,
    pub wire: u32,
    pub decode_bit: u32,
    pub entry: u32,
}

#[repr(C)]
#[derive(Default)]
pub struct halfgates_rows_report {
    pub honest: u8,
    pub generator: u8,
    pub evaluator: u8,
    pub row: u32,
    pub gate: u32,
    pub wire: u32,
    pub decode_bit: u32,
}

#[repr(C)]
#[derive(Default)]
pub struct halfgates_labels_report {
    pub verdict: i32,
    pub index: u32,
    pub count: u32,
    pub wire: u32,
}

// The sizes of the header's structures on 64-bit Linux.
const _: () = {
    assert!(size_of::<halfgates_numbers>() == 28);
    assert!(size_of::<halfgates_gate>() == 16);
    assert!(size_of::<halfgates_place>() == 32);
    assert!(size_of::<halfgates_sentence>() == 256);
    assert!(size_of::<halfgates_wire_labels>() == 33);
    assert!(size_of::<halfgates_audit_report>() == 28);
    assert!(size_of::<halfgates_rows_report>() == 20);
    assert!(size_of::<halfgates_labels_report>() == 16);
};

extern "C" {
    #[cfg(test)]
    pub fn halfgates_fault_name(code: i32) -> halfgates_name;
    pub fn halfgates_is_memory(code: i32) -> i32;
    pub fn halfgates_version() -> halfgates_name;

    pub fn halfgates_circuit_read(
        text: *const u8,
        length: usize,
        circuit: *mut *mut halfgates_circuit,
    ) -> i32;
    pub fn halfgates_circuit_read_without_digest(
        text: *const u8,
        length: usize,
        circuit: *mut *mut halfgates_circuit,
    ) -> i32;
    pub fn halfgates_circuit_take_digest(circuit: *mut halfgates_circuit) -> i32;
    pub fn halfgates_circuit_share(
        circuit: *const halfgates_circuit,
        other: *mut *mut halfgates_circuit,
    ) -> i32;
    pub fn halfgates_circuit_order(
        circuit: *const halfgates_circuit,
        ordered: *mut *mut halfgates_circuit,
    ) -> i32;
    pub fn halfgates_circuit_text(
        circuit: *const halfgates_circuit,
        buffer: *mut u8,
        size: usize,
        written: *mut usize,
    ) -> i32;
    pub fn halfgates_circuit_free(circuit: *mut halfgates_circuit);
    pub fn halfgates_circuit_numbers(
        circuit: *const halfgates_circuit,
        numbers: *mut halfgates_numbers,
    ) -> i32;
    pub fn halfgates_circuit_input_widths(
        circuit: *const halfgates_circuit,
        widths: *mut u32,
        count: usize,
    ) -> i32;
    pub fn halfgates_circuit_output_widths(
        circuit: *const halfgates_circuit,
        widths: *mut u32,
        count: usize,
    ) -> i32;
    pub fn halfgates_circuit_digest(circuit: *const halfgates_circuit, digest: *mut u8) -> i32;
    pub fn halfgates_locate(text: *const u8, length: usize, place: *mut halfgates_place) -> i32;
    pub fn halfgates_explain(
        text: *const u8,
        length: usize,
        sentence: *mut halfgates_sentence,
    ) -> i32;
    pub fn halfgates_circuit_from_gates(
        gates: *const halfgates_gate,
        count: usize,
        wires: u32,
        input_widths: *const u32,
        input_values: usize,
        output_widths: *const u32,
        output_values: usize,
        circuit: *mut *mut halfgates_circuit,
        place: *mut halfgates_place,
    ) -> i32;
    pub fn halfgates_circuit_from_gates_without_digest(
        gates: *const halfgates_gate,
        count: usize,
        wires: u32,
        input_widths: *const u32,
        input_values: usize,
        output_widths: *const u32,
        output_values: usize,
        circuit: *mut *mut halfgates_circuit,
        place: *mut halfgates_place,
    ) -> i32;
    pub fn halfgates_plain(
        circuit: *const halfgates_circuit,
        bits: *const u8,
        size: usize,
        outputs: *mut u8,
        outputs_size: usize,
    ) -> i32;

    pub fn halfgates_garble(
        circuit: *const halfgates_circuit,
        seed: *const u8,
        garbling: *mut *mut halfgates_garbling,
    ) -> i32;
    pub fn halfgates_garble_many(
        circuit: *const halfgates_circuit,
        seeds: *const u8,
        count: usize,
        garblings: *mut *mut halfgates_garbling,
    ) -> i32;
    pub fn halfgates_garble_from(
        circuit: *const halfgates_circuit,
        offset: *const u8,
        zero_labels: *const u8,
        size: usize,
        first: u64,
        garbling: *mut *mut halfgates_garbling,
    ) -> i32;
    pub fn halfgates_garbling_free(garbling: *mut halfgates_garbling);
    pub fn halfgates_garbled_size(circuit: *const halfgates_circuit, version: u32) -> u64;
    pub fn halfgates_garbling_write(
        garbling: *const halfgates_garbling,
        version: u32,
        buffer: *mut u8,
        size: usize,
        written: *mut usize,
    ) -> i32;
    pub fn halfgates_write_many(
        garblings: *const *mut halfgates_garbling,
        count: usize,
        version: u32,
        files: *mut u8,
        size: usize,
    ) -> i32;
    pub fn halfgates_deal(
        circuit: *const halfgates_circuit,
        seed: *const u8,
        index: u32,
        bits: *const u8,
        count: usize,
        buffer: *mut u8,
        size: usize,
        written: *mut usize,
    ) -> i32;
    pub fn halfgates_garbling_deal(
        garbling: *const halfgates_garbling,
        index: u32,
        bits: *const u8,
        count: usize,
        buffer: *mut u8,
        size: usize,
        written: *mut usize,
    ) -> i32;
    pub fn halfgates_label_file(
        circuit: *const halfgates_circuit,
        index: u32,
        labels: *const u8,
        labels_size: usize,
        buffer: *mut u8,
        size: usize,
        written: *mut usize,
    ) -> i32;
    pub fn halfgates_offset(garbling: *const halfgates_garbling, offset: *mut u8) -> i32;
    pub fn halfgates_input_labels(
        garbling: *const halfgates_garbling,
        index: u32,
        zero: *mut u8,
        one: *mut u8,
        size: usize,
    ) -> i32;
    pub fn halfgates_output_labels(
        garbling: *const halfgates_garbling,
        index: u32,
        zero: *mut u8,
        one: *mut u8,
        size: usize,
    ) -> i32;
    pub fn halfgates_rows_range(
        garbling: *const halfgates_garbling,
        from: u32,
        count: u32,
        rows: *mut u8,
        size: usize,
    ) -> i32;
    pub fn halfgates_open(
        garbling: *const halfgates_garbling,
        index: u32,
        labels: *const u8,
        labels_size: usize,
        bits: *mut u8,
        size: usize,
    ) -> i32;
    pub fn halfgates_rows(garbling: *const halfgates_garbling, rows: *mut u8, size: usize) -> i32;
    pub fn halfgates_decode_bits(
        garbling: *const halfgates_garbling,
        bits: *mut u8,
        size: usize,
    ) -> i32;
    pub fn halfgates_zero_label(
        garbling: *const halfgates_garbling,
        wire: u32,
        label: *mut u8,
    ) -> i32;
    pub fn halfgates_decode_bit(
        garbling: *const halfgates_garbling,
        output: u32,
        bit: *mut u8,
    ) -> i32;
    pub fn halfgates_labels(
        garbling: *const halfgates_garbling,
        bits: *const u8,
        size: usize,
        from: u32,
        labels: *mut halfgates_wire_labels,
        count: usize,
    ) -> i32;

    pub fn halfgates_job_bind(
        circuit: *const halfgates_circuit,
        garbled: *const u8,
        length: usize,
        labels: *const u8,
        labels_size: usize,
        lengths: *const usize,
        count: usize,
        job: *mut *mut halfgates_job,
    ) -> i32;
    pub fn halfgates_job_free(job: *mut halfgates_job);
    pub fn halfgates_evaluate(job: *const halfgates_job, bits: *mut u8, size: usize) -> i32;
    pub fn halfgates_evaluate_many(
        jobs: *const *mut halfgates_job,
        count: usize,
        bits: *mut u8,
        size: usize,
    ) -> i32;
    pub fn halfgates_evaluate_each(
        jobs: *const *mut halfgates_job,
        count: usize,
        bits: *mut u8,
        size: usize,
        codes: *mut i32,
    ) -> i32;
    pub fn halfgates_job_output_labels(
        job: *const halfgates_job,
        outputs: *mut u8,
        size: usize,
    ) -> i32;
    pub fn halfgates_evaluate_labels(
        circuit: *const halfgates_circuit,
        rows: *const u8,
        rows_size: usize,
        first: u64,
        labels: *const u8,
        labels_size: usize,
        outputs: *mut u8,
        outputs_size: usize,
    ) -> i32;
    pub fn halfgates_decode(
        labels: *const u8,
        labels_size: usize,
        decode_bits: *const u8,
        count: usize,
        bits: *mut u8,
        size: usize,
    ) -> i32;

    pub fn halfgates_garbler_begin(
        circuit: *const halfgates_circuit,
        seed: *const u8,
        garbler: *mut *mut halfgates_garbler,
    ) -> i32;
    pub fn halfgates_garbler_begin_from(
        circuit: *const halfgates_circuit,
        offset: *const u8,
        zero_labels: *const u8,
        size: usize,
        first: u64,
        garbler: *mut *mut halfgates_garbler,
    ) -> i32;
    pub fn halfgates_garbler_free(garbler: *mut halfgates_garbler);
    pub fn halfgates_garbler_offset(garbler: *const halfgates_garbler, offset: *mut u8) -> i32;
    pub fn halfgates_garbler_input_labels(
        garbler: *const halfgates_garbler,
        index: u32,
        zero: *mut u8,
        one: *mut u8,
        size: usize,
    ) -> i32;
    pub fn halfgates_garbler_next(
        garbler: *mut halfgates_garbler,
        rows: *mut u8,
        size: usize,
        written: *mut usize,
    ) -> i32;
    pub fn halfgates_garbler_output_labels(
        garbler: *const halfgates_garbler,
        index: u32,
        zero: *mut u8,
        one: *mut u8,
        size: usize,
    ) -> i32;
    pub fn halfgates_garbler_decode_bits(
        garbler: *const halfgates_garbler,
        bits: *mut u8,
        size: usize,
    ) -> i32;
    pub fn halfgates_evaluator_begin(
        circuit: *const halfgates_circuit,
        first: u64,
        labels: *const u8,
        size: usize,
        evaluator: *mut *mut halfgates_evaluator,
    ) -> i32;
    pub fn halfgates_evaluator_free(evaluator: *mut halfgates_evaluator);
    pub fn halfgates_evaluator_feed(
        evaluator: *mut halfgates_evaluator,
        rows: *const u8,
        size: usize,
        taken: *mut usize,
    ) -> i32;
    pub fn halfgates_evaluator_output_labels(
        evaluator: *const halfgates_evaluator,
        labels: *mut u8,
        size: usize,
    ) -> i32;

    pub fn halfgates_audit(
        garbling: *const halfgates_garbling,
        garbled: *const u8,
        length: usize,
        report: *mut halfgates_audit_report,
    ) -> i32;
    pub fn halfgates_audit_rows(
        garbling: *const halfgates_garbling,
        rows: *const u8,
        rows_size: usize,
        decode_bits: *const u8,
        count: usize,
        report: *mut halfgates_rows_report,
    ) -> i32;
    pub fn halfgates_audit_labels(
        garbling: *const halfgates_garbling,
        labels: *const u8,
        length: usize,
        bits: *mut u8,
        size: usize,
        report: *mut halfgates_labels_report,
    ) -> i32;
}
