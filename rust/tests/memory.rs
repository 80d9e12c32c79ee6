// SPDX-License-Identifier: MIT OR Apache-2.0
//! Handles are freed when they are dropped: many of them take no more memory than a few.

use std::fmt::Write;
use std::fs;

use halfgates::{Circuit, Fault, Gate, Version};

const GATES: usize = 10_000;
const MEGABYTES: usize = 3;

/// A chain of AND gates, whose handles have a hundred kilobytes or more.
fn chain() -> String {
    let mut text = format!("{GATES} {}\n2 1 1\n1 1\n2 1 0 1 2 AND\n", GATES + 2);
    for wire in 2..=GATES {
        writeln!(text, "2 1 {wire} 1 {} AND", wire + 1).unwrap();
    }
    text
}

/// The pages of memory that this process has.
fn resident() -> usize {
    let numbers = fs::read_to_string("/proc/self/statm").unwrap();
    numbers.split(' ').nth(1).unwrap().parse().unwrap()
}

fn assert_freed(make: impl Fn() -> Result<(), Fault>) {
    let make_many = |count| (0..count).for_each(|_| make().unwrap());
    make_many(3);
    let before = resident();
    make_many(40);
    let more = resident().saturating_sub(before) * 4096;
    assert!(more < MEGABYTES << 20, "{more} bytes are kept");
}

#[test]
fn handles_are_freed() -> Result<(), Fault> {
    let text = chain();
    let circuit = Circuit::read(&text)?;
    let garbling = circuit.garble(&[1; 32])?;
    let file = garbling.write(Version::V1)?;
    let labels = [garbling.deal(0, &[true])?, garbling.deal(1, &[true])?];
    assert_freed(|| Circuit::read(&text).map(drop));
    assert_freed(|| circuit.garble(&[1; 32]).map(drop));
    assert_freed(|| circuit.garble_many(&[[1; 32]; 2]).map(drop));
    assert_freed(|| circuit.bind(&file, &labels).map(drop));
    assert_freed(|| circuit.garbler(&[1; 32]).map(drop));
    assert_freed(|| Ok(circuit.evaluator(0, &[[1; 16]; 2]).map(drop)?));
    let gates: Vec<Gate> = (2..)
        .map(|it| Gate::and(it - 1, 0, it))
        .take(GATES)
        .collect();
    assert_freed(|| {
        Circuit::from_gates(&gates, GATES + 2, &[1, 1], &[1])
            .map(drop)
            .map_err(Fault::from)
    });
    Ok(())
}
