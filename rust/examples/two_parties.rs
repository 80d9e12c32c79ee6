// SPDX-License-Identifier: MIT OR Apache-2.0
//! Two parties compare their numbers by a garbled circuit. Both are in this one program, and pass
//! each other files and labels in memory.
//!
//!     two_parties CIRCUIT FIRST SECOND
//!
//! CIRCUIT is a file in Bristol Fashion with two input values, such as `examples/less8.txt`. FIRST
//! is the garbler's number and SECOND the evaluator's, each of up to 64 bits, the lowest bit on the
//! first wire. So is the number that is printed.

use std::env;
use std::error::Error;
use std::fs::{self, File};
use std::io::Read;
use std::process::ExitCode;

use halfgates::{Circuit, Garbling, Label, Version};

type Result<T> = std::result::Result<T, Box<dyn Error>>;

/// The input values of the parties.
const GARBLER: usize = 0;
const EVALUATOR: usize = 1;

/// What the garbler sends beside the oblivious transfer.
struct Message {
    garbled: Vec<u8>,
    labels: Vec<u8>,
}

struct Garbler {
    garbling: Garbling,
    bits: Vec<bool>,
}

impl Garbler {
    fn new(text: &[u8], number: u64) -> Result<Self> {
        let circuit = read_circuit(text)?;
        let bits = bits_of(number, circuit.input_widths()[GARBLER])?;
        Ok(Self {
            garbling: circuit.garble(&random_seed()?)?,
            bits,
        })
    }

    fn message(&self) -> Result<Message> {
        let garbled = self.garbling.write(Version::V2)?;
        Ok(Message {
            garbled,
            labels: self.garbling.deal(GARBLER, &self.bits)?,
        })
    }

    /// Both labels of each wire of the evaluator's value.
    fn offers(&self) -> Result<Vec<[Label; 2]>> {
        Ok(self.garbling.input_labels(EVALUATOR)?)
    }
}

struct Evaluator {
    circuit: Circuit,
    bits: Vec<bool>,
}

impl Evaluator {
    fn new(text: &[u8], number: u64) -> Result<Self> {
        let circuit = read_circuit(text)?;
        let bits = bits_of(number, circuit.input_widths()[EVALUATOR])?;
        Ok(Self { circuit, bits })
    }

    fn evaluate(&self, message: &Message, received: &[Label]) -> Result<u64> {
        let labels = self.circuit.label_file(EVALUATOR, received)?;
        let job = self
            .circuit
            .bind(&message.garbled, &[&message.labels, &labels])?;
        Ok(number_of(&job.evaluate()?))
    }
}

/// Stands for an oblivious transfer, which shows neither party what the other one has.
fn transfer(offers: &[[Label; 2]], choices: &[bool]) -> Vec<Label> {
    offers
        .iter()
        .zip(choices)
        .map(|(pair, &choice)| pair[usize::from(choice)])
        .collect()
}

fn read_circuit(text: &[u8]) -> Result<Circuit> {
    let circuit = Circuit::read(text)?;
    if circuit.input_widths().len() != 2 {
        return Err("the circuit hasn't two input values".into());
    }
    if circuit.output_wires() > 64 {
        return Err("the circuit has more than 64 output wires".into());
    }
    Ok(circuit)
}

fn random_seed() -> Result<[u8; 32]> {
    let mut seed = [0; 32];
    File::open("/dev/urandom")?.read_exact(&mut seed)?;
    Ok(seed)
}

fn bits_of(number: u64, width: usize) -> Result<Vec<bool>> {
    if width < 64 && number >> width != 0 {
        return Err(format!("{number} has more than {width} bits").into());
    }
    Ok((0..width)
        .map(|bit| bit < 64 && number >> bit & 1 == 1)
        .collect())
}

fn number_of(bits: &[bool]) -> u64 {
    bits.iter()
        .rev()
        .fold(0, |number, &bit| number << 1 | u64::from(bit))
}

fn run(circuit: &str, first: &str, second: &str) -> Result<()> {
    let text = fs::read(circuit)?;
    let garbler = Garbler::new(&text, first.parse()?)?;
    let evaluator = Evaluator::new(&text, second.parse()?)?;
    let received = transfer(&garbler.offers()?, &evaluator.bits);
    println!("{}", evaluator.evaluate(&garbler.message()?, &received)?);
    Ok(())
}

fn main() -> ExitCode {
    let words: Vec<String> = env::args().skip(1).collect();
    let done = match &words[..] {
        [circuit, first, second] => run(circuit, first, second),
        _ => {
            eprintln!("usage: two_parties CIRCUIT FIRST SECOND");
            return ExitCode::from(2);
        }
    };
    match done {
        Ok(()) => ExitCode::SUCCESS,
        Err(error) => {
            eprintln!("two_parties: {error}");
            ExitCode::FAILURE
        }
    }
}
