// SPDX-License-Identifier: MIT OR Apache-2.0
//! What each call returns and refuses, on a full adder: three input values of one bit, and one
//! output value of two.

use std::borrow::Borrow;
use std::cell::Cell;
use std::io::Write;
use std::process::{Command, Stdio};
use std::thread;

use halfgates::{
    decode, evaluate_each, evaluate_many, explain, locate, write_many, Circuit, Evaluator, Fault,
    Garbler, Garbling, Gate, GateFault, Job, Label, RowPair, SizeFault, Slice, Verdict, Version,
};

const FULL_ADDER: &str = include_str!("../../examples/full_adder.txt");
const SEED: [u8; 32] = [7; 32];
const BITS: [bool; 3] = [true, false, true];

fn adder() -> Circuit {
    Circuit::read(FULL_ADDER).unwrap()
}

fn garbling() -> Garbling {
    adder().garble(&SEED).unwrap()
}

/// The result with the fault alone.
fn bare<T>(result: Result<T, SizeFault>) -> Result<T, Fault> {
    Ok(result?)
}

/// The label files for `BITS`.
fn label_files(garbling: &Garbling) -> Vec<Vec<u8>> {
    BITS.iter()
        .enumerate()
        .map(|(index, &bit)| garbling.deal(index, &[bit]).unwrap())
        .collect()
}

/// The zero labels of all input wires.
fn zero_labels(garbling: &Garbling) -> Vec<Label> {
    (0..3)
        .map(|wire| garbling.zero_label(wire).unwrap())
        .collect()
}

/// The active labels of all input wires for `BITS`.
fn active_labels(garbling: &Garbling) -> Vec<Label> {
    garbling
        .labels(&BITS, 0..3)
        .unwrap()
        .iter()
        .map(|it| it.active)
        .collect()
}

#[test]
fn numbers() {
    let circuit = adder();
    assert_eq!(
        (circuit.gates(), circuit.and_gates(), circuit.wires()),
        (5, 1, 8)
    );
    assert_eq!((circuit.input_wires(), circuit.output_wires()), (3, 2));
    assert_eq!(
        (circuit.input_widths(), circuit.output_widths()),
        (&[1, 1, 1][..], &[2][..])
    );
    assert_eq!(
        (
            circuit.garbled_size(Version::V1),
            circuit.garbled_size(Version::V2)
        ),
        (113, 177)
    );
    assert_eq!(halfgates::version(), env!("CARGO_PKG_VERSION"));
    assert!(format!("{circuit:?}").starts_with("Circuit { gates: 5, and_gates: 1, wires: 8, "));
}

#[test]
fn garblings_under_several_seeds() {
    let circuit = adder();
    let seeds: Vec<[u8; 32]> = (0..5).map(|it| [it; 32]).collect();
    let garblings = circuit.garble_many(&seeds).unwrap();
    assert_eq!(garblings.len(), seeds.len());
    for (seed, garbling) in seeds.iter().zip(&garblings) {
        let alone = circuit.garble(seed).unwrap();
        assert_eq!(garbling.write(Version::V2), alone.write(Version::V2));
    }
    assert!(circuit.garble_many(&[]).unwrap().is_empty());
}

#[test]
fn a_garbling_shows_no_label() {
    let garbling = garbling();
    let job = adder()
        .bind(
            &garbling.write(Version::V2).unwrap(),
            &label_files(&garbling),
        )
        .unwrap();
    assert_eq!(
        format!("{garbling:?} {job:?}"),
        "Garbling { .. } Job { .. }"
    );
}

#[test]
fn the_place_of_a_fault() {
    let broken = FULL_ADDER.replace("3 4 5 AND", "3 6 5 AND");
    assert_eq!(Circuit::read(&broken).unwrap_err(), Fault::UNSET);
    let place = locate(&broken).unwrap().unwrap();
    assert_eq!(
        (place.fault, place.line, place.column),
        (Fault::UNSET, 7, 7)
    );
    assert_eq!((place.gate, place.wire), (Some(2), Some(6)));
    let place = locate("").unwrap().unwrap();
    assert_eq!(
        (place.fault, place.line, place.column),
        (Fault::CIRCUIT_TRUNCATED, 1, 1)
    );
    assert_eq!((place.gate, place.wire), (None, None));
    assert_eq!(locate(FULL_ADDER), Ok(None));
}

#[test]
fn the_sentence_on_a_fault() {
    let explained = |text: &str| explain(text).unwrap();
    assert_eq!(
        explained(&FULL_ADDER.replace("3 4 5 AND", "3 6 5 AND")),
        "gate 2, wire 6: the gate reads a wire that is no input and that no earlier gate sets"
    );
    assert_eq!(explained(""), "the text ends before the circuit does");
    assert_eq!(
        explained("0 3\n2 1 1\n1 1\n"),
        "wire 2: the output wire is no input, and no gate sets it"
    );
    assert_eq!(
        explained("1 3\n2 1 1\n1 1\n# one gate\n2 1 0 1 2 AND"),
        "gate 0: expected a number from 0 to 4294967295; a circuit has no comments"
    );
    assert_eq!(explained(FULL_ADDER), "");
    assert_eq!(
        explain([0xff, 0xfe, b'1', 0]).unwrap(),
        "expected a number from 0 to 4294967295; the file is UTF-16, and a circuit is ASCII"
    );
}

#[test]
fn places_and_wires() {
    let place = |text| locate(text).unwrap().unwrap();
    let far = place("1 3\n2 1 1\n1 1\n\n2 1 0 9 2 AND");
    assert_eq!((far.fault, far.wire), (Fault::NO_SUCH_WIRE, Some(9)));
    assert_eq!((far.line, far.column), (5, 7));
    let unset = place("0 3\n2 1 1\n1 1\n");
    assert_eq!((unset.fault, unset.wire), (Fault::OUTPUT_UNSET, Some(2)));
}

#[test]
fn how_faults_are_displayed() {
    let fault = adder().plain(&[true]).unwrap_err();
    assert_eq!(
        (fault.code(), fault.name(), fault.is_memory()),
        (16, "WrongLength", false)
    );
    assert_eq!(fault.to_string(), "fault 16 WrongLength");
    assert_eq!(format!("{fault:?}"), "Fault(16 WrongLength)");
    assert!(Fault::GARBLING_MEMORY.is_memory());
}

#[test]
fn a_garbling_from_its_own_labels() {
    let (circuit, seeded) = (adder(), garbling());
    let (offset, zero) = (seeded.offset().unwrap(), zero_labels(&seeded));
    let again = circuit.garble_from(&offset, &zero, 0).unwrap();
    for version in [Version::V1, Version::V2] {
        assert_eq!(again.write(version), seeded.write(version));
    }
    let later = circuit.garble_from(&offset, &zero, 5).unwrap();
    assert_ne!(later.rows(), seeded.rows());
    assert_eq!(later.write(Version::V2), Err(Fault::BAD_ARGUMENT));
    assert_eq!(
        later.audit(&seeded.write(Version::V2).unwrap()),
        Err(Fault::BAD_ARGUMENT)
    );

    let outputs = circuit.evaluate_labels(&later.rows().unwrap(), &active_labels(&seeded), 5);
    let decoded = decode(&outputs.unwrap(), &later.decode_bits().unwrap());
    assert_eq!(bare(decoded), circuit.plain(&BITS));
}

#[test]
fn labels_that_cannot_be_garbled_from() {
    let (circuit, seeded) = (adder(), garbling());
    let (offset, zero) = (seeded.offset().unwrap(), zero_labels(&seeded));
    let mut colourless = offset;
    colourless[0] &= !1;
    let refused = |offset, zero, first| circuit.garble_from(offset, zero, first).unwrap_err();
    assert_eq!(refused(&colourless, &zero, 0), Fault::BAD_ARGUMENT);
    assert_eq!(refused(&offset, &zero[1..], 0), Fault::WRONG_SIZE);
    assert_eq!(refused(&colourless, &zero[1..], 0), Fault::WRONG_SIZE);
    assert_eq!(refused(&offset, &zero, 1 << 62), Fault::BAD_ARGUMENT);
    assert!(circuit.garble_from(&offset, &zero, (1 << 62) - 1).is_ok());
}

#[test]
fn both_labels_of_a_value() {
    let garbling = garbling();
    let offset = garbling.offset().unwrap();
    let is_apart = |pair: &[Label; 2]| (0..16).all(|i| pair[0][i] ^ pair[1][i] == offset[i]);
    let inputs = garbling.input_labels(2).unwrap();
    assert_eq!(inputs.len(), 1);
    assert_eq!(inputs[0][0], garbling.zero_label(2).unwrap());
    let outputs = garbling.output_labels(0).unwrap();
    assert_eq!(outputs.len(), 2);
    assert_eq!(outputs[1][0], garbling.zero_label(7).unwrap());
    assert!(inputs.iter().chain(&outputs).all(is_apart));
    for index in [3, usize::MAX] {
        assert_eq!(garbling.input_labels(index), Err(Fault::NO_SUCH_VALUE));
        assert_eq!(garbling.output_labels(index), Err(Fault::NO_SUCH_VALUE));
    }
}

#[test]
fn labels_of_all_wires() {
    let garbling = garbling();
    let offset = garbling.offset().unwrap();
    let labels = garbling.labels(&BITS, 0..8).unwrap();
    let bits: Vec<bool> = labels.iter().map(|it| it.bit).collect();
    assert_eq!(bits, [true, false, true, false, true, false, false, true]);
    for (wire, it) in labels.iter().enumerate() {
        assert_eq!(it.zero, garbling.zero_label(wire).unwrap());
        assert_eq!(garbling.labels(&BITS, wire..wire + 1), Ok(vec![*it]));
        let has_offset = (0..16).all(|i| it.active[i] ^ it.zero[i] == offset[i]);
        assert_eq!((it.active == it.zero, has_offset), (!it.bit, it.bit));
    }
}

#[test]
fn numbers_that_nothing_has() {
    let (circuit, garbling) = (adder(), garbling());
    for number in [8, 1 << 32, usize::MAX] {
        assert_eq!(garbling.zero_label(number), Err(Fault::BAD_ARGUMENT));
        assert_eq!(garbling.decode_bit(number), Err(Fault::BAD_ARGUMENT));
        assert_eq!(
            garbling.labels(&BITS, 0..number + usize::from(number == 8)),
            Err(Fault::BAD_ARGUMENT)
        );
        assert_eq!(
            circuit.deal(&SEED, number, &[true]),
            Err(Fault::NO_SUCH_VALUE)
        );
        assert_eq!(garbling.deal(number, &[true]), Err(Fault::NO_SUCH_VALUE));
        assert_eq!(
            bare(circuit.label_file(number, &[Label::default()])),
            Err(Fault::NO_SUCH_VALUE)
        );
    }
    assert_eq!(garbling.labels(&BITS, 8..8), Ok(Vec::new()));
    #[allow(clippy::reversed_empty_ranges)]
    let reversed = garbling.labels(&BITS, 5..3);
    assert_eq!(reversed, Err(Fault::BAD_ARGUMENT));
    assert_eq!(garbling.labels(&[true], 0..8), Err(Fault::WRONG_LENGTH));
    assert_eq!(circuit.deal(&SEED, 0, &[]), Err(Fault::WRONG_LENGTH));
    assert_eq!(garbling.deal(0, &BITS), Err(Fault::WRONG_LENGTH));
    assert_eq!(bare(circuit.label_file(0, &[])), Err(Fault::WRONG_SIZE));
}

#[test]
fn buffers_of_each_size() {
    let garbling = garbling();
    let file = garbling.write(Version::V2).unwrap();
    let mut buffer = vec![9; 200];
    assert_eq!(garbling.write_into(Version::V2, &mut buffer), Ok(177));
    assert_eq!((&buffer[..177], &buffer[177..]), (&file[..], &[9; 23][..]));
    let mut short = [9; 176];
    assert_eq!(
        bare(garbling.write_into(Version::V2, &mut short)),
        Err(Fault::SMALL_BUFFER)
    );
    assert_eq!(short, [9; 176]);
    assert_eq!(
        bare(garbling.write_into(Version::V1, &mut [])),
        Err(Fault::SMALL_BUFFER)
    );
}

#[test]
fn files_that_cannot_be_bound() {
    let (circuit, garbling) = (adder(), garbling());
    let (garbled, files) = (garbling.write(Version::V2).unwrap(), label_files(&garbling));
    let refused = |garbled: &[u8], files: &[&[u8]]| circuit.bind(garbled, files).unwrap_err();
    let files: Vec<&[u8]> = files.iter().map(Vec::as_slice).collect();
    assert_eq!(refused(b"X", &files), Fault::BAD_MAGIC);
    assert_eq!(refused(&[], &files), Fault::FILE_TRUNCATED);
    assert_eq!(refused(&garbled, &files[..2]), Fault::MISSING_VALUE);
    assert_eq!(refused(&garbled, &[]), Fault::MISSING_VALUE);
    assert_eq!(
        refused(&garbled, &[files[0], files[0]]),
        Fault::DOUBLE_VALUE
    );
    assert_eq!(
        refused(&garbled, &[files[0], &files[1][..31]]),
        Fault::FILE_TRUNCATED
    );

    let reversed: Vec<&[u8]> = files.iter().rev().copied().collect();
    assert_eq!(
        circuit.bind(&garbled, &reversed).unwrap().evaluate(),
        circuit.plain(&BITS)
    );
}

#[test]
fn an_output_label_that_nothing_recognises() {
    let (circuit, garbling) = (adder(), garbling());
    let mut files = label_files(&garbling);
    files[1][16..].fill(0xaa);
    let job = circuit
        .bind(&garbling.write(Version::V2).unwrap(), &files)
        .unwrap();
    assert_eq!(job.evaluate(), Err(Fault::UNKNOWN_OUTPUT_LABEL));
    assert_eq!(job.output_labels().unwrap().len(), 2);
}

#[test]
fn lists_of_garblings() {
    let and = Circuit::read(b"1 3\n2 1 1\n1 1\n\n2 1 0 1 2 AND\n").unwrap();
    let circuit = adder();
    for version in [Version::V1, Version::V2] {
        let mut garblings = Vec::new();
        for number in 0..10 {
            let alone: Result<Vec<_>, _> = garblings
                .iter()
                .map(|it: &Garbling| it.write(version))
                .collect();
            assert_eq!(write_many(&garblings, version), alone);
            let of = if number == 5 { &and } else { &circuit };
            garblings.push(of.garble(&[number; 32]).unwrap());
        }
        let twice = [&garblings[5], &garblings[5]];
        let file = garblings[5].write(version).unwrap();
        assert_eq!(write_many(&twice, version), Ok(vec![file.clone(), file]));

        let later = circuit.garble_from(&[1; 16], &[[0; 16]; 3], 1).unwrap();
        garblings[7] = later;
        assert_eq!(write_many(&garblings, version), Err(Fault::BAD_ARGUMENT));
    }
}

#[test]
fn lists_of_jobs() {
    let (circuit, garbling) = (adder(), garbling());
    let garbled = garbling.write(Version::V2).unwrap();
    let mut jobs = Vec::new();
    for count in 0..10 {
        let alone: Result<Vec<_>, _> = jobs.iter().map(Job::evaluate).collect();
        assert_eq!(evaluate_many(&jobs), alone);
        let files = (0..3).map(|i| garbling.deal(i, &[count >> i & 1 == 1]).unwrap());
        jobs.push(circuit.bind(&garbled, &files.collect::<Vec<_>>()).unwrap());
    }
    let twice = [&jobs[7], &jobs[7]];
    assert_eq!(evaluate_many(&twice), Ok(vec![vec![true; 2]; 2]));

    let mut files = label_files(&garbling);
    files[1][16..].fill(0xaa);
    jobs[5] = circuit.bind(&garbled, &files).unwrap();
    assert_eq!(evaluate_many(&jobs), Err(Fault::UNKNOWN_OUTPUT_LABEL));
    let each: Vec<_> = jobs.iter().map(Job::evaluate).collect();
    assert_eq!(each.iter().filter(|it| it.is_err()).count(), 1);
    assert_eq!(each[5], Err(Fault::UNKNOWN_OUTPUT_LABEL));
    assert_eq!(evaluate_each(&jobs), Ok(each));
    assert_eq!(evaluate_each::<Job>(&[]), Ok(Vec::new()));
}

/// Lends its first item once, and then its second.
struct Changing<T>([T; 2], Cell<bool>);

impl<T> Borrow<T> for Changing<T> {
    fn borrow(&self) -> &T {
        &self.0[usize::from(self.1.replace(true))]
    }
}

#[test]
fn a_list_whose_items_change() {
    let and = Circuit::read("1 3\n2 1 1\n1 1\n\n2 1 0 1 2 AND\n").unwrap();
    let wide = Circuit::read("0 2000\n1 2000\n1 2000\n").unwrap();
    let garblings = || [&and, &wide].map(|it| it.garble(&SEED).unwrap());
    let [narrow, broad] = garblings();
    let changing = [Changing(garblings(), Cell::new(false))];
    let file = narrow.write(Version::V2).unwrap();
    assert_eq!(write_many(&changing, Version::V2), Ok(vec![file.clone()]));

    let ones = [narrow.deal(0, &[true]), narrow.deal(1, &[true])].map(Result::unwrap);
    let bits = [true; 2000];
    let job = wide.bind(
        &broad.write(Version::V2).unwrap(),
        &[broad.deal(0, &bits).unwrap()],
    );
    let jobs = [and.bind(&file, &ones).unwrap(), job.unwrap()];
    let changing = [Changing(jobs, Cell::new(false))];
    assert_eq!(evaluate_many(&changing), Ok(vec![vec![true]]));
    changing[0].1.set(false);
    assert_eq!(evaluate_each(&changing), Ok(vec![Ok(vec![true])]));
}

#[test]
fn rows_and_labels_of_a_wrong_number() {
    let (circuit, garbling) = (adder(), garbling());
    let (rows, labels) = (garbling.rows().unwrap(), active_labels(&garbling));
    let refused = Err(Fault::WRONG_SIZE);
    assert_eq!(bare(circuit.evaluate_labels(&[], &labels, 0)), refused);
    assert_eq!(
        bare(circuit.evaluate_labels(&rows, &labels[1..], 0)),
        refused
    );
    assert_eq!(
        bare(circuit.evaluate_labels(&rows, &labels, 1 << 62)),
        Err(Fault::BAD_ARGUMENT)
    );
    assert_eq!(bare(decode(&labels, &[true])), Err(Fault::WRONG_SIZE));
    assert_eq!(decode(&[], &[]), Ok(Vec::new()));
}

/// Seven AND gates in a chain, with a gate behind each.
fn chain() -> Circuit {
    let mut gates = Vec::new();
    for wire in (2..16).step_by(2) {
        gates.extend([Gate::and(wire - 1, 0, wire), Gate::inv(wire, wire + 1)]);
    }
    Circuit::from_gates(&gates, 16, &[1, 1], &[1, 1]).unwrap()
}

#[test]
fn pieces_of_each_size() {
    let circuit = chain();
    let garbling = circuit.garble(&SEED).unwrap();
    let rows = garbling.rows().unwrap();
    let labels: Vec<Label> = (0..2)
        .map(|index| garbling.input_labels(index).unwrap()[0][1])
        .collect();
    for count in 0..9 {
        let mut garbler = circuit.garbler(&SEED).unwrap();
        let mut evaluator = circuit.evaluator(0, &labels).unwrap();
        assert_eq!(garbler.offset(), garbling.offset());
        let pieces: Vec<_> = garbler.pieces(count).map(Result::unwrap).collect();
        let sizes: Vec<_> = rows.chunks(count.max(1)).collect();
        assert_eq!(pieces, sizes);
        assert_eq!((garbler.left(), garbler.pieces(count).count()), (0, 0));
        for piece in &pieces {
            assert_eq!(evaluator.output_labels(), Err(Fault::UNFINISHED));
            evaluator.feed_rows(piece).unwrap();
        }
        for index in 0..2 {
            assert_eq!(garbler.input_labels(index), garbling.input_labels(index));
            assert_eq!(garbler.output_labels(index), garbling.output_labels(index));
        }
        assert_eq!(garbler.decode_bits(), garbling.decode_bits());
        let expected = bare(circuit.evaluate_labels(&rows, &labels, 0));
        assert_eq!((evaluator.left(), evaluator.output_labels()), (0, expected));
    }
}

#[test]
fn bytes_that_end_within_a_row_pair() {
    let circuit = chain();
    let mut garbler = circuit.garbler(&SEED).unwrap();
    let mut evaluator = circuit.evaluator(0, &[[1; 16], [2; 16]]).unwrap();
    let (mut sent, mut received) = (Vec::new(), Vec::new());
    let mut buffer = [0xa5; 100];
    while garbler.left() > 0 {
        let written = garbler.bytes_into(&mut buffer).unwrap();
        assert_eq!(buffer[written..], [0xa5; 100][written..]);
        sent.extend_from_slice(&buffer[..written]);
        buffer.fill(0xa5);
    }
    assert_eq!(garbler.bytes_into(&mut []), Ok(0));
    for part in sent.chunks(45) {
        received.extend_from_slice(part);
        let taken = evaluator.feed(&received).unwrap();
        assert_eq!(taken, received.len() / 32 * 32);
        received.drain(..taken);
    }
    assert!(received.is_empty());
    let rows = circuit.garble(&SEED).unwrap().rows().unwrap();
    let bytes: Vec<u8> = rows.iter().flat_map(|it| it.to_bytes()).collect();
    assert_eq!(sent, bytes);
    assert_eq!(
        evaluator.output_labels(),
        bare(circuit.evaluate_labels(&rows, &[[1; 16], [2; 16]], 0))
    );
}

#[test]
fn what_streaming_refuses() {
    let circuit = adder();
    let (mut garbler, offset) = (circuit.garbler(&SEED).unwrap(), [1; 16]);
    let mut evaluator = circuit.evaluator(0, &[[3; 16]; 3]).unwrap();
    let begin = |offset, count, first| {
        bare(circuit.garbler_from(offset, &[[3; 16]; 4][..count], first)).map(drop)
    };
    assert_eq!(begin(&offset, 3, (1 << 62) - 1), Ok(()));
    assert_eq!(begin(&offset, 3, 1 << 62), Err(Fault::BAD_ARGUMENT));
    assert_eq!(begin(&[2; 16], 3, 0), Err(Fault::BAD_ARGUMENT));
    assert_eq!(begin(&[2; 16], 2, 0), Err(Fault::WRONG_SIZE));
    assert_eq!(begin(&offset, 4, 0), Err(Fault::WRONG_SIZE));
    let begin = |count, first| bare(circuit.evaluator(first, &[[3; 16]; 4][..count])).map(drop);
    assert_eq!(begin(3, 1 << 62), Err(Fault::BAD_ARGUMENT));
    assert_eq!(begin(2, 1 << 62), Err(Fault::WRONG_SIZE));

    for index in [0, 1, usize::MAX] {
        assert_eq!(garbler.output_labels(index), Err(Fault::UNFINISHED));
    }
    assert_eq!(garbler.decode_bits(), Err(Fault::UNFINISHED));
    assert_eq!(garbler.input_labels(3), Err(Fault::NO_SUCH_VALUE));
    assert_eq!(
        bare(garbler.bytes_into(&mut [0; 31])),
        Err(Fault::SMALL_BUFFER)
    );
    assert_eq!(bare(garbler.rows_into(&mut [])), Err(Fault::SMALL_BUFFER));
    assert_eq!(evaluator.output_labels(), Err(Fault::UNFINISHED));
    let mut rows = [RowPair::from([7; 32]); 2];
    assert_eq!(bare(evaluator.feed_rows(&rows)), Err(Fault::WRONG_SIZE));
    assert_eq!(bare(evaluator.feed(&[0; 64])), Err(Fault::WRONG_SIZE));
    assert_eq!((garbler.left(), evaluator.left()), (1, 1));

    assert_eq!(garbler.rows_into(&mut rows), Ok(1));
    assert_eq!(garbler.rows_into(&mut []), Ok(0));
    assert_eq!(rows[..1], garbling().rows().unwrap());
    assert_eq!(rows[1], RowPair::from([7; 32]));
    assert_eq!(garbler.output_labels(1), Err(Fault::NO_SUCH_VALUE));
    assert_eq!(evaluator.feed(&[0; 63]), Ok(32));
    assert_eq!(evaluator.feed(&[0; 31]), Ok(0));
    assert_eq!(bare(evaluator.feed(&[0; 32])), Err(Fault::WRONG_SIZE));
    assert_eq!(
        format!("{garbler:?} {evaluator:?}"),
        "Garbler { left: 0, .. } Evaluator { left: 0, .. }"
    );
}

/// They outlive their circuit, and go on on another thread.
#[test]
fn streams_on_other_threads() {
    let (circuit, expected) = (chain(), chain().garble(&SEED).unwrap().rows());
    let garblers: Vec<_> = (0..4).map(|_| circuit.garbler(&SEED).unwrap()).collect();
    drop(circuit);
    let collect = |mut garbler: Garbler| garbler.pieces(2).collect::<Result<Vec<_>, _>>();
    let threads: Vec<_> = garblers
        .into_iter()
        .map(|it| thread::spawn(move || collect(it)))
        .collect();
    for thread in threads {
        assert_eq!(thread.join().unwrap().map(|it| it.concat()), expected);
    }
}

#[test]
fn a_circuit_without_and_gates() {
    let circuit = Circuit::from_gates(&[Gate::xor(0, 1, 2)], 3, &[2], &[1]).unwrap();
    let (garbling, labels) = (circuit.garble(&SEED).unwrap(), [[1; 16], [3; 16]]);
    let mut garbler = circuit.garbler(&SEED).unwrap();
    assert_eq!(garbler.decode_bits(), garbling.decode_bits());
    assert_eq!(garbler.output_labels(0), garbling.output_labels(0));
    assert_eq!(
        (garbler.pieces(1).count(), garbler.rows_into(&mut [])),
        (0, Ok(0))
    );
    let evaluator = circuit.evaluator(0, &labels).unwrap();
    assert_eq!(evaluator.output_labels(), Ok(vec![[2; 16]]));
}

#[test]
fn circuits_from_gates() {
    let mut gates = vec![
        Gate::xor(0, 2, 3),
        Gate::xor(1, 2, 4),
        Gate::and(3, 4, 5),
        Gate::xor(3, 1, 6),
        Gate::xor(5, 2, 7),
    ];
    let made = |gates: &[Gate]| Circuit::from_gates(gates, 8, &[1, 1, 1], &[2]);
    assert_eq!(made(&gates).unwrap().text(), adder().text());
    gates[2].second = 7;
    let fault = made(&gates).unwrap_err();
    let GateFault { gate, wire, .. } = fault;
    assert_eq!((fault.fault, gate, wire), (Fault::UNSET, Some(2), Some(7)));
    assert_eq!(fault.to_string(), "fault 8 Unset, gate 2, wire 7");
    assert_eq!(Fault::from(fault), Fault::UNSET);

    let all = [Gate::constant(true, 1), Gate::copy(0, 2), Gate::inv(1, 3)];
    let circuit = Circuit::from_gates(&all, 4, &[1], &[2, 1]).unwrap();
    assert_eq!(circuit.plain(&[true]), Ok(vec![true, true, false]));
    let refused = |wires, widths: &[usize]| {
        let fault = Circuit::from_gates(&[], wires, widths, &[]).unwrap_err();
        assert_eq!((fault.gate, fault.wire), (None, None));
        fault.fault
    };
    assert_eq!(refused(1, &[2]), Fault::WIDTHS_EXCEED_WIRES);
    assert_eq!(refused((1 << 25) + 1, &[]), Fault::TOO_LARGE);
    assert_eq!(refused(1 << 32, &[]), Fault::BAD_NUMBER);
    assert_eq!(refused(1, &[1 << 32]), Fault::BAD_NUMBER);
    assert_eq!(Circuit::from_gates(&[], 0, &[], &[]).unwrap().wires(), 0);
}

#[test]
fn ranges_of_row_pairs() {
    let garbling = chain().garble(&SEED).unwrap();
    let rows = garbling.rows().unwrap();
    for from in 0..=7 {
        for to in from..=7 {
            assert_eq!(garbling.rows_range(from..to).unwrap(), rows[from..to]);
        }
    }
    for (from, to) in [
        (0, 8),
        (8, 8),
        (3, 2),
        (usize::MAX, usize::MAX),
        (0, 1 << 33),
    ] {
        assert_eq!(garbling.rows_range(from..to), Err(Fault::BAD_ARGUMENT));
    }
}

#[test]
fn labels_that_are_opened() {
    let garbling = garbling();
    let pairs = garbling.output_labels(0).unwrap();
    for (first, second) in [(0, 0), (0, 1), (1, 0), (1, 1)] {
        let labels = [pairs[0][first], pairs[1][second]];
        assert_eq!(garbling.open(0, &labels), Ok(vec![first == 1, second == 1]));
    }
    let (zero, mut wrong) = ([pairs[0][0], pairs[1][0]], [pairs[0][0], pairs[1][0]]);
    for byte in 0..16 {
        wrong[1][byte] ^= 1;
        assert_eq!(bare(garbling.open(0, &wrong)), Err(Fault::WRONG_LABEL));
        wrong[1][byte] ^= 1;
    }
    assert_eq!(bare(garbling.open(0, &zero[..1])), Err(Fault::WRONG_SIZE));
    assert_eq!(
        bare(garbling.open(0, &[zero[1], zero[0]])),
        Err(Fault::WRONG_LABEL)
    );
    assert_eq!(bare(garbling.open(1, &zero)), Err(Fault::NO_SUCH_VALUE));
}

#[test]
fn audits() {
    let garbling = garbling();
    let honest = garbling.write(Version::V2).unwrap();
    let report = garbling.audit(&honest).unwrap();
    assert_eq!(
        (report.is_honest, report.version, report.row),
        (true, 2, None)
    );
    assert_eq!(garbling.audit(&honest[1..]), Err(Fault::BAD_MAGIC));

    let other = adder().garble(&[8; 32]).unwrap();
    let report = other.audit(&honest).unwrap();
    let row = report.row.unwrap();
    assert_eq!(
        (report.is_honest, report.has_digest, report.has_counts),
        (false, true, true)
    );
    assert_eq!((row.row, row.gate, row.wire), (0, 2, 5));
    assert!(row.generator || row.evaluator);
    assert_eq!(report.entry.unwrap().output, 0);

    let and = Circuit::read("1 3\n2 1 1\n1 1\n2 1 0 1 2 AND")
        .unwrap()
        .garble(&SEED)
        .unwrap();
    let report = and.audit(&honest).unwrap();
    assert_eq!(
        (report.has_digest, report.has_counts, report.row),
        (false, false, None)
    );
}

/// The SHA-256 of these bytes.
fn digest(bytes: &[u8]) -> Vec<u8> {
    let mut tool = Command::new("sha256sum")
        .stdin(Stdio::piped())
        .stdout(Stdio::piped())
        .spawn()
        .unwrap();
    tool.stdin.take().unwrap().write_all(bytes).unwrap();
    let printed = String::from_utf8(tool.wait_with_output().unwrap().stdout).unwrap();
    let byte = |i: usize| u8::from_str_radix(&printed[2 * i..2 * i + 2], 16).unwrap();
    (0..32).map(byte).collect()
}

#[test]
fn audits_of_each_part() {
    let garbling = garbling();
    let honest = garbling.write(Version::V2).unwrap();
    let forged = |place: usize, bits: u8| {
        let mut body = honest[..honest.len() - 32].to_vec();
        body[place] ^= bits;
        let trailer = digest(&body);
        garbling.audit(&[body, trailer].concat()).unwrap()
    };
    let half_gates = |place| {
        let it = forged(place, 1);
        let row = it.row.unwrap();
        assert_eq!((it.decode_bit, it.entry), (None, None));
        (row.generator, row.evaluator)
    };
    assert_eq!(half_gates(48), (true, false));
    assert_eq!(half_gates(64), (false, true));
    let digest = forged(8, 1);
    assert_eq!(
        (digest.is_honest, digest.has_digest, digest.has_counts),
        (false, false, true)
    );
    assert_eq!(
        (digest.row, digest.decode_bit, digest.entry),
        (None, None, None)
    );
    let outputs = forged(80, 2);
    assert_eq!(
        (outputs.row, outputs.decode_bit, outputs.entry),
        (None, Some(1), None)
    );
    for (place, output, colour) in [
        (81, 0, false),
        (97, 0, true),
        (113, 1, false),
        (129, 1, true),
    ] {
        let it = forged(place, 1);
        let entry = it.entry.unwrap();
        assert_eq!((it.row, it.decode_bit), (None, None));
        assert_eq!((entry.output, entry.colour), (output, colour));
    }
}

#[test]
fn audits_of_label_files() {
    let garbling = garbling();
    let files = label_files(&garbling);
    let report = garbling.audit_labels(&files[0]).unwrap();
    assert_eq!(
        (report.index, report.verdict),
        (0, Verdict::Honest(vec![true]))
    );
    let mut wrong = files[2].clone();
    wrong[31] ^= 1;
    let report = garbling.audit_labels(&wrong).unwrap();
    assert_eq!((report.index, report.bits()), (2, None));
    assert_eq!(report.verdict, Verdict::WrongLabel { wire: 2 });
    wrong[8] = 3;
    assert_eq!(
        garbling.audit_labels(&wrong).unwrap().verdict,
        Verdict::NoSuchValue
    );
    for size in 0..32 {
        assert_eq!(
            garbling.audit_labels(&files[0][..size]),
            Err(Fault::FILE_TRUNCATED)
        );
    }
    let wide = Circuit::read("0 3\n2 2 1\n0")
        .unwrap()
        .garble(&SEED)
        .unwrap();
    assert_eq!(
        wide.audit_labels(&files[0]).unwrap().verdict,
        Verdict::WrongWidth
    );
}

#[test]
fn audits_of_rows() {
    let circuit = adder();
    let zero = zero_labels(&garbling());
    for first in [0, 1, (1 << 62) - 1] {
        let garbling = circuit.garble_from(&[1; 16], &zero, first).unwrap();
        let (rows, bits) = (garbling.rows().unwrap(), garbling.decode_bits().unwrap());
        let audit = |rows: &[RowPair], bits: &[bool]| garbling.audit_rows(rows, bits).unwrap();
        let report = audit(&rows, &bits);
        assert_eq!(
            (report.is_honest, report.row, report.decode_bit),
            (true, None, None)
        );
        for byte in 0..32 {
            let mut wrong = rows[0].to_bytes();
            wrong[byte] ^= 0x10;
            let report = audit(&[wrong.into()], &bits);
            let row = report.row.unwrap();
            assert_eq!((report.is_honest, report.decode_bit), (false, None));
            assert_eq!((row.row, row.gate, row.wire), (0, 2, 5));
            assert_eq!((row.generator, row.evaluator), (byte < 16, byte >= 16));
        }
        let report = audit(&rows, &[bits[0], !bits[1]]);
        assert_eq!(
            (report.is_honest, report.row, report.decode_bit),
            (false, None, Some(1))
        );
        assert_eq!(audit(&rows, &[!bits[0], !bits[1]]).decode_bit, Some(0));

        let labels = garbling.deal(1, &[true]).unwrap();
        let verdict = garbling.audit_labels(&labels).unwrap().verdict;
        assert_eq!(verdict, Verdict::Honest(vec![true]));

        let refused = |rows: &[RowPair], bits: &[bool]| bare(garbling.audit_rows(rows, bits));
        assert_eq!(refused(&[], &bits), Err(Fault::WRONG_SIZE));
        assert_eq!(refused(&[rows[0]; 2], &[]), Err(Fault::WRONG_SIZE));
        assert_eq!(refused(&rows, &bits[1..]), Err(Fault::WRONG_LENGTH));
    }
}

#[test]
fn circuits_without_a_digest() {
    let with = adder();
    let gates = [
        Gate::xor(0, 2, 3),
        Gate::xor(1, 2, 4),
        Gate::and(3, 4, 5),
        Gate::xor(3, 1, 6),
        Gate::xor(5, 2, 7),
    ];
    let file = garbling().write(Version::V2).unwrap();
    let files = label_files(&garbling());
    for mut circuit in [
        Circuit::read_without_digest(FULL_ADDER).unwrap(),
        Circuit::from_gates_without_digest(&gates, 8, &[1, 1, 1], &[2]).unwrap(),
    ] {
        let garbling = circuit.garble(&SEED).unwrap();
        let many = circuit.garble_many(&[SEED; 3]).unwrap();
        let shared = circuit.share().unwrap();
        assert_eq!(circuit.text(), with.text());
        assert_eq!(garbling.rows(), with.garble(&SEED).unwrap().rows());
        for it in [&circuit, &shared, &circuit.order().unwrap()] {
            assert_eq!(it.digest(), Err(Fault::NO_DIGEST));
            assert_eq!(it.bind(&file, &files).unwrap_err(), Fault::NO_DIGEST);
        }
        let refuses = |garbling: &Garbling| {
            for version in [Version::V1, Version::V2] {
                let into = garbling.write_into(version, &mut [0; 177]);
                assert_eq!(garbling.write(version), Err(Fault::NO_DIGEST));
                assert_eq!(bare(into), Err(Fault::NO_DIGEST));
                assert_eq!(write_many(&[garbling], version), Err(Fault::NO_DIGEST));
            }
            assert_eq!(garbling.audit(&file), Err(Fault::NO_DIGEST));
        };
        many.iter().for_each(refuses);
        refuses(&garbling);

        circuit.take_digest().unwrap();
        assert_eq!(circuit.digest(), with.digest());
        assert_eq!(circuit.take_digest(), Ok(()));
        assert_eq!(circuit.share().unwrap().digest(), with.digest());
        assert_eq!(
            circuit.order().unwrap().digest(),
            with.order().unwrap().digest()
        );
        assert_eq!(shared.digest(), Err(Fault::NO_DIGEST));
        refuses(&garbling);
        assert_eq!(
            circuit.garble(&SEED).unwrap().write(Version::V2).as_ref(),
            Ok(&file)
        );
        let job = circuit.bind(&file, &files).unwrap();
        assert_eq!(job.evaluate(), circuit.plain(&BITS));
    }
    let unset = Circuit::read_without_digest(FULL_ADDER.replace("3 4 5", "3 6 5"));
    assert_eq!(unset.unwrap_err(), Fault::UNSET);
    let fault = Circuit::from_gates_without_digest(&gates[1..], 8, &[1, 1, 1], &[2]).unwrap_err();
    assert_eq!(
        (fault.fault, fault.gate, fault.wire),
        (Fault::UNSET, Some(1), Some(3))
    );
}

#[test]
fn faults_that_say_sizes() {
    let (circuit, garbling) = (adder(), garbling());
    let (rows, offset) = (garbling.rows().unwrap(), [1; 16]);
    let says = |fault: SizeFault, text: &str| assert_eq!(fault.to_string(), text);
    let wrong = "fault 66 WrongSize: zero_labels has length 2, where 3 is expected";
    says(
        circuit.garble_from(&offset, &[[2; 16]; 2], 0).unwrap_err(),
        wrong,
    );
    says(
        circuit.garbler_from(&offset, &[[2; 16]; 2], 0).unwrap_err(),
        wrong,
    );
    let wrong = "fault 66 WrongSize: labels has length 4, where 3 is expected";
    says(circuit.evaluator(0, &[[2; 16]; 4]).unwrap_err(), wrong);
    says(
        circuit
            .evaluate_labels(&rows, &[[2; 16]; 4], 0)
            .unwrap_err(),
        wrong,
    );
    let wrong = "fault 66 WrongSize: rows has length 0, where 1 is expected";
    says(circuit.evaluate_labels(&[], &[], 0).unwrap_err(), wrong);
    says(garbling.audit_rows(&[], &[]).unwrap_err(), wrong);
    let wrong = "fault 66 WrongSize: labels has length 2, where 1 is expected";
    says(circuit.label_file(2, &[[2; 16]; 2]).unwrap_err(), wrong);
    says(decode(&[[2; 16]; 2], &[true]).unwrap_err(), wrong);
    let wrong = "fault 66 WrongSize: labels has length 0, where 2 is expected";
    says(garbling.open(0, &[]).unwrap_err(), wrong);
    let mut evaluator = circuit.evaluator(0, &[[2; 16]; 3]).unwrap();
    let wrong = "fault 66 WrongSize: rows has length 2, where 1 is expected";
    says(evaluator.feed_rows(&[rows[0]; 2]).unwrap_err(), wrong);
    let wrong = "fault 66 WrongSize: rows has length 64, where 32 is expected";
    says(evaluator.feed(&[0; 64]).unwrap_err(), wrong);
    let small = "fault 61 SmallBuffer: buffer has length 176, where at least 177 is expected";
    says(
        garbling.write_into(Version::V2, &mut [0; 176]).unwrap_err(),
        small,
    );
    let mut garbler = circuit.garbler(&SEED).unwrap();
    let small = "fault 61 SmallBuffer: bytes has length 31, where at least 32 is expected";
    says(garbler.bytes_into(&mut [0; 31]).unwrap_err(), small);
    let small = "fault 61 SmallBuffer: rows has length 0, where at least 1 is expected";
    says(garbler.rows_into(&mut []).unwrap_err(), small);

    let fault = circuit.evaluator(0, &[]).unwrap_err();
    let Slice {
        name,
        given,
        expected,
        ..
    } = fault.slice.unwrap();
    assert_eq!((name, given, expected), ("labels", 0, 3));
    assert_eq!(fault, Fault::WRONG_SIZE);
    let other = circuit.label_file(3, &[]).unwrap_err();
    assert_eq!((other.fault, other.slice), (Fault::NO_SUCH_VALUE, None));
    assert_eq!(other.to_string(), "fault 42 NoSuchValue");
}

#[test]
fn one_handle_on_several_threads() {
    let (circuit, garbling) = (adder(), garbling());
    let garbled = garbling.write(Version::V2).unwrap();
    let job = circuit.bind(&garbled, &label_files(&garbling)).unwrap();
    let outputs = circuit.plain(&BITS).unwrap();
    thread::scope(|scope| {
        for _ in 0..4 {
            scope.spawn(|| {
                for _ in 0..100 {
                    assert_eq!(
                        circuit.garble(&SEED).unwrap().write(Version::V2),
                        Ok(garbled.clone())
                    );
                    assert_eq!(garbling.write(Version::V2).as_ref(), Ok(&garbled));
                    assert_eq!(job.evaluate().as_ref(), Ok(&outputs));
                }
            });
        }
    });
}

#[test]
fn what_crosses_threads() {
    fn crosses<T: Send + Sync>() {}
    crosses::<Circuit>();
    crosses::<Garbling>();
    crosses::<Job>();
    crosses::<Garbler>();
    crosses::<Evaluator>();
}

#[test]
fn shared_circuits_on_threads() {
    let circuit = adder();
    let expected = garbling().write(Version::V2);
    let threads: Vec<_> = (0..4)
        .map(|_| circuit.share().unwrap())
        .map(|shared| thread::spawn(move || shared.garble(&SEED)?.write(Version::V2)))
        .collect();
    assert_eq!(circuit.garble(&SEED).unwrap().write(Version::V2), expected);
    for thread in threads {
        assert_eq!(thread.join().unwrap(), expected);
    }
}

/// The AND gate comes after the gates of AND depth 0.
#[test]
fn an_ordered_circuit() {
    let circuit = adder();
    let ordered = circuit.order().unwrap();
    let mut lines: Vec<_> = FULL_ADDER.split_inclusive('\n').collect();
    lines.swap(6, 7);
    assert_eq!(circuit.text().unwrap(), FULL_ADDER.as_bytes());
    assert_eq!(ordered.text().unwrap(), lines.concat().into_bytes());
    assert_ne!(ordered.digest(), circuit.digest());
    assert_eq!((ordered.gates(), ordered.and_gates()), (5, 1));
    assert_eq!(ordered.plain(&BITS), circuit.plain(&BITS));
    assert_eq!(ordered.order().unwrap().text(), ordered.text());
}

#[test]
fn handles_dropped_in_any_order_and_on_other_threads() {
    let circuit = adder();
    let shared = circuit.share().unwrap();
    let garbling = circuit.garble(&SEED).unwrap();
    let job = circuit
        .bind(
            &garbling.write(Version::V2).unwrap(),
            &label_files(&garbling),
        )
        .unwrap();
    let plain = circuit.plain(&BITS);
    drop(circuit);
    drop(garbling);
    assert_eq!(thread::spawn(move || job.evaluate()).join().unwrap(), plain);
    assert_eq!(shared.plain(&BITS), plain);
}
