// SPDX-License-Identifier: MIT OR Apache-2.0
//! The calls return what `vectors/` has, which the reference in plain Python wrote.

use std::fs;

use halfgates::{decode, Circuit, Fault, Garbling, Label, RowPair, Version};

const NAMES: [&str; 6] = [
    "and",
    "full_adder",
    "nine_outputs",
    "random_300",
    "two_outputs",
    "width_0",
];

/// A vector, or one evaluation of it. Its values are strings, lists, and objects, of strings alone.
#[derive(Clone, Copy)]
struct Vector<'a>(&'a str);

impl<'a> Vector<'a> {
    /// The strings of a key's value, with the keys of objects.
    fn strings(self, key: &str) -> Vec<&'a str> {
        let (_, value) = self.0.split_once(&format!("\"{key}\": ")).expect(key);
        let end = match value.as_bytes()[0] {
            b'[' => "]",
            b'{' => "}",
            _ => "\n",
        };
        value
            .split_once(end)
            .expect(key)
            .0
            .split('"')
            .skip(1)
            .step_by(2)
            .collect()
    }

    /// The bytes whose hexadecimal digits are the value of a key.
    fn bytes(self, key: &str) -> Vec<u8> {
        bytes_of(&self.strings(key).concat())
    }

    /// The parts that each begin with this key.
    fn parts(self, key: &str) -> Vec<Vector<'a>> {
        let key = format!("\"{key}\":");
        let starts: Vec<usize> = self.0.match_indices(&key).map(|(at, _)| at).collect();
        let ends = starts.iter().skip(1).copied().chain([self.0.len()]);
        starts
            .iter()
            .zip(ends)
            .map(|(&start, end)| Vector(&self.0[start..end]))
            .collect()
    }
}

fn read(name: &str) -> String {
    let path = format!("{}/../vectors/{name}.json", env!("CARGO_MANIFEST_DIR"));
    fs::read_to_string(path).expect(name)
}

fn bytes_of(digits: &str) -> Vec<u8> {
    (0..digits.len() / 2)
        .map(|byte| u8::from_str_radix(&digits[2 * byte..2 * byte + 2], 16).unwrap())
        .collect()
}

fn label_of(digits: &str) -> Label {
    bytes_of(digits).try_into().unwrap()
}

fn labels_of(digits: &[&str]) -> Vec<Label> {
    digits.iter().map(|it| label_of(it)).collect()
}

fn bits_of(digits: &str) -> Vec<bool> {
    digits.bytes().map(|digit| digit == b'1').collect()
}

/// The values of an object whose keys and values these strings are.
fn values<'a>(strings: &[&'a str]) -> Vec<&'a str> {
    strings.iter().skip(1).step_by(2).copied().collect()
}

fn check_garbling(vector: Vector, garbling: &Garbling) -> Result<(), Fault> {
    assert_eq!(garbling.write(Version::V1)?, vector.bytes("garbled_file_1"));
    assert_eq!(garbling.write(Version::V2)?, vector.bytes("garbled_file_2"));
    assert_eq!(garbling.offset()?, label_of(vector.strings("offset")[0]));
    for pair in vector.strings("zero_labels").chunks(2) {
        assert_eq!(
            garbling.zero_label(pair[0].parse().unwrap())?,
            label_of(pair[1])
        );
    }
    let row = |pair: &[&str]| RowPair {
        generator: label_of(pair[0]),
        evaluator: label_of(pair[1]),
    };
    let rows: Vec<RowPair> = values(&vector.strings("rows")).chunks(2).map(row).collect();
    assert_eq!(garbling.rows()?, rows);
    assert_eq!(
        garbling.decode_bits()?,
        bits_of(vector.strings("decode_bits")[0])
    );
    Ok(())
}

fn check_evaluation(vector: Vector, circuit: &Circuit, garbling: &Garbling) -> Result<(), Fault> {
    let values: Vec<Vec<bool>> = vector.strings("values").into_iter().map(bits_of).collect();
    let files: Vec<Vec<u8>> = vector
        .strings("label_files")
        .into_iter()
        .map(bytes_of)
        .collect();
    let outputs: Vec<bool> = vector
        .strings("outputs")
        .into_iter()
        .flat_map(bits_of)
        .collect();
    let active = labels_of(&vector.strings("active_output_labels"));

    assert_eq!(circuit.plain(&values.concat())?, outputs);
    let mut inputs = Vec::new();
    for (index, (bits, file)) in values.iter().zip(&files).enumerate() {
        let labels: Vec<Label> = file[16..]
            .chunks(16)
            .map(|it| it.try_into().unwrap())
            .collect();
        assert_eq!(garbling.deal(index, bits)?, *file);
        assert_eq!(circuit.label_file(index, &labels)?, *file);
        assert_eq!(garbling.audit_labels(file)?.bits(), Some(&bits[..]));
        inputs.extend(labels);
    }
    for version in [Version::V1, Version::V2] {
        let job = circuit.bind(&garbling.write(version)?, &files)?;
        assert_eq!(job.evaluate()?, outputs);
        assert_eq!(job.output_labels()?, active);
    }
    assert_eq!(
        circuit.evaluate_labels(&garbling.rows()?, &inputs, 0)?,
        active
    );
    assert_eq!(decode(&active, &garbling.decode_bits()?)?, outputs);
    Ok(())
}

/// A garbling from given labels, and its evaluation.
fn check_link(vector: Vector, offset: &Label) -> Result<(), Fault> {
    let circuit = Circuit::read(vector.strings("circuit").join("\n"))?;
    let (bits, outputs) = (vector.strings("bits")[0], vector.strings("outputs")[0]);
    let zero = labels_of(&vector.strings("input_zero_labels"));
    let first: u64 = vector.strings("first")[0].parse().unwrap();
    let garbling = circuit.garble_from(offset, &zero, first)?;

    let rows: Vec<u8> = garbling
        .rows()?
        .iter()
        .flat_map(|it| it.to_bytes())
        .collect();
    assert_eq!(rows, vector.bytes("rows"));
    let again: Vec<RowPair> = rows
        .chunks_exact(32)
        .map(|it| RowPair::from(<[u8; 32]>::try_from(it).unwrap()))
        .collect();
    assert_eq!(garbling.rows()?, again);
    assert_eq!(garbling.offset()?, *offset);
    assert_eq!(
        garbling.decode_bits()?,
        bits_of(vector.strings("decode_bits")[0])
    );
    let values = 0..circuit.output_widths().len();
    let pairs: Vec<Vec<[Label; 2]>> = values
        .map(|index| garbling.output_labels(index))
        .collect::<Result<_, _>>()?;
    let (zero, one): (Vec<Label>, Vec<Label>) =
        pairs.concat().iter().map(|it| (it[0], it[1])).unzip();
    assert_eq!(zero, labels_of(&vector.strings("output_zero_labels")));
    assert_eq!(one, labels_of(&vector.strings("output_one_labels")));

    let mut garbler = circuit.garbler_from(
        offset,
        &labels_of(&vector.strings("input_zero_labels")),
        first,
    )?;
    let mut evaluator =
        circuit.evaluator(first, &labels_of(&vector.strings("active_input_labels")))?;
    let mut made = Vec::new();
    while garbler.left() > 0 {
        let mut piece = [0; 3 * 32 + 1];
        let written = garbler.bytes_into(&mut piece)?;
        assert_eq!(evaluator.feed(&piece[..=written])?, written);
        made.extend_from_slice(&piece[..written]);
    }
    assert_eq!(made, rows);
    assert_eq!(garbler.decode_bits()?, garbling.decode_bits()?);
    assert_eq!(
        evaluator.output_labels()?,
        labels_of(&vector.strings("active_output_labels"))
    );

    let active = labels_of(&vector.strings("active_input_labels"));
    let found = circuit.evaluate_labels(&garbling.rows()?, &active, first)?;
    assert_eq!(found, labels_of(&vector.strings("active_output_labels")));
    assert_eq!(decode(&found, &garbling.decode_bits()?)?, bits_of(outputs));
    assert_eq!(circuit.plain(&bits_of(bits))?, bits_of(outputs));
    Ok(())
}

#[test]
fn files_labels_and_outputs_are_those_of_the_vectors() -> Result<(), Fault> {
    for name in NAMES {
        let json = read(name);
        let vector = Vector(&json);
        let circuit = Circuit::read(vector.strings("circuit").join("\n"))?;
        let seed = vector.bytes("seed").try_into().unwrap();
        let garbling = circuit.garble(&seed)?;

        assert_eq!(circuit.digest()?[..], vector.bytes("digest"));
        check_garbling(vector, &garbling)?;
        let evaluations = vector.parts("values");
        assert!(!evaluations.is_empty());
        for evaluation in evaluations {
            check_evaluation(evaluation, &circuit, &garbling)?;
        }
    }
    Ok(())
}

#[test]
fn joined_circuits_are_those_of_the_vectors() -> Result<(), Fault> {
    let json = read("joined");
    let joined = Vector(&json).parts("about");
    assert!(joined.len() > 10);
    for vector in joined {
        let offset = label_of(vector.strings("offset")[0]);
        let links = vector.parts("circuit");
        assert!(!links.is_empty());
        for link in links {
            check_link(link, &offset)?;
        }
    }
    Ok(())
}
