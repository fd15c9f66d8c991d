//! What the fuzzer found, tried again; its seeds; and generated sequences of
//! calls, by the library and the second writer.

mod common;

use common::{count_of_tokens, project, Tally};
use std::fs::{read, read_dir};
use trusted_block_tests::fuzzed::coded::{coded, decoded};
use trusted_block_tests::fuzzed::{reading, writing};
use trusted_block_tests::generate::calls::{sequence, Call, Sequence};
use trusted_block_tests::generate::damage::damaged;
use trusted_block_tests::generate::legal::legal;
use trusted_block_tests::parts::Part;
use trusted_block_tests::random::Random;

/// The files of a folder of tests/found; the folder is not there before
/// something was found.
fn found(target: &str) -> Vec<Vec<u8>> {
    let folder = project().join("tests/found").join(target);
    let Ok(files) = read_dir(folder) else {
        return Vec::new();
    };
    files
        .map(|file| read(file.expect("a file").path()).expect("its bytes"))
        .collect()
}

#[test]
fn what_was_found() {
    for token in found("reading") {
        reading::compare(&token);
    }
    for input in found("writing") {
        writing::compare(&input);
    }
}

#[test]
fn generated_tokens() {
    let mut random = Random::new(0x6675_7A72);
    let mut tally = Tally::default();
    for _ in 0..count_of_tokens() / 60 {
        tally.add(reading::compare(&legal(&mut random).bytes));
        tally.add(reading::compare(&damaged(&mut random).bytes));
    }
    tally.assert_reached(0..=21, 1);
}

#[test]
fn generated_calls() {
    let mut random = Random::new(0x6675_7A77);
    let mut tally = Tally::default();
    for _ in 0..count_of_tokens() / 10 {
        for answer in writing::run(&sequence(&mut random)) {
            tally.add(answer);
        }
    }
    println!("calls: {:?}", tally.numbers);
    tally.assert_reached((0..=21).chain(23..=25), 20);
}

/// Whether all of it can be said in bytes: no buffer or field is cut.
fn is_short(sequence: &Sequence) -> bool {
    let short = |call: &Call| match call {
        Call::Add(Part::ApplicationData { data }) => data.len() <= 0xFFFF,
        Call::Add(part) => part.size() <= 0xFFFF,
        _ => true,
    };
    sequence.buffer.len() < 5000 && sequence.calls.iter().all(short)
}

#[test]
fn sequences_as_bytes_and_back() {
    let mut random = Random::new(0x636F_6465);
    let mut same = 0;
    for _ in 0..3000 {
        let sequence = sequence(&mut random);
        let again = decoded(&coded(&sequence));
        if is_short(&sequence) {
            assert_eq!(again, sequence);
            same += 1;
        }
    }
    assert!(same > 2000, "{same}");
}

#[test]
fn any_bytes_are_some_sequence() {
    let mut random = Random::new(0x616E_7962);
    for turn in 0..5000 {
        let bytes = random.bytes(turn % 300);
        writing::compare(&bytes);
    }
}
