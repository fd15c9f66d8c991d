//! Every value of bytes and of pairs of bytes, every length. The library
//! beside the second reader and writer.

mod common;

use common::*;
use trusted_block_tests::fuzzed::{reading, writing};
use trusted_block_tests::generate::calls::{Call, Sequence};
use trusted_block_tests::kinds::{DATES, LONGEST, SHORTEST};
use trusted_block_tests::library;
use trusted_block_tests::library_writer;
use trusted_block_tests::parts::Part;
use trusted_block_tests::reader::{read, read_answer, Answer};
use trusted_block_tests::sample_files::samples;
use trusted_block_tests::views::{fields_of, taken_apart};
use trusted_block_tests::writer;

/// The token of samples/ with this name.
fn sample(name: &str) -> Vec<u8> {
    let found = samples().into_iter().find(|sample| sample.name == name);
    found.expect("a sample").token
}

fn same_reading(token: &[u8], tally: &mut Tally) {
    let given = library::read(token);
    assert_eq!(given, read_answer(token), "{token:02X?}");
    tally.add(given);
}

fn same_finish(draft: &[u8]) {
    let given = library_writer::finish(draft);
    assert_eq!(given, writer::finish(draft), "{draft:02X?}");
}

/// Finishes the bytes as a draft, and adds a section and a subsection.
fn same_writing(draft: &[u8], tally: &mut Tally) {
    let mut buffer = draft.to_vec();
    buffer.resize(draft.len() + 60, 0x77);
    let rule = Part::Rule {
        rule_id: b"ADDED   ".to_vec(),
        flags: 0,
        generated_length: 8,
        key_check: 0,
        symmetric_format: 0,
        asymmetric_format: 0,
    };
    let dates = Part::Dates {
        flags: 0,
        activation: vec![0, 0, 1, 1],
        expiration: vec![0, 0, 1, 1],
    };
    let calls = vec![Call::Finish, Call::Add(dates), Call::Add(rule)];
    for given in writing::run(&Sequence { buffer, calls }) {
        tally.add(given);
    }
}

/// Every reading and writing call for every value of every byte.
fn every_byte_of(token: &[u8]) {
    let (mut read, mut written) = (Tally::default(), Tally::default());
    let mut changed = token.to_vec();
    for place in 0..token.len() {
        for value in 0..=255 {
            changed[place] = value;
            read.add(reading::compare(&changed));
            same_writing(&changed, &mut written);
        }
        changed[place] = token[place];
    }
    println!("{} bytes: read {:?}", token.len(), read.numbers);
    println!("{} bytes: written {:?}", token.len(), written.numbers);
    read.assert_reached([0, 2, 3, 4, 5, 6, 7, 8].into_iter(), 100);
    written.assert_reached([0, 2, 3, 4, 5, 6, 7, 8].into_iter(), 100);
}

#[test]
fn every_byte_of_the_smallest_token() {
    every_byte_of(&smallest_token());
}

#[test]
fn every_byte_of_a_token_of_all_kinds() {
    every_byte_of(&token_of_all_kinds());
}

#[test]
fn every_byte_of_the_sample_of_all_kinds() {
    every_byte_of(&sample("all_kinds"));
}

#[test]
fn every_byte_of_the_sample_with_zero_dates() {
    every_byte_of(&sample("zero_dates"));
}

/// The places of the bytes of all fields but the contents, in order: ids,
/// tags, versions, lengths, reserved, flags, formats and counts; part by part.
fn places_of_heads(token: &[u8]) -> Vec<Vec<usize>> {
    let mut heads = vec![(0..8).collect()];
    for row in read(token).expect("legal") {
        let mut place = row.offset as usize;
        let mut head = Vec::new();
        for (index, field) in fields_of(token, &row).iter().enumerate() {
            let is_date = row.kind == DATES && index >= 5;
            if field.len() <= 4 && !is_date {
                head.extend(place..place + field.len());
            }
            place += field.len();
        }
        heads.push(head);
    }
    heads
}

/// Every pair of values of each two neighbours among a part's head bytes.
fn every_pair_of(parts: impl Fn(usize) -> bool) {
    let token = token_of_all_kinds();
    let mut tally = Tally::default();
    let heads = places_of_heads(&token);
    assert_eq!(heads.len(), 13);
    for index in (0..heads.len()).filter(|index| parts(*index)) {
        for two in heads[index].windows(2) {
            let mut changed = token.clone();
            for value in 0..=u16::MAX {
                let [high, low] = value.to_be_bytes();
                (changed[two[0]], changed[two[1]]) = (high, low);
                same_reading(&changed, &mut tally);
                // A draft's header has rules of its own.
                if index == 0 {
                    same_finish(&changed);
                }
            }
        }
    }
    println!("pairs: {:?}", tally.numbers);
}

#[test]
fn every_pair_of_bytes_in_even_parts() {
    every_pair_of(|index| index % 2 == 0);
}

#[test]
fn every_pair_of_bytes_in_odd_parts() {
    every_pair_of(|index| index % 2 == 1);
}

/// In flags of four bytes, the pairs that are no neighbours.
#[test]
fn every_pair_of_bytes_apart_in_flags() {
    let token = token_of_all_kinds();
    let mut tally = Tally::default();
    for row in read(&token).expect("legal") {
        let fields = fields_of(&token, &row);
        let before = |count: usize| fields[..count].iter().map(|f| f.len()).sum::<usize>();
        for index in (3..fields.len()).filter(|i| fields[*i].len() == 4 && row.kind != DATES) {
            let place = row.offset as usize + before(index);
            for (first, second) in [(0, 2), (0, 3), (1, 3)] {
                let mut changed = token.clone();
                for value in 0..=u16::MAX {
                    let [high, low] = value.to_be_bytes();
                    (changed[place + first], changed[place + second]) = (high, low);
                    same_reading(&changed, &mut tally);
                }
            }
        }
    }
    println!("flags: {:?}", tally.numbers);
    assert!(tally.numbers[11] > 3 * 3 * 65_000);
}

/// Cut or made longer to every length from 0 to 3,501, with the header's
/// length as it was and in line.
fn every_length_of(token: &[u8], tally: &mut Tally) {
    for fill in [0x00, 0x12, 0xFF] {
        let mut long = token.to_vec();
        long.resize(LONGEST + 1, fill);
        for length in 0..=LONGEST + 1 {
            let mut bytes = long[..length].to_vec();
            tally.add(reading::compare(&bytes));
            same_finish(&bytes);
            if length >= 8 {
                bytes[2..4].copy_from_slice(&(length as u16).to_be_bytes());
                tally.add(reading::compare(&bytes));
                same_finish(&bytes);
            }
        }
    }
}

#[test]
fn every_length_cut_or_extended() {
    let mut tally = Tally::default();
    for name in ["smallest", "all_kinds", "four_rules", "rules_171"] {
        every_length_of(&sample(name), &mut tally);
    }
    println!("lengths: {:?}", tally.numbers);
    tally.assert_reached([0, 1, 4, 6, 7, 8, 20].into_iter(), 20);
}

/// T with application data: a legal token of every length from 86 to 3,500.
/// The same by the writer, in a draft that has room and in one that is a byte
/// short; 3,415 bytes and more have no room anywhere.
#[test]
fn every_length_of_application_data() {
    let smallest = smallest_token();
    for length in 0..=LONGEST + 1 {
        let token = smallest_with(&[application_data(length)]);
        let fits = length <= 3414;
        let expected = if fits { answer(0, 3) } else { answer(4, 2) };
        assert_eq!(reading::compare(&token), expected);
        let data = vec![0xDA; length];
        for room in [token.len() - 1, token.len(), LONGEST] {
            let mut buffer = vec![0x77; room];
            buffer[..SHORTEST].copy_from_slice(&smallest);
            let part = Part::ApplicationData { data: data.clone() };
            let calls = vec![Call::Add(part), Call::Finish];
            let given = writing::run(&Sequence { buffer, calls });
            let added = fits && room >= token.len();
            let expected = if added {
                (0, token.len())
            } else {
                (23, SHORTEST)
            };
            assert_eq!(given[0], Answer::new(expected.0, expected.1));
        }
    }
}

/// A start, additions and a finish in a draft of every size.
#[test]
fn every_size_of_a_draft() {
    let token = sample("all_kinds");
    let (id, parts) = taken_apart(&token).expect("legal");
    for size in 0..=LONGEST + 1 {
        let mut calls = vec![Call::Start { id }];
        calls.extend(parts.iter().cloned().map(Call::Add));
        calls.push(Call::Finish);
        let buffer = vec![size as u8; size];
        let given = writing::run(&Sequence { buffer, calls });
        let refused = given.iter().any(|answer| answer.number != 0);
        assert_eq!(refused, size < token.len(), "size {size}");
    }
}

/// A modulus of exactly as many bits as are stated, for every number of bits,
/// and of one bit less.
#[test]
fn every_number_of_modulus_bits() {
    let mut tally = Tally::default();
    for bits in 0..=u16::MAX {
        let length = usize::from(bits).div_ceil(8).min(600);
        let mut modulus = vec![0x01; length];
        if let Some(first) = modulus.first_mut() {
            *first = 1 << ((bits + 7) % 8);
        }
        for less in [0, 1] {
            let stated = bits.wrapping_sub(less).to_be_bytes();
            let [high, low] = (length as u16).to_be_bytes();
            let fixed = [0, 0, 0, 1, stated[0], stated[1], high, low, 3];
            let key = section(0x11, &[&fixed, &modulus, &[0; 4]]);
            same_reading(&smallest_with(&[key]), &mut tally);
        }
    }
    println!("modulus bits: {:?}", tally.numbers);
    assert!(tally.numbers[0] >= 4096 - 511);
}
