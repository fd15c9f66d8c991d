//! The library's writer against the optimised one in Rust, and an addition
//! against a reading.

use crate::measure::{interleaved, print};
use crate::tokens::{shuffled_rules, with_key};
use std::hint::black_box;
use trusted_block_tests::fast::fast_read;
use trusted_block_tests::fast::writer::{fast_add, fast_finish};
use trusted_block_tests::kinds::LONGEST;
use trusted_block_tests::parts::Part;
use trusted_block_tests::reader::Answer;
use trusted_block_tests::samples::{
    application_data, in_line, smallest_token, smallest_with, token_of_all_kinds,
};
use trusted_block_tests::views::taken_apart;
use trusted_block_tests::{library, library_writer, writer};

/// A writer's calls, and the reading beside it.
struct Writer {
    start: fn(&mut [u8], u8) -> Answer,
    add: fn(&mut [u8], &Part) -> Answer,
    finish: fn(&[u8]) -> Answer,
    read: fn(&[u8]) -> Answer,
}

const LIBRARY: Writer = Writer {
    start: library_writer::start,
    add: library_writer::add,
    finish: library_writer::finish,
    read: library::read,
};

const RUST: Writer = Writer {
    start: writer::start,
    add: fast_add,
    finish: fast_finish,
    read: fast_read,
};

pub fn measure_all() {
    let rules = smallest_with(&shuffled_rules());
    let data = smallest_with(&[application_data(3414)]);
    let last_rule = in_line(rules[..3420].to_vec());
    println!("building: a start, an addition for each part, a finish");
    measure_building("T", &smallest_token());
    measure_building("T with 171 bare rules", &rules);
    measure_building("all twelve kinds", &token_of_all_kinds());
    println!("one addition");
    measure_addition("a rule to a draft of 3,400 bytes", &last_rule);
    measure_addition("3,414 bytes of data to T", &data);
    measure_addition("a key of 4,096 bits to T", &with_key(&[1, 0, 1]));
    println!("the addition of a rule / a reading of the draft of 3,400 bytes");
    measure_against_reading("library", &last_rule, &LIBRARY);
    measure_against_reading("Rust", &last_rule, &RUST);
    println!("the same for a rule whose ID stands before: refused by 9");
    measure_refusal("library", &last_rule, &LIBRARY);
    measure_refusal("Rust", &last_rule, &RUST);
    println!("the same for a subsection whose tag stands before in the last rule: refused by 14");
    measure_refused_subsection("library", &last_rule, &LIBRARY);
    measure_refused_subsection("Rust", &last_rule, &RUST);
    println!("an addition to T / a reading of T and one copy of the part");
    measure_against_copy("3,414 bytes of data, library", &data, &LIBRARY);
    measure_against_copy("3,414 bytes of data, Rust", &data, &RUST);
    println!("the same, with a reading of T with the key, since the key is judged too");
    let key = with_key(&[1, 0, 1]);
    measure_key_against_copy("a key of 4,096 bits, library", &key, &LIBRARY);
    measure_key_against_copy("a key of 4,096 bits, Rust", &key, &RUST);
}

/// Builds a token from its parts; gives what the finish answers.
fn build(by: &Writer, draft: &mut [u8], id: u8, parts: &[Part]) -> Answer {
    black_box((by.start)(draft, id));
    for part in parts {
        black_box((by.add)(draft, part));
    }
    (by.finish)(draft)
}

fn measure_building(name: &str, token: &[u8]) {
    let (id, parts) = taken_apart(token).expect("legal");
    for by in [&LIBRARY, &RUST] {
        let mut draft = vec![7; LONGEST];
        let given = build(by, &mut draft, id, &parts);
        assert_eq!(given, Answer::new(0, token.len()), "{name}");
        assert_eq!(draft[..token.len()], *token, "{name}");
    }
    let (mut one, mut other) = (vec![7; LONGEST], vec![7; LONGEST]);
    let pairs = interleaved(
        || build(&LIBRARY, black_box(&mut one), id, black_box(&parts)),
        || build(&RUST, black_box(&mut other), id, black_box(&parts)),
    );
    print(name, pairs);
}

/// The draft of a token without its last part, which is a section, and that
/// part.
struct Addition {
    length: usize,
    draft: Vec<u8>,
    part: Part,
}

impl Addition {
    fn new(token: &[u8]) -> Addition {
        let (_, mut parts) = taken_apart(token).expect("legal");
        let part = parts.pop().expect("legal tokens have parts");
        let length = token.len() - part.size();
        let mut draft = in_line(token[..length].to_vec());
        draft.resize(LONGEST, 7);
        Addition {
            length,
            draft,
            part,
        }
    }

    /// Adds the part to the draft as it was at first: only its length has to
    /// be set back.
    fn again(&mut self, by: &Writer) -> Answer {
        let length = (self.length as u16).to_be_bytes();
        self.draft[2..4].copy_from_slice(&length);
        (by.add)(black_box(&mut self.draft), black_box(&self.part))
    }
}

fn measure_addition(name: &str, token: &[u8]) {
    let (mut one, mut other) = (Addition::new(token), Addition::new(token));
    for (addition, by) in [(&mut one, &LIBRARY), (&mut other, &RUST)] {
        for _ in 0..2 {
            assert_eq!(addition.again(by), Answer::new(0, token.len()));
            assert_eq!(addition.draft[..token.len()], *token);
        }
    }
    let pairs = interleaved(|| one.again(&LIBRARY), || other.again(&RUST));
    print(name, pairs);
}

/// The addition of a token's last part to a reading of the draft before it.
fn measure_against_reading(name: &str, token: &[u8], by: &Writer) {
    measure_beside(name, Addition::new(token), by);
}

/// The same with the part before the last one, which the draft has already.
fn measure_refusal(name: &str, token: &[u8], by: &Writer) {
    let (_, mut parts) = taken_apart(token).expect("legal");
    parts.pop();
    let mut addition = Addition::new(token);
    addition.part = parts.pop().expect("a rule");
    assert_eq!(addition.again(by), Answer::new(9, addition.length));
    measure_beside(name, addition, by);
}

/// A subsection added twice to the last rule of a token, the second time.
fn measure_refused_subsection(name: &str, token: &[u8], by: &Writer) {
    let mut addition = Addition::new(token);
    addition.again(by);
    addition.part = Part::TransportVariant { variant: vec![] };
    addition.length = (by.add)(&mut addition.draft, &addition.part).second as usize;
    assert_eq!(addition.again(by), Answer::new(14, addition.length));
    measure_beside(name, addition, by);
}

/// The addition of a token's last part to a reading of the draft before it and
/// a copy of the part's bytes.
fn measure_against_copy(name: &str, token: &[u8], by: &Writer) {
    let addition = Addition::new(token);
    let draft = addition.draft[..addition.length].to_vec();
    measure_beside_copy(name, addition, token, &draft, by);
}

/// The same to a reading of the whole token and that copy.
fn measure_key_against_copy(name: &str, token: &[u8], by: &Writer) {
    measure_beside_copy(name, Addition::new(token), token, token, by);
}

fn measure_beside_copy(name: &str, mut addition: Addition, token: &[u8], read: &[u8], by: &Writer) {
    let part = &token[addition.length..];
    let mut room = vec![7; part.len()];
    let pairs = interleaved(
        || addition.again(by),
        || {
            room.copy_from_slice(black_box(part));
            black_box(&mut room);
            (by.read)(black_box(read))
        },
    );
    print(name, pairs);
}

fn measure_beside(name: &str, mut addition: Addition, by: &Writer) {
    let draft = addition.draft[..addition.length].to_vec();
    let pairs = interleaved(|| addition.again(by), || (by.read)(black_box(&draft)));
    print(name, pairs);
}
