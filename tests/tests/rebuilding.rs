//! The built program rebuild_token, which takes a token apart by its rows and
//! views and builds it again by the writer's calls, against the second reader.

mod common;

use common::program::run;
use common::{project, rebuild_token, smallest_token, token_of_all_kinds, Tally};
use std::fs::read as read_file;
use std::time::Duration;
use trusted_block_tests::generate::damage::{damaged, from_nothing};
use trusted_block_tests::generate::legal::{legal, of_length, with_bare_rules, with_most_rows};
use trusted_block_tests::kinds::LONGEST;
use trusted_block_tests::listing::first_line;
use trusted_block_tests::random::Random;
use trusted_block_tests::reader::{read, read_answer, Answer};
use trusted_block_tests::sample_files::samples;
use trusted_block_tests::views::view;

/// The bytes of the program's draft.
const DRAFT: usize = LONGEST + 100;

/// The line of a field, None where the row has no field of this number.
fn field_line(token: &[u8], row: u32, field: u32) -> Option<String> {
    let (offset, length) = view(token, row, field).ok()?;
    let bytes = &token[offset as usize..(offset + length) as usize];
    let bytes: String = bytes.iter().map(|byte| format!("{byte:02x}")).collect();
    Some(format!("{row} {field} {bytes}\n"))
}

/// What the program writes: for a draft that lacks a byte the token's own
/// refusal or 23 at 0; for one with room that refusal, or the token with its
/// fields and the bytes after it.
fn expected(token: &[u8]) -> String {
    let Ok(rows) = read(token) else {
        return first_line(0, 0, read_answer(token)).repeat(2);
    };
    let mut lines = first_line(0, 0, Answer::new(23, 0));
    lines += &first_line(token[0], token.len(), Answer::new(0, rows.len()));
    for row in 0..rows.len() as u32 {
        lines.extend((0..).map_while(|field| field_line(token, row, field)));
    }
    let after = DRAFT - token.len();
    lines + &format!("{after} bytes after it are as they were\n")
}

/// The whole output, nothing on standard error, and status 0. Of the input the
/// program reads at most one byte more than the longest token has.
fn try_input(input: &[u8], tally: &mut Tally) {
    let output = run(&rebuild_token(), input, input.len().max(1), Duration::ZERO);
    let token = &input[..input.len().min(LONGEST + 1)];
    let given = String::from_utf8_lossy(&output.stdout);
    assert_eq!(given, expected(token), "{input:02X?}");
    assert!(output.stderr.is_empty(), "{output:?}");
    assert_eq!(output.status.code(), Some(0));
    tally.add(read_answer(token));
}

#[test]
fn legal_tokens() {
    let mut random = Random::new(0x7262_6C65);
    let mut tally = Tally::default();
    for _ in 0..2500 {
        try_input(&legal(&mut random).bytes, &mut tally);
    }
    for token in [
        smallest_token(),
        token_of_all_kinds(),
        with_bare_rules(&mut random, 171).bytes,
        with_most_rows(&mut random).bytes,
        of_length(&mut random, LONGEST).bytes,
    ] {
        try_input(&token, &mut tally);
    }
    tally.assert_reached([0].into_iter(), 2505);
}

#[test]
fn damaged_tokens() {
    let mut random = Random::new(0x7262_6461);
    let mut tally = Tally::default();
    for _ in 0..2500 {
        try_input(&damaged(&mut random).bytes, &mut tally);
    }
    for _ in 0..200 {
        try_input(&from_nothing(&mut random), &mut tally);
    }
    tally.assert_reached(0..=21, 5);
}

#[test]
fn inputs_that_are_no_tokens() {
    let mut tally = Tally::default();
    let token = smallest_token();
    for length in 0..token.len() {
        try_input(&token[..length], &mut tally);
    }
    for length in [LONGEST + 1, LONGEST + 2, 70_000] {
        let mut input = token.clone();
        input.resize(length, 0);
        try_input(&input, &mut tally);
    }
    tally.assert_reached([1, 4].into_iter(), 3);
}

#[test]
fn samples_and_the_expected_output_of_the_gate() {
    let mut tally = Tally::default();
    for sample in samples() {
        try_input(&sample.token, &mut tally);
    }
    let folder = project().join("crates/rebuild_token");
    let [input, output] = ["stdin", "stdout"].map(|name| read_file(folder.join(name)).expect(name));
    assert_eq!(String::from_utf8(output).expect("text"), expected(&input));
    tally.assert_reached([0, 12].into_iter(), 1);
}
