//! The built program against the second reader's listing: what it writes for
//! any input, and its exit status.

mod common;

use common::program::run;
use common::{list_token, smallest_token, token_of_all_kinds};
use std::fs::{remove_file, write, File};
use std::process::{Command, Output};
use std::time::Duration;
use trusted_block_tests::generate::damage::{damaged, from_nothing};
use trusted_block_tests::generate::legal::{legal, of_length, with_bare_rules, with_most_rows};
use trusted_block_tests::kinds::LONGEST;
use trusted_block_tests::listing::program_output;
use trusted_block_tests::random::Random;

/// The whole output, nothing on standard error, and status 0.
fn compare(output: &Output, input: &[u8]) {
    let given = String::from_utf8_lossy(&output.stdout);
    assert_eq!(given, program_output(input), "{input:02X?}");
    assert!(output.stderr.is_empty(), "{output:?}");
    assert_eq!(output.status.code(), Some(0));
}

fn try_input(input: &[u8]) {
    let output = run(&list_token(), input, input.len().max(1), Duration::ZERO);
    compare(&output, input);
}

#[test]
fn legal_tokens() {
    let mut random = Random::new(0x7072_6C65);
    for _ in 0..600 {
        try_input(&legal(&mut random).bytes);
    }
    try_input(&smallest_token());
    try_input(&token_of_all_kinds());
    try_input(&with_bare_rules(&mut random, 171).bytes);
    try_input(&with_most_rows(&mut random).bytes);
}

#[test]
fn damaged_tokens() {
    let mut random = Random::new(0x7072_6461);
    for _ in 0..1400 {
        try_input(&damaged(&mut random).bytes);
    }
    for _ in 0..100 {
        try_input(&from_nothing(&mut random));
    }
}

#[test]
fn every_beginning_of_the_smallest_token() {
    let token = smallest_token();
    for length in 0..=token.len() {
        try_input(&token[..length]);
    }
}

/// Of a longer input one byte more than the longest token has is read.
#[test]
fn long_inputs() {
    let mut random = Random::new(0x7072_6C6F);
    let longest = of_length(&mut random, LONGEST).bytes;
    try_input(&longest);
    for length in [LONGEST + 1, LONGEST + 2, 5000, 70_000, 1_000_000] {
        for byte in [0x00, 0x1E, 0xFF] {
            let mut input = longest.clone();
            input.resize(length, byte);
            assert_eq!(program_output(&input), "refused 4 at 2\n");
            try_input(&input);
            try_input(&vec![byte; length]);
        }
    }
    let [high, low] = (LONGEST as u16 + 1).to_be_bytes();
    let mut input = longest;
    input[..4].copy_from_slice(&[0x1E, 0x00, high, low]);
    input.push(0);
    try_input(&input);
}

/// A pipe gives what is there: the program must go on reading.
#[test]
fn input_in_small_pieces() {
    let mut random = Random::new(0x7072_7069);
    let pause = Duration::from_millis(1);
    for _ in 0..12 {
        let token = legal(&mut random).bytes;
        let piece = random.between(token.len() / 20 + 1, token.len() / 5 + 1);
        compare(&run(&list_token(), &token, piece, pause), &token);
    }
    let token = smallest_token();
    compare(&run(&list_token(), &token, 1, pause), &token);
    compare(&run(&list_token(), &token, 7, pause), &token);
}

#[test]
fn input_from_a_file() {
    let file = std::env::temp_dir().join(format!("program-{}.token", std::process::id()));
    for token in [token_of_all_kinds(), vec![0x1E; 5000], vec![]] {
        write(&file, &token).expect("a file can be written");
        let output = Command::new(list_token())
            .stdin(File::open(&file).expect("it was written"))
            .output()
            .expect("the program runs");
        compare(&output, &token);
    }
    remove_file(&file).expect("it was written");
}

/// Where nothing can be read, the token is an empty one.
#[test]
fn closed_input() {
    let output = Command::new("sh")
        .args(["-c", "exec \"$0\" <&-"])
        .arg(list_token())
        .output()
        .expect("sh runs");
    compare(&output, &[]);
    assert_eq!(output.stdout, b"refused 1 at 0\n");
}
