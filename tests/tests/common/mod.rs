//! What several tests share: samples, the readings side by side, tallies.
#![allow(dead_code, unused_imports)]

pub mod folder;
pub mod program;
pub mod twins;

use std::path::{Path, PathBuf};
use trusted_block_tests::fast::{fast_fill, fast_read};
use trusted_block_tests::library;
use trusted_block_tests::reader::{read_answer, read_table, Answer, COLUMNS, TABLE};
pub use trusted_block_tests::samples::*;

const UNTOUCHED: u32 = 0xDEAD_BEEF;

pub fn answer(number: u32, second: u32) -> Answer {
    Answer { number, second }
}

/// The project's folder.
pub fn project() -> PathBuf {
    let package = Path::new(env!("CARGO_MANIFEST_DIR"));
    package.parent().expect("tests/ stands in it").to_path_buf()
}

/// A program, which `rt run` and `rt ci` make; the variable names another.
fn built(name: &str, variable: &str) -> PathBuf {
    let built = project().join("crates").join(name).join("out").join(name);
    let program = std::env::var_os(variable).map_or(built, PathBuf::from);
    assert!(
        program.is_file(),
        "{} is missing: run `rt run <stdin` in crates/{name} first",
        program.display()
    );
    program
}

/// The program that lists a token. LIST_TOKEN names another.
pub fn list_token() -> PathBuf {
    built("list_token", "LIST_TOKEN")
}

/// The program that builds a token again. REBUILD_TOKEN names another.
pub fn rebuild_token() -> PathBuf {
    built("rebuild_token", "REBUILD_TOKEN")
}

/// How many tokens the generated tests take together.
pub fn count_of_tokens() -> usize {
    let asked = std::env::var("TRUSTED_BLOCK_TOKENS").ok();
    let count = asked.map_or(300_000, |text| text.parse().expect("a count of tokens"));
    count.max(20_000)
}

/// How often each number was the answer.
#[derive(Default, Debug)]
pub struct Tally {
    pub numbers: [usize; 26],
}

impl Tally {
    pub fn add(&mut self, answer: Answer) {
        self.numbers[answer.number as usize] += 1;
    }

    pub fn assert_reached(&self, numbers: impl Iterator<Item = usize>, least: usize) {
        for number in numbers {
            let count = self.numbers[number];
            assert!(count >= least, "{number}: {count} of {:?}", self.numbers);
        }
    }
}

/// Fails unless these numbers were answered this often and no others at all.
pub fn assert_exactly(counts: &[usize; 26], expected: &[usize], least: usize) {
    for (number, count) in counts.iter().enumerate() {
        if expected.contains(&number) {
            assert!(*count >= least, "{number} in {counts:?}");
        } else {
            assert_eq!(*count, 0, "{number} in {counts:?}");
        }
    }
}

/// Reads by both readers and the library, with and without a table; the
/// table changes only when the token is accepted, and not past its rows.
pub fn read_every_way(token: &[u8]) -> Answer {
    let expected = read_answer(token);
    assert_eq!(fast_read(token), expected, "{token:02X?}");
    assert_eq!(library::read(token), expected, "{token:02X?}");
    let mut table = [UNTOUCHED; TABLE + 100];
    assert_eq!(read_table(token, &mut table), expected);
    let mut other = [UNTOUCHED; TABLE + 100];
    assert_eq!(fast_fill(token, &mut other), expected);
    assert_eq!(table, other);
    let mut other = [UNTOUCHED; TABLE + 100];
    assert_eq!(library::read_table(token, &mut other), expected);
    assert_eq!(table, other);
    let written = match expected.number {
        0 => COLUMNS * expected.second as usize,
        _ => 0,
    };
    assert!(table[..written].iter().all(|value| *value != UNTOUCHED));
    assert!(table[written..].iter().all(|value| *value == UNTOUCHED));
    expected
}
