//! The proved library against the second reader. How many tokens is set by
//! TRUSTED_BLOCK_TOKENS.

mod common;

use common::{answer, count_of_tokens, smallest_token, Tally};
use std::ptr::null;
use trusted_block_tests::generate::damage::{damaged, with_fault};
use trusted_block_tests::generate::faults::{CONTENT, LENGTHS};
use trusted_block_tests::generate::legal::{legal, ordinary};
use trusted_block_tests::library::{self, calls};
use trusted_block_tests::random::Random;
use trusted_block_tests::reader::{put_rows, read, Answer, Row, COLUMNS, TABLE};

/// Numbers before and after the table lent, which must not change either.
const MARGIN: usize = COLUMNS;

/// Bytes before and after the token lent.
const AROUND: usize = 16;

/// Buffers that are used again for each token.
struct Trial {
    random: Random,
    tokens: Vec<u8>,
    pattern: Vec<u32>,
    table: Vec<u32>,
    wanted: Vec<u32>,
    plain: Tally,
    with_table: Tally,
    tables: usize,
}

impl Trial {
    fn new(seed: u64) -> Trial {
        let mut random = Random::new(seed);
        let mut pattern = vec![0; TABLE + 2 * MARGIN];
        pattern.fill_with(|| random.number() as u32);
        Trial {
            random,
            tokens: Vec::new(),
            table: pattern.clone(),
            wanted: pattern.clone(),
            pattern,
            plain: Tally::default(),
            with_table: Tally::default(),
            tables: 0,
        }
    }

    /// Every call of the library on the token; gives what `tb_read` answered.
    fn try_token(&mut self, token: &[u8]) -> Answer {
        let outcome = read(token);
        let start = self.place_among_other_bytes(token);
        let before = self.tokens.clone();
        let here = start..start + token.len();
        let given = library::read(&self.tokens[here.clone()]);
        assert_eq!(given, expected(&outcome, usize::MAX), "{token:02X?}");
        self.plain.add(given);
        for length in self.table_lengths(&outcome) {
            let filled = self.try_table(&outcome, here.clone(), length);
            self.with_table.add(filled);
            self.tables += 1;
        }
        assert_eq!(self.tokens, before, "the token's bytes were changed");
        given
    }

    /// Puts the token between random bytes, at any alignment, so that an
    /// answer that depends on a byte outside would show.
    fn place_among_other_bytes(&mut self, token: &[u8]) -> usize {
        let start = self.random.between(1, AROUND);
        self.tokens.clear();
        self.tokens.extend(self.random.bytes(start));
        self.tokens.extend(token);
        self.tokens.extend(self.random.bytes(AROUND));
        start
    }

    /// None, one too few, exact, larger, large. A refused token gets what a
    /// token of a few rows would get.
    fn table_lengths(&mut self, outcome: &Result<Vec<Row>, Answer>) -> [usize; 5] {
        let rows = match outcome {
            Ok(rows) => rows.len(),
            Err(_) => self.random.between(1, 40),
        };
        let (enough, more) = (COLUMNS * rows, self.random.between(1, 9));
        [0, enough - 1, enough, enough + more, TABLE]
    }

    /// Reads into a table of this length and compares all of it.
    fn try_table(
        &mut self,
        outcome: &Result<Vec<Row>, Answer>,
        token: std::ops::Range<usize>,
        length: usize,
    ) -> Answer {
        self.table.copy_from_slice(&self.pattern);
        self.wanted.copy_from_slice(&self.pattern);
        let lent = &mut self.table[MARGIN..MARGIN + length];
        let token = &self.tokens[token];
        let given = library::read_table(token, lent);
        assert_eq!(given, expected(outcome, length), "{token:02X?}");
        if given.number == 0 {
            let rows = outcome.as_ref().expect("accepted");
            put_rows(rows, &mut self.wanted[MARGIN..]);
        }
        assert!(self.table == self.wanted, "table: {token:02X?}");
        given
    }

    fn report(&self, what: &str) {
        println!("{what}: tb_read gave {:?}", self.plain.numbers);
        println!("{what}: tb_read_table gave {:?}", self.with_table.numbers);
        println!("{what}: {} tables compared", self.tables);
    }
}

/// What the second reader answers for a table of this length.
fn expected(outcome: &Result<Vec<Row>, Answer>, length: usize) -> Answer {
    match outcome {
        Ok(rows) if COLUMNS * rows.len() > length => Answer::new(23, rows.len()),
        Ok(rows) => Answer::new(0, rows.len()),
        Err(refusal) => *refusal,
    }
}

#[test]
fn legal_tokens() {
    let mut trial = Trial::new(0x6C69_6C65);
    let mut random = Random::new(0x6C65_6762);
    let count = count_of_tokens() / 3;
    let mut long = 0;
    for _ in 0..count {
        let token = legal(&mut random);
        let given = trial.try_token(&token.bytes);
        assert_eq!(given, Answer::new(0, token.parts.len()));
        long += usize::from(token.bytes.len() >= 3000);
    }
    trial.report("legal");
    assert!(long > count / 20, "{long} long ones");
    assert_eq!(trial.plain.numbers[0], count);
    assert_eq!(trial.with_table.numbers[0], 3 * count);
    assert_eq!(trial.with_table.numbers[23], 2 * count);
}

#[test]
fn damaged_tokens() {
    let mut trial = Trial::new(0x6C69_6461);
    let mut random = Random::new(0x6461_6D62);
    let count = count_of_tokens() * 2 / 3;
    let (mut several, mut long) = (0, 0);
    for _ in 0..count {
        let token = damaged(&mut random);
        trial.try_token(&token.bytes);
        several += usize::from(token.changes > 1);
        long += usize::from(token.bytes.len() >= 3000);
    }
    trial.report("damaged");
    println!("damaged: {several} with several changes, {long} long ones");
    trial.plain.assert_reached(0..=21, 20);
    trial.with_table.assert_reached(0..=21, 20);
    trial.with_table.assert_reached([23].into_iter(), 20);
    assert!(several > count / 3, "{several} of {count}");
    assert!(long > count / 20, "{long} of {count}");
}

#[test]
fn each_fault_alone() {
    let mut trial = Trial::new(0x6C69_6661);
    let mut random = Random::new(0x6661_756D);
    for fault in CONTENT.iter().chain(LENGTHS) {
        let tokens = (0..400).filter_map(|_| with_fault(&mut random, fault));
        let mut made = 0;
        for (token, expected) in tokens {
            assert_eq!(trial.try_token(&token), expected, "{}", fault.name);
            made += 1;
        }
        assert!(made >= 20, "{}: made {made} times", fault.name);
    }
    trial.report("one fault");
    trial.plain.assert_reached(2..=21, 20);
}

#[test]
fn every_beginning_of_a_token() {
    let mut trial = Trial::new(0x6C69_6265);
    let mut random = Random::new(0x6265_676A);
    for _ in 0..12 {
        let token = ordinary(&mut random).bytes;
        for length in 0..token.len() {
            let mut beginning = token[..length].to_vec();
            let expected = if length < 8 { (1, 0) } else { (4, 2) };
            let given = trial.try_token(&beginning);
            assert_eq!((given.number, given.second), expected);
            // Again with the header's length in line.
            if length >= 8 {
                beginning[2..4].copy_from_slice(&(length as u16).to_be_bytes());
                trial.try_token(&beginning);
            }
        }
    }
    trial.report("beginnings");
}

#[test]
fn nothing_at_a_null_pointer_is_an_empty_token() {
    let mut second = 7;
    // SAFETY: no byte is lent, and `second` lives.
    let number = unsafe { calls::tb_read(null(), 0, &mut second) };
    assert_eq!((number, second), (1, 0));
    let mut second = 7;
    let mut table = [7; 8];
    // SAFETY: no byte is lent; the table and `second` live.
    let number =
        unsafe { calls::tb_read_table(null(), 0, table.as_mut_ptr(), table.len(), &mut second) };
    assert_eq!((number, second, table), (1, 0, [7; 8]));
    let token = smallest_token();
    let none = std::ptr::null_mut();
    // SAFETY: the token and `second` live; no number is lent.
    let number = unsafe { calls::tb_read_table(token.as_ptr(), token.len(), none, 0, &mut second) };
    assert_eq!((number, second), (23, 2));
    assert_eq!(library::read(&[]), answer(1, 0));
    assert_eq!(library::read_table(&[], &mut []), answer(1, 0));
    assert_eq!(library::read_table(&token, &mut []), answer(23, 2));
}
