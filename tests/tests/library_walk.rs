//! The library's walk, and its rows by number, against the second reader.
//! How many tokens is set by TRUSTED_BLOCK_TOKENS.

mod common;

use common::{count_of_tokens, Tally};
use trusted_block_tests::generate::damage::damaged;
use trusted_block_tests::generate::legal::{legal, ordinary, with_most_rows, Token};
use trusted_block_tests::kinds::{ALL, LONGEST};
use trusted_block_tests::library;
use trusted_block_tests::random::Random;
use trusted_block_tests::reader::{read, Answer, Row, ROWS};
use trusted_block_tests::views::{row_among, step, step_among, Step};

/// Where the first row begins.
const FIRST: u32 = 8;

/// Places and row numbers that no token has.
const FAR: [u32; 8] = [
    LONGEST as u32 + 1,
    65_535,
    65_536,
    65_544,
    1 << 24,
    1 << 31,
    u32::MAX - 1,
    u32::MAX,
];

/// How often each answer was given.
#[derive(Default, Debug)]
struct Seen {
    rows: usize,
    of_kind: [usize; ALL.len()],
    ends: usize,
    refusals: Tally,
}

impl Seen {
    fn add(&mut self, step: Step) {
        match step {
            Step::Row(row, _) => {
                self.rows += 1;
                let kind = ALL.iter().position(|kind| *kind == row.kind);
                self.of_kind[kind.expect("a listed kind")] += 1;
            }
            Step::End => self.ends += 1,
            Step::Refused(refusal) => self.refusals.add(refusal),
        }
    }

    fn assert_every_kind(&self, least: usize) {
        assert!(self.of_kind.iter().all(|count| *count >= least), "{self:?}");
    }
}

/// Most are ordinary; one in 200 has as many rows as there can be.
fn some_legal(turn: usize, random: &mut Random) -> Token {
    match turn % 200 {
        0 => with_most_rows(random),
        50 | 100 | 150 => legal(random),
        _ => ordinary(random),
    }
}

/// Follows the walk from the first place; the rows given, each at its place.
fn follow(token: &[u8], seen: &mut Seen) -> Vec<Row> {
    let mut place = FIRST;
    let mut rows = Vec::new();
    loop {
        let step = library::step(token, place);
        seen.add(step);
        match step {
            Step::Row(row, next) => {
                assert_eq!(row.offset, place, "{token:02X?}");
                assert!(next > place, "{place} {next} {token:02X?}");
                rows.push(row);
                place = next;
            }
            Step::End => {
                assert_eq!(place as usize, token.len());
                return rows;
            }
            Step::Refused(refusal) => panic!("{refusal:?} at {place} of {token:02X?}"),
        }
    }
}

#[test]
fn walks_over_legal_tokens() {
    let mut random = Random::new(53);
    let mut seen = Seen::default();
    let mut most = 0;
    for turn in 0..count_of_tokens() / 10 {
        let token = some_legal(turn, &mut random).bytes;
        let rows = read(&token).expect("legal");
        assert_eq!(follow(&token, &mut seen), rows, "{token:02X?}");
        most = most.max(rows.len());
    }
    println!("{} rows, {most} at most", seen.rows);
    seen.assert_every_kind(200);
    assert!(seen.ends >= 1000 && most > 200, "{most} {seen:?}");
}

#[test]
fn every_place_of_legal_tokens() {
    let mut random = Random::new(54);
    let mut seen = Seen::default();
    for turn in 0..400 {
        let token = some_legal(turn, &mut random).bytes;
        let rows = read(&token).expect("legal");
        let near = 0..=token.len() as u32 + 5;
        for place in near.chain(FAR) {
            let given = library::step(&token, place);
            let expected = step_among(&rows, token.len(), place as usize);
            assert_eq!(given, expected, "place {place} of {token:02X?}");
            seen.add(given);
        }
    }
    println!("{seen:?}");
    seen.assert_every_kind(20);
    assert_eq!(seen.ends, 400);
    assert!(seen.refusals.numbers[22] > 100_000);
}

#[test]
fn every_row_number_of_legal_tokens() {
    let mut random = Random::new(55);
    let mut seen = Seen::default();
    for turn in 0..count_of_tokens() / 60 {
        let token = some_legal(turn, &mut random).bytes;
        let rows = read(&token).expect("legal");
        let count = rows.len();
        // A row costs as many readings as there are rows before it.
        let every = 1 + count / 100;
        let numbers = (0..count).step_by(every);
        let beyond = [count - 1, count, count + 1, ROWS].into_iter();
        let far = FAR.into_iter().map(|number| number as usize);
        for number in numbers.chain(beyond).chain(far) {
            let given = library::row(&token, number as u32);
            let expected = row_among(&rows, token.len(), number);
            assert_eq!(given, expected, "row {number} of {token:02X?}");
            seen.add(given);
        }
    }
    println!("{seen:?}");
    seen.assert_every_kind(100);
    assert!(
        seen.ends == 0 && seen.refusals.numbers[22] > 3000,
        "{seen:?}"
    );
}

/// Every place of some, a few places and row numbers of each.
#[test]
fn steps_of_damaged_tokens() {
    let mut random = Random::new(56);
    let mut seen = Seen::default();
    for turn in 0..count_of_tokens() / 20 {
        let token = damaged(&mut random).bytes;
        let length = token.len() as u32;
        let expected = read(&token);
        let by_reader = |other: fn(&[Row], usize, usize) -> Step, asked: u32| match &expected {
            Ok(rows) => other(rows, token.len(), asked as usize),
            Err(refusal) => Step::Refused(*refusal),
        };
        let near = 0..if turn % 100 == 0 { length + 6 } else { 10 };
        for asked in near.chain([length, length + 1]).chain(FAR) {
            let given = library::step(&token, asked);
            assert_eq!(given, by_reader(step_among, asked), "{asked} {token:02X?}");
            seen.add(given);
        }
        for asked in [0, 1, 5, ROWS as u32].into_iter().chain(FAR) {
            let given = library::row(&token, asked);
            assert_eq!(given, by_reader(row_among, asked), "{asked} {token:02X?}");
        }
    }
    println!("{seen:?}");
    seen.refusals.assert_reached(1..=22, 20);
}

/// The number of the token's own fault and not 22, wherever it is asked.
#[test]
fn a_short_token_refuses_everywhere() {
    for place in (0..20).chain(FAR) {
        let refusal = Step::Refused(Answer::new(1, 0));
        assert_eq!(library::step(&[0x1E; 7], place), refusal);
        assert_eq!(library::row(&[0x1E; 7], place), refusal);
        assert_eq!(step(&[0x1E; 7], place as usize), refusal);
    }
}
