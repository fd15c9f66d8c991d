//! The reader and writer against the quick ones over generated tokens and
//! calls. How many tokens is set by TRUSTED_BLOCK_TOKENS; 20,000 at least, so
//! that the tallies hold.

mod common;

use common::{assert_exactly, count_of_tokens, Tally};
use trusted_block_tests::fast::writer::{fast_add, fast_finish};
use trusted_block_tests::fast::{fast_fill, fast_read};
use trusted_block_tests::forms::date_exists;
use trusted_block_tests::generate::calls::{sequence, Call};
use trusted_block_tests::generate::damage::{damaged, with_fault};
use trusted_block_tests::generate::faults::{CONTENT, LENGTHS};
use trusted_block_tests::generate::legal::{legal, ordinary, Token};
use trusted_block_tests::kinds;
use trusted_block_tests::parts::{written, Part};
use trusted_block_tests::random::Random;
use trusted_block_tests::reader::{read, read_answer, read_table, Answer, COLUMNS, ROWS};
use trusted_block_tests::writer;

/// A table that is too small, just large enough, or larger.
fn any_table(random: &mut Random, rows: usize) -> Vec<u32> {
    let enough = COLUMNS * rows;
    let length = match random.below(5) {
        0 => enough,
        1 => enough.saturating_sub(1),
        2 => random.below(enough + 1),
        3 => 0,
        _ => enough + random.below(9),
    };
    let mut table = vec![0; length];
    table.fill_with(|| random.number() as u32);
    table
}

/// Both readers, with a table and without: same answers, same tables. Gives
/// the answers without and with the table.
fn both_readers(random: &mut Random, token: &[u8]) -> (Answer, Answer) {
    let plain = read_answer(token);
    assert_eq!(fast_read(token), plain, "{token:02X?}");
    let rows = if plain.number == 0 { plain.second } else { 2 };
    let enough = COLUMNS * rows as usize;
    let before = any_table(random, rows as usize);
    let (mut one, mut other) = (before.clone(), before.clone());
    let with_table = read_table(token, &mut one);
    assert_eq!(fast_fill(token, &mut other), with_table, "{token:02X?}");
    assert_eq!(one, other, "{token:02X?}");
    let filled = if with_table.number == 0 { enough } else { 0 };
    assert_eq!(one[filled..], before[filled..], "{token:02X?}");
    if plain.number == 0 && before.len() < enough {
        assert_eq!(
            with_table,
            Answer {
                number: 23,
                ..plain
            }
        );
    } else {
        assert_eq!(with_table, plain);
    }
    (plain, with_table)
}

/// The limits a legal token came to.
#[derive(Default, Debug)]
struct Limits {
    full: usize,
    smallest: usize,
    rules_171: usize,
    rows_276: usize,
    bits_512: usize,
    bits_4096: usize,
    bits_between_bytes: usize,
    exponent_1: usize,
    exponent_512: usize,
    year_0: usize,
    year_9999: usize,
    leap_day: usize,
    variant_255: usize,
    zero_dates: usize,
    no_activation: usize,
    no_expiration: usize,
    out_of_order: usize,
    kinds: [usize; 12],
}

impl Limits {
    fn add(&mut self, token: &Token) {
        let rules = token.parts.iter().filter(|part| part.kind() == kinds::RULE);
        self.full += usize::from(token.bytes.len() == kinds::LONGEST);
        self.smallest += usize::from(token.bytes.len() == kinds::SHORTEST);
        self.rules_171 += usize::from(rules.count() == 171);
        self.rows_276 += usize::from(token.parts.len() >= 276);
        for part in &token.parts {
            let place = kinds::ALL.iter().position(|kind| *kind == part.kind());
            self.kinds[place.expect("a listed kind")] += 1;
            self.add_part(part);
        }
    }

    fn add_part(&mut self, part: &Part) {
        match part {
            Part::PublicKey {
                modulus_bits,
                exponent,
                ..
            } => {
                self.bits_512 += usize::from(*modulus_bits == 512);
                self.bits_4096 += usize::from(*modulus_bits == 4096);
                self.bits_between_bytes += usize::from(modulus_bits % 8 != 0);
                self.exponent_1 += usize::from(exponent.len() == 1);
                self.exponent_512 += usize::from(exponent.len() == 512);
            }
            Part::Dates {
                flags: 0,
                activation,
                expiration,
            } => {
                let exist = [activation, expiration].map(|date| date_exists(date));
                let zero = activation == &[0; 4] && expiration == &[0; 4];
                self.zero_dates += usize::from(zero);
                self.no_activation += usize::from(exist == [false, true]);
                self.no_expiration += usize::from(exist == [true, false]);
                let both = exist == [true, true];
                self.out_of_order += usize::from(both && activation > expiration);
            }
            Part::Dates {
                activation,
                expiration,
                ..
            } => {
                self.year_0 += usize::from(activation[..2] == [0, 0]);
                self.year_9999 += usize::from(expiration[..2] == [0x27, 0x0F]);
                self.leap_day += usize::from(activation[2..] == [2, 29]);
            }
            Part::TransportVariant { variant } | Part::ExportParameters { variant, .. } => {
                self.variant_255 += usize::from(variant.len() == 255);
            }
            _ => {}
        }
    }

    fn assert_reached(&self) {
        let counts = [
            self.full,
            self.smallest,
            self.rules_171,
            self.rows_276,
            self.bits_512,
            self.bits_4096,
            self.bits_between_bytes,
            self.exponent_1,
            self.exponent_512,
            self.year_0,
            self.year_9999,
            self.leap_day,
            self.variant_255,
        ];
        assert!(counts.iter().all(|count| *count >= 20), "{self:?}");
        // Dates that nobody judges, each sort with one in 40 dates at least.
        let dates = kinds::ALL.iter().position(|kind| *kind == kinds::DATES);
        let least = self.kinds[dates.expect("a listed kind")] / 40;
        for count in [
            self.zero_dates,
            self.no_activation,
            self.no_expiration,
            self.out_of_order,
        ] {
            assert!(count >= least, "{self:?}");
        }
        assert!(self.kinds.iter().all(|count| *count >= 1000), "{self:?}");
    }
}

#[test]
fn legal_tokens_are_accepted_with_their_parts() {
    let mut random = Random::new(0x6C65_6761);
    let mut limits = Limits::default();
    let mut with_table = Tally::default();
    for _ in 0..count_of_tokens() / 5 {
        let token = legal(&mut random);
        assert_eq!(written(token.id, &token.parts).as_ref(), Some(&token.bytes));
        let rows = read(&token.bytes).expect("legal");
        let kinds = rows.iter().map(|row| row.kind);
        assert!(kinds.eq(token.parts.iter().map(Part::kind)), "{token:?}");
        assert!(rows.len() <= ROWS);
        let (_, filled) = both_readers(&mut random, &token.bytes);
        with_table.add(filled);
        limits.add(&token);
    }
    with_table.assert_reached([0, 23].into_iter(), 1000);
    limits.assert_reached();
}

#[test]
fn readers_agree_on_damaged_tokens() {
    let mut random = Random::new(0x6461_6D61);
    let mut plain = Tally::default();
    let mut with_table = Tally::default();
    let (mut several, mut one_over, mut refused_late) = (0, 0, 0);
    let count = count_of_tokens() * 4 / 5;
    for _ in 0..count {
        let token = damaged(&mut random);
        let (read, filled) = both_readers(&mut random, &token.bytes);
        plain.add(read);
        with_table.add(filled);
        several += usize::from(token.changes > 1);
        one_over += usize::from(token.bytes.len() == kinds::LONGEST + 1);
        refused_late += usize::from(read.number != 0 && read.second > 100);
    }
    plain.assert_reached(0..=21, 20);
    with_table.assert_reached([0, 23].into_iter(), 20);
    assert!(several > count / 3, "{several} of {count}");
    assert!(refused_late > count / 10, "{refused_late} of {count}");
    assert!(one_over > 20, "{one_over} of {count}");
}

#[test]
fn each_fault_alone_gives_its_number_and_place() {
    let mut random = Random::new(0x6661_756C);
    let mut tally = Tally::default();
    for fault in CONTENT.iter().chain(LENGTHS) {
        let mut made = 0;
        for _ in 0..4000 {
            let Some((token, expected)) = with_fault(&mut random, fault) else {
                continue;
            };
            assert_eq!(
                read_answer(&token),
                expected,
                "{}: {token:02X?}",
                fault.name
            );
            assert_eq!(fast_read(&token), expected, "{}: {token:02X?}", fault.name);
            tally.add(expected);
            made += 1;
            if made == 400 {
                break;
            }
        }
        assert!(made >= 200, "{}: made {made} times", fault.name);
    }
    tally.assert_reached(2..=21, 200);
}

#[test]
fn every_beginning_of_a_token_is_refused() {
    let mut random = Random::new(0x6265_6769);
    for _ in 0..40 {
        let token = legal(&mut random).bytes;
        for length in 0..token.len() {
            let mut beginning = token[..length].to_vec();
            let (number, second) = if length < 8 { (1, 0) } else { (4, 2) };
            assert_eq!(read_answer(&beginning), Answer { number, second });
            // The header's length brought in line: both readers still agree.
            if length >= 8 {
                beginning[2..4].copy_from_slice(&(length as u16).to_be_bytes());
            }
            assert_eq!(fast_read(&beginning), read_answer(&beginning));
        }
    }
}

#[test]
fn every_single_byte_change_is_read_alike() {
    let mut random = Random::new(0x6279_7465);
    for _ in 0..12 {
        let token = ordinary(&mut random).bytes;
        let mut changed = token.clone();
        for place in 0..token.len().min(600) {
            for value in 0..=255 {
                changed[place] = value;
                assert_eq!(fast_read(&changed), read_answer(&changed), "{changed:02X?}");
            }
            changed[place] = token[place];
        }
    }
}

/// Both writers make the call on their buffers; gives what an addition
/// answered.
fn both_writers(one: &mut [u8], other: &mut [u8], call: &Call) -> Option<Answer> {
    let added = match call {
        Call::Start { id } => {
            writer::start(one, *id);
            writer::start(other, *id);
            None
        }
        Call::Add(part) => {
            let answer = writer::add(one, part);
            assert_eq!(fast_add(other, part), answer, "{part:?} to {one:02X?}");
            Some(answer)
        }
        Call::Finish => {
            assert_eq!(fast_finish(other), writer::finish(one), "{one:02X?}");
            None
        }
        Call::SetByte { place, value } => {
            for buffer in [&mut *one, &mut *other] {
                if let Some(byte) = buffer.get_mut(*place) {
                    *byte = *value;
                }
            }
            None
        }
    };
    assert!(one == other, "{call:?}: {one:02X?} and {other:02X?}");
    added
}

#[test]
fn writers_agree_on_sequences_of_calls() {
    let mut random = Random::new(0x6661_7772);
    let mut tally = Tally::default();
    for _ in 0..(count_of_tokens() / 10).max(20_000) {
        let sequence = sequence(&mut random);
        let (mut one, mut other) = (sequence.buffer.clone(), sequence.buffer);
        for call in &sequence.calls {
            if let Some(added) = both_writers(&mut one, &mut other, call) {
                tally.add(added);
            }
        }
    }
    let all_but_20: Vec<usize> = (0..=25).filter(|n| ![20, 22].contains(n)).collect();
    assert_exactly(&tally.numbers, &all_but_20, 20);
}
