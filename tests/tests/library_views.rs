//! The library's views against those of the second reader. How many tokens is
//! set by TRUSTED_BLOCK_TOKENS.

mod common;

use common::{count_of_tokens, Tally};
use trusted_block_tests::generate::damage::damaged;
use trusted_block_tests::generate::legal::{legal, ordinary};
use trusted_block_tests::library;
use trusted_block_tests::random::Random;
use trusted_block_tests::reader::{read, Answer, ROWS};
use trusted_block_tests::views::view;

/// More than the fields of any kind.
const FIELDS: u32 = 12;

/// Every row and field of the token, and some that it does not have.
fn compare(token: &[u8], tally: &mut Tally) -> usize {
    let rows = read(token).map_or(1, |rows| rows.len() as u32);
    let far = [rows, rows + 1, ROWS as u32, 65_536, u32::MAX];
    let mut views = 0;
    for row in (0..rows).chain(far) {
        for field in (0..=FIELDS).chain([255, 256, u32::MAX]) {
            let given = library::view(token, row, field);
            assert_eq!(
                given,
                view(token, row, field),
                "row {row} field {field} of {token:02X?}"
            );
            tally.add(given.err().unwrap_or(Answer::new(0, 0)));
            views += 1;
        }
    }
    views
}

#[test]
fn views_of_legal_tokens() {
    let mut random = Random::new(51);
    let mut tally = Tally::default();
    let mut views = 0;
    for turn in 0..count_of_tokens() / 40 {
        let token = if turn % 50 == 0 {
            legal(&mut random)
        } else {
            ordinary(&mut random)
        };
        views += compare(&token.bytes, &mut tally);
    }
    println!("{views} views");
    tally.assert_reached([0, 22].into_iter(), 20);
}

#[test]
fn views_of_damaged_tokens() {
    let mut random = Random::new(52);
    let mut tally = Tally::default();
    for _ in 0..count_of_tokens() / 40 {
        compare(&damaged(&mut random).bytes, &mut tally);
    }
    tally.assert_reached(1..=21, 1);
}
