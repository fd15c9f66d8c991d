//! The place of 17 by its definition, over all short strings of a few
//! characters: the first byte such that no legal field begins with the bytes up
//! to it. The legal fields are gone through, and all their beginnings noted.

mod common;

use common::*;
use std::collections::HashSet;
use trusted_block_tests::fast::fast_read;
use trusted_block_tests::forms::{first_wrong, is_label_template, is_rule_id};
use trusted_block_tests::generate::form_faults::{end_of_label, end_of_rule_id};
use trusted_block_tests::library;
use trusted_block_tests::reader::read_answer;

/// A letter, a digit, a sign of each form, a star, a space, and another byte.
const CHARACTERS: [u8; 7] = *b"A1-#* .";

/// All strings of so many of these characters.
fn strings(characters: &[u8], length: usize) -> Vec<Vec<u8>> {
    let mut found = vec![vec![]];
    for _ in 0..length {
        let longer = found.iter().flat_map(|string: &Vec<u8>| {
            let add = |character: &u8| [&string[..], &[*character]].concat();
            characters.iter().map(add)
        });
        found = longer.collect();
    }
    found
}

/// The beginnings of the legal ones among some fields, each from the shortest
/// length on.
fn beginnings(fields: &[Vec<u8>], shortest: usize, is_form: fn(&[u8]) -> bool) -> HashSet<&[u8]> {
    let legal = fields.iter().filter(|field| is_form(field));
    legal
        .flat_map(|field| (shortest..=field.len()).map(|length| &field[..length]))
        .collect()
}

/// The first byte with which no legal field begins; None in a legal field.
fn first_outside(field: &[u8], shortest: usize, begun: &HashSet<&[u8]>) -> Option<usize> {
    (shortest..=field.len())
        .find(|length| !begun.contains(&field[..*length]))
        .map(|length| length - 1)
}

/// The readers say the same of a token in which the field stands at a place.
fn check_token(token: &mut [u8], at: usize, field: &[u8], rows: u32, wrong: Option<usize>) {
    token[at..at + field.len()].copy_from_slice(field);
    let expected = match wrong {
        None => answer(0, rows),
        Some(byte) => answer(17, (at + byte) as u32),
    };
    assert_eq!(read_answer(token), expected, "{field:?}");
    assert_eq!(fast_read(token), expected, "{field:?}");
    assert_eq!(library::read(token), expected, "{field:?}");
}

/// All Rule IDs of five characters: 390,625.
#[test]
fn every_rule_id_of_five_characters() {
    let fields = strings(b"A- *.", 8);
    let begun = beginnings(&fields, 1, is_rule_id);
    let mut token = smallest_with(&[rule(RULE_ID, &[])]);
    let mut legal = 0;
    for field in &fields {
        let wrong = first_outside(field, 1, &begun);
        assert_eq!(wrong, first_wrong(field, is_rule_id), "{field:?}");
        assert_eq!(wrong.unwrap_or(8), end_of_rule_id(field), "{field:?}");
        check_token(&mut token, 84, field, 3, wrong);
        legal += usize::from(wrong.is_none());
    }
    // One to eight characters, each of two.
    assert_eq!(legal, 2 + 4 + 8 + 16 + 32 + 64 + 128 + 256);
}

/// Label templates of which some bytes are gone through; the beginnings from
/// the first of these bytes on are compared.
fn check_labels(fields: &[Vec<u8>], first: usize) -> usize {
    let begun = beginnings(fields, first + 1, is_label_template);
    let parameters = subsection(0x0005, &[&[0, 0, 0, 0, 64], &[b'A'; 64]]);
    let mut token = smallest_with(&[rule(RULE_ID, &[parameters])]);
    let mut legal = 0;
    for field in fields {
        let wrong = first_outside(field, first + 1, &begun);
        assert_eq!(wrong, first_wrong(field, is_label_template), "{field:?}");
        assert_eq!(wrong.unwrap_or(64), end_of_label(field), "{field:?}");
        check_token(&mut token, 110, field, 4, wrong);
        legal += usize::from(wrong.is_none());
    }
    legal
}

/// Five characters in front, of seven, with each of six ends: 100,842 fields.
#[test]
fn every_beginning_of_a_label_template() {
    let full = [b'A'; 59];
    let starred = [&[b'A'; 58][..], b"*"].concat();
    let ends: [&[u8]; 6] = [b"", b"A", b"1", b"*", &full, &starred];
    let mut fields = Vec::new();
    for front in strings(&CHARACTERS, 5) {
        for end in ends {
            let mut field = [&front[..], end].concat();
            field.resize(64, b' ');
            fields.push(field);
        }
    }
    // Five characters without a star go on with each end; a star and four with
    // those that have none; what has ended before with spaces only. A character
    // is one of three, in front one of two.
    let ended = 1 + 3 + 9 + 27;
    let expected = 6 * 2 * 81 + 4 * 81 + (ended + 2 * ended + 2 * ended);
    assert_eq!(check_labels(&fields, 0), expected);
}

/// The last five bytes, of seven characters each, after characters without a
/// star, after a star and characters, after spaces, and after a star and spaces.
#[test]
fn every_end_of_a_label_template() {
    let ends = strings(&CHARACTERS, 5);
    let star = [&b"*"[..], &[b'A'; 58]].concat();
    let spaces = [&[b'A'; 50][..], &[b' '; 9]].concat();
    let starred = [&[b'A'; 49][..], b"*", &[b' '; 9]].concat();
    // Up to five characters of three, and up to four with a star after them.
    let (without, with) = (1 + 3 + 9 + 27 + 81 + 243, 1 + 3 + 9 + 27 + 81);
    for (front, expected) in [
        (vec![b'A'; 59], without + with),
        (star, without),
        (spaces, 1),
        (starred, 1),
    ] {
        let fields: Vec<Vec<u8>> = ends.iter().map(|end| [&front[..], end].concat()).collect();
        assert_eq!(check_labels(&fields, 59), expected);
    }
}
