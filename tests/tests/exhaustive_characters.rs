//! Every byte value at every place of a Rule ID and of a label template,
//! among characters and spaces, by the library's reader and writer: accepted,
//! or refused at the byte at which no form can go on.

mod common;

use common::*;
use trusted_block_tests::fast::fast_read;
use trusted_block_tests::generate::form_faults::{end_of_label, end_of_rule_id};
use trusted_block_tests::library;
use trusted_block_tests::library_writer;
use trusted_block_tests::parts::Part;
use trusted_block_tests::reader::{read_answer, Answer};
use trusted_block_tests::writer;

const RULE_ID: &[u8; 8] = b"A-b_C3d4";

/// A token in which a Rule ID stands, and where: a rule's own, in a 0002, in
/// a 0004.
fn with_rule_id(tag: u16) -> (Vec<u8>, usize) {
    match tag {
        0x0000 => (smallest_with(&[rule(RULE_ID, &[])]), 84),
        _ => {
            let reference = subsection(tag, &[&[0], RULE_ID]);
            (smallest_with(&[rule(b"OTHER   ", &[reference])]), 106)
        }
    }
}

/// A token with a 0005 that has this label template, and where it stands.
fn with_label(label: &[u8; 64]) -> (Vec<u8>, usize) {
    let parameters = subsection(0x0005, &[&[0, 0, 0, 0, 64], label]);
    (smallest_with(&[rule(b"OTHER   ", &[parameters])]), 110)
}

/// The three readers accept the field at a place, or say 17 at this byte of it.
fn check(token: &[u8], at: usize, rows: u32, wrong: Option<usize>) {
    let expected = match wrong {
        None => answer(0, rows),
        Some(byte) => answer(17, (at + byte) as u32),
    };
    assert_eq!(read_answer(token), expected, "{token:02X?}");
    assert_eq!(library::read(token), expected, "{token:02X?}");
    assert_eq!(fast_read(token), expected, "{token:02X?}");
}

/// The field with its last bytes as spaces, so many characters before them.
fn padded<const N: usize>(field: &[u8; N], characters: usize) -> [u8; N] {
    let mut field = *field;
    field[characters..].fill(b' ');
    field
}

/// What may stand in a field, spaces and stars left aside.
fn is_plain(value: u8, signs: &[u8]) -> bool {
    value.is_ascii_alphanumeric() || signs.contains(&value)
}

/// Where a Rule ID of so many characters goes wrong by this value at a place.
fn wrong_in_rule_id(characters: usize, changed: usize, value: u8) -> Option<usize> {
    match value {
        b' ' if changed == 0 => Some(0),
        // The next character stands after a space.
        b' ' if changed + 1 < characters => Some(changed + 1),
        b' ' => None,
        _ if changed <= characters && is_plain(value, b"-_") => None,
        _ => Some(changed),
    }
}

/// The same of a label template without a star before.
fn wrong_in_label(characters: usize, changed: usize, value: u8) -> Option<usize> {
    match value {
        b' ' | b'0'..=b'9' if changed == 0 => Some(0),
        b'*' if changed == 0 => None,
        // The next character stands after a space, or after a star within.
        b' ' | b'*' if changed + 1 < characters => Some(changed + 1),
        b' ' => None,
        b'*' if changed <= characters => None,
        _ if changed <= characters && is_plain(value, b"#$@") => None,
        _ => Some(changed),
    }
}

/// Where the form ends within the field, as the runs say.
fn wrong_by_runs(end: usize, length: usize) -> Option<usize> {
    (end < length).then_some(end)
}

/// Every value at every place of Rule IDs of every length, where a Rule ID
/// stands: counts the legal ones.
fn every_rule_id(tag: u16) -> [usize; 8] {
    let (mut token, at) = with_rule_id(tag);
    let rows = if tag == 0x0000 { 3 } else { 4 };
    let mut legal = [0; 8];
    for characters in 1..=8 {
        for changed in 0..8 {
            let mut field = padded(RULE_ID, characters);
            for value in 0..=255 {
                field[changed] = value;
                token[at..at + 8].copy_from_slice(&field);
                let wrong = wrong_in_rule_id(characters, changed, value);
                check(&token, at, rows, wrong);
                assert_eq!(wrong, wrong_by_runs(end_of_rule_id(&field), 8));
                if characters == 8 && wrong.is_none() {
                    legal[changed] += 1;
                }
            }
        }
    }
    legal
}

/// 26 letters twice, ten digits and two signs may stand anywhere; in the last
/// place a space, too.
#[test]
fn every_value_in_a_rule_id() {
    for tag in [0x0000, 0x0002, 0x0004] {
        assert_eq!(
            every_rule_id(tag),
            [64, 64, 64, 64, 64, 64, 64, 65],
            "{tag}"
        );
    }
}

/// Every value at every place of a template with so many characters before
/// its spaces: counts the legal ones at each place.
fn every_label(label: &[u8; 64], characters: usize) -> [usize; 64] {
    let mut legal = [0; 64];
    let field = padded(label, characters);
    let (mut token, at) = with_label(&field);
    for changed in 0..64 {
        let mut field = field;
        for value in 0..=255 {
            field[changed] = value;
            token[at..at + 64].copy_from_slice(&field);
            let wrong = wrong_by_runs(end_of_label(&field), 64);
            check(&token, at, 4, wrong);
            if !label.contains(&b'*') {
                assert_eq!(wrong, wrong_in_label(characters, changed, value));
            }
            legal[changed] += usize::from(wrong.is_none());
        }
    }
    legal
}

/// Letters, digits and signs without a star.
const PLAIN: &[u8; 64] = b"A#b$C@d4A#b$C@d4A#b$C@d4A#b$C@d4A#b$C@d4A#b$C@d4A#b$C@d4A#b$C@d4";

/// Of 64 characters the first may be a letter, a sign or a star, those within
/// a letter, a digit or a sign, and the last a star or a space, too.
#[test]
fn every_value_in_a_full_label_template() {
    let counts = every_label(PLAIN, 64);
    assert_eq!(counts[0], 52 + 3 + 1);
    assert_eq!(counts[1..63], [52 + 10 + 3; 62]);
    assert_eq!(counts[63], 52 + 10 + 3 + 1 + 1);
}

/// At every place of templates of thirteen lengths from one to 64, without a
/// star, with one first, with one last, and with both.
#[test]
fn every_value_in_label_templates_of_many_lengths() {
    for characters in [1, 2, 3, 4, 5, 8, 16, 31, 32, 33, 62, 63, 64] {
        let mut first = *PLAIN;
        first[0] = b'*';
        let mut last = *PLAIN;
        last[characters - 1] = b'*';
        let mut both = last;
        both[0] = b'*';
        for label in [PLAIN, &first, &last, &both] {
            every_label(label, characters);
        }
    }
}

/// Two values changed at once, at the first, the middle and the last place.
#[test]
fn every_pair_of_values_in_a_rule_id() {
    let (mut token, at) = with_rule_id(0);
    for (one, other) in [(0, 7), (3, 4), (0, 1), (6, 7)] {
        for pair in 0..=u16::MAX {
            let [high, low] = pair.to_be_bytes();
            let mut field = *RULE_ID;
            (field[one], field[other]) = (high, low);
            token[at..at + 8].copy_from_slice(&field);
            check(&token, at, 3, wrong_by_runs(end_of_rule_id(&field), 8));
        }
    }
}

/// The same by the writer: the addition gives what the second writer gives,
/// and the draft holds what that one's holds.
fn same_addition(draft: &[u8], part: &Part) -> bool {
    let (mut one, mut other) = (draft.to_vec(), draft.to_vec());
    let given: Answer = library_writer::add(&mut one, part);
    assert_eq!(given, writer::add(&mut other, part), "{part:?}");
    assert_eq!(one, other, "{part:?}");
    given.number == 0
}

/// A draft with room, whose last section is a rule.
fn draft() -> Vec<u8> {
    let mut draft = smallest_with(&[rule(b"OTHER   ", &[])]);
    draft.resize(300, 0x77);
    draft
}

#[test]
fn every_value_in_a_rule_id_added() {
    let draft = draft();
    let mut added = 0;
    for changed in 0..8 {
        for value in 0..=255 {
            let mut rule_id = RULE_ID.to_vec();
            rule_id[changed] = value;
            let rule = Part::Rule {
                rule_id: rule_id.clone(),
                flags: 0,
                generated_length: 8,
                key_check: 0,
                symmetric_format: 0,
                asymmetric_format: 0,
            };
            let transport = Part::TransportRule {
                rule_id: rule_id.clone(),
            };
            for part in [rule, transport, Part::SourceRule { rule_id }] {
                added += usize::from(same_addition(&draft, &part));
            }
        }
    }
    assert_eq!(added, 3 * (7 * 64 + 65));
}

#[test]
fn every_value_in_a_label_template_added() {
    let draft = draft();
    let mut added = 0;
    for changed in 0..64 {
        for value in 0..=255 {
            let mut label_template = PLAIN.to_vec();
            label_template[changed] = value;
            let part = Part::TokenParameters {
                mask: vec![],
                template: vec![],
                label_template,
            };
            added += usize::from(same_addition(&draft, &part));
        }
    }
    assert_eq!(added, 56 + 62 * 65 + 67);
}
