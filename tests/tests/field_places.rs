//! Every value of every byte of the fields that are no ids, tags or lengths, in
//! legal tokens: a refusal points at the field that was changed, or at one that
//! a rule holds against it. Where the fields lie is told by the views.

mod common;

use common::*;
use trusted_block_tests::fast::fast_read;
use trusted_block_tests::generate::legal::ordinary;
use trusted_block_tests::kinds::{
    is_section, APPLICATION_DATA, DATES, EXPORT_PARAMETERS, PUBLIC_KEY, RULE, TOKEN_PARAMETERS,
    TRANSPORT_VARIANT,
};
use trusted_block_tests::library;
use trusted_block_tests::random::Random;
use trusted_block_tests::reader::{read, read_answer, Answer};
use trusted_block_tests::sample_files::samples;
use trusted_block_tests::views::fields_of;

/// A field of a token: its part's row and kind, its number, and where it lies.
struct Field {
    row: usize,
    kind: u32,
    number: usize,
    start: usize,
    end: usize,
}

/// All fields of a legal token.
fn fields(token: &[u8]) -> Vec<Field> {
    let mut found = Vec::new();
    for (row, part) in read(token).expect("legal").iter().enumerate() {
        let mut start = part.offset as usize;
        for (number, bytes) in fields_of(token, part).iter().enumerate() {
            let end = start + bytes.len();
            let kind = part.kind;
            found.push(Field {
                row,
                kind,
                number,
                start,
                end,
            });
            start = end;
        }
    }
    found
}

/// Ids, tags and lengths: with another one the fields lie elsewhere.
fn is_structure(field: &Field) -> bool {
    let counts: &[usize] = match field.kind {
        PUBLIC_KEY => &[4, 6],
        TRANSPORT_VARIANT => &[4],
        EXPORT_PARAMETERS => &[7, 9],
        TOKEN_PARAMETERS => &[5, 8],
        APPLICATION_DATA => &[3],
        _ => &[],
    };
    let version = if is_section(field.kind) { 1 } else { 2 };
    field.number < 3 && field.number != version || counts.contains(&field.number)
}

/// The fields of the same part at which a change may be told with this number.
fn told_at(changed: &Field, number: u32) -> Vec<usize> {
    let mut fields = vec![changed.number];
    fields.extend(match (changed.kind, changed.number, number) {
        // Generate or export decides on the generated length and the format.
        (RULE, 4, 11) => vec![5, 7],
        // The bits decide on y and on the modulus, which is above the exponent.
        (PUBLIC_KEY, 5, 16) => vec![6, 8],
        (PUBLIC_KEY, 8, 16) => vec![7],
        // Minimum, maximum and the variant's length.
        (EXPORT_PARAMETERS, 5, 18) => vec![6],
        (EXPORT_PARAMETERS, 6, 18) => vec![7],
        // Flags, activation, expiration.
        (DATES, 4, 19) => vec![5, 6],
        (DATES, 5, 19) => vec![6],
        _ => vec![],
    });
    fields
}

/// Whether a refusal of a token with one byte changed points where it may.
fn points_right(given: Answer, byte: usize, changed: &Field, all: &[Field]) -> bool {
    let place = given.second as usize;
    let in_part = |field: &&Field| field.row == changed.row;
    // A minimum above the mask of the rule's 0005 is told at its m.
    let mask = |f: &Field| f.kind == TOKEN_PARAMETERS && f.number == 5 && f.start == place;
    let minimum = changed.kind == EXPORT_PARAMETERS && changed.number == 5;
    match given.number {
        // The Rule ID of another rule, told at the later of the two.
        9 => all
            .iter()
            .any(|f| f.kind == RULE && f.number == 0 && f.start == place),
        // What stands before the byte is a form's beginning.
        17 => (byte..changed.end).contains(&place),
        18 if minimum && all.iter().any(mask) => true,
        8 | 10 | 11 | 16 | 18 | 19 | 21 => all.iter().filter(in_part).any(|field| {
            field.start == place && told_at(changed, given.number).contains(&field.number)
        }),
        _ => false,
    }
}

/// Every value of each byte of a token's fields.
fn every_value_of(token: &[u8], tally: &mut Tally) {
    let all = fields(token);
    let mut damaged = token.to_vec();
    for field in all.iter().filter(|field| !is_structure(field)) {
        for byte in field.start..field.end {
            for value in 0..=255 {
                damaged[byte] = value;
                let given = read_answer(&damaged);
                assert_eq!(library::read(&damaged), given);
                assert_eq!(fast_read(&damaged), given);
                let right = given.number == 0 || points_right(given, byte, field, &all);
                assert!(right, "{given:?}, byte {byte} of {token:02X?} is {value}");
                tally.add(given);
            }
            damaged[byte] = token[byte];
        }
    }
}

#[test]
fn every_value_of_fields() {
    let mut tally = Tally::default();
    let files = samples().into_iter().map(|sample| sample.token);
    for token in files.chain([smallest_token(), token_of_all_kinds()]) {
        if token.len() < 1000 && read(&token).is_ok() {
            every_value_of(&token, &mut tally);
        }
    }
    let mut random = Random::new(0x706C_6163);
    for _ in 0..30 {
        let token = ordinary(&mut random).bytes;
        if token.len() < 1000 {
            every_value_of(&token, &mut tally);
        }
    }
    println!("fields: {:?}", tally.numbers);
    tally.assert_reached([0, 8, 9, 10, 11, 16, 17, 18, 19, 21].into_iter(), 20);
}
