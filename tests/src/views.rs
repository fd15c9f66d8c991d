//! Views of single fields, the walk from row to row, and the cutting of a
//! legal token into its parts.

use crate::kinds::{
    APPLICATION_DATA, DATES, EXPORT_PARAMETERS, HEADER, INFORMATION, NAME, PROTECTION, PUBLIC_KEY,
    RULE, SOURCE_RULE, TOKEN_PARAMETERS, TRANSPORT_RULE, TRANSPORT_VARIANT,
};
use crate::parts::Part;
use crate::reader::{bytes_of, number, read, Answer, Row};

/// Offset and length in the token of a field, by row and field number.
pub fn view(token: &[u8], row: u32, field: u32) -> Result<(u32, u32), Answer> {
    let rows = read(token)?;
    let no_such = Answer::new(22, 0);
    let row = rows.get(row as usize).ok_or(no_such)?;
    let lengths = field_lengths(row.kind, bytes_of(token, row));
    let length = *lengths.get(field as usize).ok_or(no_such)?;
    let before: usize = lengths[..field as usize].iter().sum();
    Ok((row.offset + before as u32, length as u32))
}

/// The lengths of a part's fields, in order. `bytes` are those of a legal
/// section or subsection.
fn field_lengths(kind: u32, bytes: &[u8]) -> Vec<usize> {
    let one = |place: usize| number(&bytes[place..place + 1]);
    let two = |place: usize| number(&bytes[place..place + 2]);
    match kind {
        PUBLIC_KEY => vec![1, 1, 2, 2, 2, 2, 2, two(6), two(10), 4],
        RULE => vec![1, 1, 2, 8, 4, 1, 1, 1, 1],
        TRANSPORT_VARIANT => vec![2, 2, 1, 2, 1, one(7)],
        TRANSPORT_RULE | SOURCE_RULE => vec![2, 2, 1, 1, 8],
        EXPORT_PARAMETERS => {
            let variant = one(10);
            vec![2, 2, 1, 2, 1, 1, 1, 1, variant, 1, one(11 + variant)]
        }
        TOKEN_PARAMETERS => {
            let mask = one(8);
            vec![2, 2, 1, 2, 1, 1, mask, mask, 1, one(9 + 2 * mask)]
        }
        NAME => vec![1, 1, 2, 64],
        INFORMATION => vec![1, 1, 2, 2, 4],
        PROTECTION => vec![2, 2, 1, 1, 32, 8, 16],
        DATES => vec![2, 2, 1, 1, 2, 4, 4],
        APPLICATION_DATA => vec![1, 1, 2, 2, two(4)],
        _ => unreachable!("a legal token has listed kinds only"),
    }
}

/// What one step of the walk answers.
#[derive(Clone, Copy, Debug, PartialEq, Eq)]
pub enum Step {
    /// The row that begins at the place, and the next row's place.
    Row(Row, u32),
    /// The place is the token's length.
    End,
    Refused(Answer),
}

/// One step of the walk at any place.
pub fn step(token: &[u8], place: usize) -> Step {
    match read(token) {
        Ok(rows) => step_among(&rows, token.len(), place),
        Err(refusal) => Step::Refused(refusal),
    }
}

/// The same, of a legal token of this length with these rows.
pub fn step_among(rows: &[Row], length: usize, place: usize) -> Step {
    if place == length {
        return Step::End;
    }
    match rows.iter().position(|row| row.offset as usize == place) {
        Some(index) => {
            let next = rows.get(index + 1).map_or(length as u32, |row| row.offset);
            Step::Row(rows[index], next)
        }
        None => Step::Refused(Answer::new(22, 0)),
    }
}

/// The row of this number of a legal token, with the next row's place.
pub fn row_among(rows: &[Row], length: usize, number: usize) -> Step {
    match rows.get(number) {
        Some(row) => step_among(rows, length, row.offset as usize),
        None => Step::Refused(Answer::new(22, 0)),
    }
}

/// A reader that keeps hold of the token's bytes and its place in them.
pub struct HoldingReader<'a> {
    token: &'a [u8],
    place: usize,
}

impl<'a> HoldingReader<'a> {
    pub fn new(token: &'a [u8]) -> HoldingReader<'a> {
        HoldingReader {
            token,
            place: HEADER,
        }
    }

    /// The step at the place held; after a row the place is the next row's.
    pub fn next_step(&mut self) -> Step {
        let answer = step(self.token, self.place);
        if let Step::Row(_, next) = answer {
            self.place = next as usize;
        }
        answer
    }
}

/// The identifier and the parts of a legal token, by the views of its rows.
pub fn taken_apart(token: &[u8]) -> Result<(u8, Vec<Part>), Answer> {
    let rows = read(token)?;
    let part = |row: &Row| part_of(row.kind, &fields_of(token, row));
    Ok((token[0], rows.iter().map(part).collect()))
}

/// The bytes of all fields of a row.
pub fn fields_of<'a>(token: &'a [u8], row: &Row) -> Vec<&'a [u8]> {
    let mut rest = bytes_of(token, row);
    let mut fields = Vec::new();
    for length in field_lengths(row.kind, rest) {
        let (field, after) = rest.split_at(length);
        fields.push(field);
        rest = after;
    }
    fields
}

fn two(field: &[u8]) -> u16 {
    u16::from_be_bytes(field.try_into().expect("two bytes"))
}

fn four(field: &[u8]) -> u32 {
    u32::from_be_bytes(field.try_into().expect("four bytes"))
}

/// The part of this kind with all these fields, in the order of document 01.
pub fn part_of(kind: u32, fields: &[&[u8]]) -> Part {
    match kind {
        PUBLIC_KEY => Part::PublicKey {
            modulus_bits: two(fields[5]),
            exponent: fields[7].to_vec(),
            modulus: fields[8].to_vec(),
            flags: four(fields[9]),
        },
        RULE => Part::Rule {
            rule_id: fields[3].to_vec(),
            flags: four(fields[4]),
            generated_length: fields[5][0],
            key_check: fields[6][0],
            symmetric_format: fields[7][0],
            asymmetric_format: fields[8][0],
        },
        NAME => Part::Name {
            name: fields[3].to_vec(),
        },
        INFORMATION => Part::Information {
            flags: four(fields[4]),
        },
        APPLICATION_DATA => Part::ApplicationData {
            data: fields[4].to_vec(),
        },
        _ => subsection_of(kind, fields),
    }
}

fn subsection_of(kind: u32, fields: &[&[u8]]) -> Part {
    let bytes = |index: usize| fields[index].to_vec();
    match kind {
        TRANSPORT_VARIANT => Part::TransportVariant { variant: bytes(5) },
        TRANSPORT_RULE => Part::TransportRule { rule_id: bytes(4) },
        EXPORT_PARAMETERS => Part::ExportParameters {
            minimum: fields[5][0],
            maximum: fields[6][0],
            variant: bytes(8),
            cv: bytes(10),
        },
        SOURCE_RULE => Part::SourceRule { rule_id: bytes(4) },
        TOKEN_PARAMETERS => Part::TokenParameters {
            mask: bytes(6),
            template: bytes(7),
            label_template: bytes(9),
        },
        PROTECTION => Part::Protection {
            mac_key: bytes(4),
            mac: bytes(5),
            mkvp: bytes(6),
        },
        DATES => Part::Dates {
            flags: two(fields[4]),
            activation: bytes(5),
            expiration: bytes(6),
        },
        _ => unreachable!("a legal token has listed kinds only"),
    }
}
