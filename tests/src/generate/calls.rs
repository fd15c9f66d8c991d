//! Sequences of writer calls, good and bad, on buffers of many sizes.

use super::damage::damaged;
use super::form_faults::{bad_label, bad_rule_id};
use super::legal::{self, legal};
use super::values;
use crate::kinds::{EXTERNAL, INTERNAL, LONGEST, SHORTEST};
use crate::parts::{written, Part};
use crate::random::Random;

/// One call of the writer, or a byte of the buffer set outside it.
#[derive(Clone, Debug, PartialEq, Eq)]
pub enum Call {
    Start { id: u8 },
    Add(Part),
    Finish,
    SetByte { place: usize, value: u8 },
}

/// What the buffer holds at first, and the calls made on it.
#[derive(Clone, Debug, PartialEq, Eq)]
pub struct Sequence {
    pub buffer: Vec<u8>,
    pub calls: Vec<Call>,
}

pub fn sequence(random: &mut Random) -> Sequence {
    match random.below(8) {
        0 => rebuilding(random),
        1 | 2 => on_a_beginning(random),
        3 => on_a_damaged_draft(random),
        _ => freely(random),
    }
}

/// The sizes of buffers, from none to more than a token may take.
fn buffer_size(random: &mut Random) -> usize {
    match random.below(6) {
        0 => random.below(12),
        1 => random.pick(&[
            8,
            18,
            SHORTEST - 1,
            SHORTEST,
            96,
            100,
            LONGEST - 1,
            LONGEST,
            LONGEST + 1,
            4000,
        ]),
        2 => random.below(600),
        _ => random.between(500, 4200),
    }
}

fn buffer(random: &mut Random, size: usize) -> Vec<u8> {
    match random.below(3) {
        0 => vec![0; size],
        1 => vec![0xEE; size],
        _ => random.bytes(size),
    }
}

/// A legal token's parts added in order, in a buffer with or without room.
fn rebuilding(random: &mut Random) -> Sequence {
    let token = loop {
        let token = legal(random);
        if token.parts.len() < 60 {
            break token;
        }
    };
    let length = token.bytes.len();
    let size = random.pick(&[length, length + 1, length - 1, LONGEST, 4000]);
    let mut calls = vec![Call::Start { id: token.id }];
    calls.extend(token.parts.into_iter().map(Call::Add));
    calls.push(Call::Finish);
    let buffer = buffer(random, size);
    Sequence { buffer, calls }
}

/// A start and then any calls.
fn freely(random: &mut Random) -> Sequence {
    let size = buffer_size(random);
    let id = match random.below(8) {
        0 => random.byte(),
        _ => random.pick(&[EXTERNAL, INTERNAL]),
    };
    let mut calls = vec![Call::Start { id }];
    add_calls(random, &mut calls);
    let buffer = buffer(random, size);
    Sequence { buffer, calls }
}

/// The first parts of a legal token, then any calls without a start.
fn on_a_beginning(random: &mut Random) -> Sequence {
    let token = legal(random);
    let count = random.between(0, token.parts.len());
    let draft = written(token.id, &token.parts[..count]).expect("legal parts");
    on_a_draft(random, draft)
}

fn on_a_damaged_draft(random: &mut Random) -> Sequence {
    let draft = damaged(random).bytes;
    on_a_draft(random, draft)
}

fn on_a_draft(random: &mut Random, draft: Vec<u8>) -> Sequence {
    let more = random.pick(&[0, 1, 20, 200, 1000]);
    let mut buffer = draft;
    buffer.extend(random.bytes(more));
    let mut calls = vec![];
    add_calls(random, &mut calls);
    Sequence { buffer, calls }
}

/// Additions that mostly fit one to another, a finish now and then, and
/// seldom a byte set outside the writer.
fn add_calls(random: &mut Random, calls: &mut Vec<Call>) {
    for _ in 0..random.between(1, 12) {
        match random.below(16) {
            0 => calls.push(Call::Finish),
            1 => {
                let places = random.pick(&[120, 120, LONGEST]);
                calls.push(Call::SetByte {
                    place: random.below(places),
                    value: random.byte(),
                });
            }
            2 => calls.push(Call::SetByte {
                place: random.below(24),
                value: random.pick(&[0, 1, 8, 18, 0x1E, 0x1F]),
            }),
            3..=7 => add_section(random, calls),
            _ => {
                let part = any_part(random);
                calls.push(Call::Add(part));
            }
        }
    }
    calls.push(Call::Finish);
}

/// A rule or a section 14 with some of its subsections in any order.
fn add_section(random: &mut Random, calls: &mut Vec<Call>) {
    let mut parts = if random.coin() {
        let rule_id = values::rule_id(random);
        legal::rule_with_subsections(random, rule_id)
    } else {
        let id = random.pick(&[EXTERNAL, INTERNAL]);
        let section = Part::Information {
            flags: random.pick(&[0, 1]),
        };
        vec![section, legal::protection(random, id), legal::dates(random)]
    };
    random.shuffle(&mut parts[1..]);
    if parts.len() > 1 && random.once_in(4) {
        parts.pop();
    }
    if random.once_in(4) {
        let index = random.below(parts.len());
        spoil(random, &mut parts[index]);
    }
    calls.extend(parts.into_iter().map(Call::Add));
}

/// A part of any kind, spoiled now and then.
pub fn any_part(random: &mut Random) -> Part {
    let mut part = if random.coin() {
        any_section(random)
    } else {
        any_subsection(random)
    };
    if random.once_in(4) {
        spoil(random, &mut part);
    }
    part
}

fn any_section(random: &mut Random) -> Part {
    match random.below(5) {
        0 => legal::public_key(random),
        1 => {
            let (rule_id, export) = (values::rule_id(random), random.coin());
            legal::rule(random, rule_id, export)
        }
        2 => Part::Name {
            name: random.bytes(64),
        },
        3 => Part::Information {
            flags: random.pick(&[0, 1]),
        },
        _ => {
            let length = random.pick(&[0, 1, 100, 3000, 3409, 3415, 3486]);
            let data = random.bytes(length);
            Part::ApplicationData { data }
        }
    }
}

fn any_subsection(random: &mut Random) -> Part {
    match random.below(7) {
        0 => {
            let length = values::any_length(random);
            let variant = random.bytes(length);
            Part::TransportVariant { variant }
        }
        1 => Part::TransportRule {
            rule_id: values::rule_id(random),
        },
        2 => legal::export_parameters(random),
        3 => Part::SourceRule {
            rule_id: values::rule_id(random),
        },
        4 => legal::token_parameters(random, 0),
        5 => {
            let id = random.pick(&[EXTERNAL, INTERNAL]);
            legal::protection(random, id)
        }
        _ => legal::dates(random),
    }
}

/// Other bytes for a field whose length is fixed, at times of that length.
fn spoil_fixed(random: &mut Random, field: &mut Vec<u8>) {
    match random.below(4) {
        0 => drop(field.pop()),
        1 => field.push(b' '),
        2 => field.clear(),
        _ => *field = random.bytes(field.len()),
    }
}

/// Another length for a field whose length field is one byte.
fn spoil_counted(random: &mut Random, field: &mut Vec<u8>) {
    let length = random.pick(&[0, 1, 7, 8, 9, 16, 24, 64, 255, 256, 257, 300]);
    *field = random.bytes(length);
}

fn spoil_rule_id(random: &mut Random, field: &mut Vec<u8>) {
    if random.coin() {
        *field = bad_rule_id(random);
    } else {
        spoil_fixed(random, field);
    }
}

/// Makes a part one that is refused, for most draws.
fn spoil(random: &mut Random, part: &mut Part) {
    match part {
        Part::PublicKey { .. } => spoil_public_key(random, part),
        Part::Rule {
            rule_id,
            flags,
            generated_length,
            key_check,
            symmetric_format,
            asymmetric_format,
        } => match random.below(6) {
            0 => *flags ^= random.pick(&[1, 2]),
            1 => *generated_length = random.byte(),
            2 => *key_check = 3,
            3 => *symmetric_format ^= 1,
            4 => *asymmetric_format = 3,
            _ => spoil_rule_id(random, rule_id),
        },
        Part::Name { name } => spoil_fixed(random, name),
        Part::Information { flags } => *flags = random.pick(&[2, 0x100]),
        Part::ApplicationData { data } => {
            let length = random.pick(&[3415, 65_529, 65_530, 65_535, 65_536, 70_000]);
            *data = vec![0; length];
        }
        Part::Protection { .. } | Part::Dates { .. } => spoil_information(random, part),
        _ => spoil_rule_part(random, part),
    }
}

fn spoil_public_key(random: &mut Random, part: &mut Part) {
    let Part::PublicKey {
        modulus_bits,
        exponent,
        modulus,
        flags,
    } = part
    else {
        return;
    };
    match random.below(7) {
        0 => *modulus_bits = random.pick(&[0, 511, 4097, *modulus_bits ^ 1]),
        1 => exponent.clear(),
        2 => *exponent = modulus.clone(),
        3 => *exponent = vec![2],
        4 => *exponent = vec![1; random.pick(&[513, 65_535, 65_536])],
        5 => *modulus = vec![1; random.pick(&[63, 513, 65_535, 65_536])],
        _ => *flags = random.pick(&[1, 0x4000_0000]),
    }
}

/// The subsections of a rule.
fn spoil_rule_part(random: &mut Random, part: &mut Part) {
    match part {
        Part::TransportVariant { variant } => spoil_counted(random, variant),
        Part::TransportRule { rule_id } | Part::SourceRule { rule_id } => {
            spoil_rule_id(random, rule_id)
        }
        Part::ExportParameters {
            minimum,
            maximum,
            variant,
            cv,
        } => match random.below(4) {
            0 => *minimum = random.pick(&[0, 9, 16, 24, 25]),
            1 => *maximum = random.pick(&[0, 8, 9, 16, 24]),
            2 => spoil_counted(random, variant),
            _ => spoil_counted(random, cv),
        },
        Part::TokenParameters {
            mask,
            template,
            label_template,
        } => match random.below(5) {
            0 => spoil_counted(random, mask),
            1 => {
                spoil_counted(random, mask);
                *template = mask.clone();
            }
            2 => *label_template = bad_label(random),
            3 => spoil_counted(random, template),
            _ => spoil_counted(random, label_template),
        },
        _ => {}
    }
}

/// The subsections of section 14.
fn spoil_information(random: &mut Random, part: &mut Part) {
    match part {
        Part::Protection { mac_key, mac, mkvp } => match random.below(3) {
            0 => spoil_fixed(random, mac_key),
            1 => spoil_fixed(random, mac),
            _ => spoil_fixed(random, mkvp),
        },
        Part::Dates {
            flags,
            activation,
            expiration,
        } => match random.below(6) {
            0 => *flags = random.pick(&[2, 0x100]),
            1 => *activation = values::bad_date(random),
            2 => *expiration = values::bad_date(random),
            3 => std::mem::swap(activation, expiration),
            4 => spoil_fixed(random, activation),
            _ => spoil_fixed(random, expiration),
        },
        _ => {}
    }
}
