//! Damaged tokens: from legal ones by one fault or several, and from nothing.

use super::cut::{CutToken, Expected, Piece};
use super::faults::{Fault, CONTENT, LENGTHS};
use super::legal;
use crate::kinds::{is_section, least_length, ALL, EXTERNAL, INTERNAL};
use crate::random::Random;
use crate::reader::Answer;

/// A damaged token and how many changes were made to a legal one.
pub struct Damaged {
    pub bytes: Vec<u8>,
    pub changes: usize,
}

/// Any damaged token. Some changes leave it legal.
pub fn damaged(random: &mut Random) -> Damaged {
    match random.below(20) {
        0 => Damaged {
            bytes: from_nothing(random),
            changes: 0,
        },
        1..=6 => with_one_fault(random),
        7..=11 => with_faults(random),
        12..=16 => with_one_piece_disturbed(random),
        _ => with_bytes_changed(random),
    }
}

fn cut_legal(random: &mut Random) -> CutToken {
    let token = legal::legal(random);
    CutToken::new(token.id, &token.parts)
}

/// A legal token with this fault alone, and the answer it gives; None where
/// the fault can't be made in the token drawn.
pub fn with_fault(random: &mut Random, fault: &Fault) -> Option<(Vec<u8>, Answer)> {
    let mut cut = cut_legal(random);
    let expected: Expected = (fault.apply)(&mut cut, random)?;
    Some((cut.bytes(), cut.answer(expected)))
}

fn any_fault(random: &mut Random, list: &'static [Fault]) -> &'static Fault {
    &list[random.below(list.len())]
}

fn with_one_fault(random: &mut Random) -> Damaged {
    loop {
        let list = if random.once_in(6) { LENGTHS } else { CONTENT };
        let fault = any_fault(random, list);
        if let Some((bytes, _)) = with_fault(random, fault) {
            return Damaged { bytes, changes: 1 };
        }
    }
}

/// Two to six faults; those that leave lengths out of line come last.
fn with_faults(random: &mut Random) -> Damaged {
    let mut cut = cut_legal(random);
    let wanted = random.between(2, 6);
    let lengths = random.below(3).min(wanted - 1);
    let mut changes = 0;
    while changes < wanted {
        let list = if changes + lengths < wanted {
            CONTENT
        } else {
            LENGTHS
        };
        let fault = any_fault(random, list);
        if fault.name.starts_with("header") && !random.once_in(8) {
            continue;
        }
        if (fault.apply)(&mut cut, random).is_some() {
            changes += 1;
        } else if random.once_in(20) {
            break;
        }
    }
    let bytes = cut.bytes();
    Damaged { bytes, changes }
}

/// Several changes to one and the same piece, so that the order of the tests
/// shows.
fn with_one_piece_disturbed(random: &mut Random) -> Damaged {
    let mut cut = cut_legal(random);
    let changes = random.between(1, 4);
    let index = random.below(cut.pieces.len());
    for _ in 0..changes {
        disturb(&mut cut, random, index);
        if random.coin() {
            cut.bring_lengths_in_line();
        }
    }
    if !random.once_in(8) {
        cut.bring_header_in_line();
    }
    let bytes = cut.bytes();
    Damaged { bytes, changes }
}

/// One change to the piece, or to where it stands.
fn disturb(cut: &mut CutToken, random: &mut Random, index: usize) {
    let index = index.min(cut.pieces.len() - 1);
    match random.below(12) {
        0 => set_field(&mut cut.pieces[index], random, 0),
        1 => {
            let field = if cut.pieces[index].is_section() { 1 } else { 2 };
            set_field(&mut cut.pieces[index], random, field);
        }
        2 => {
            let around = cut.pieces[index].size() + random.below(12);
            cut.pieces[index].set_length(around.saturating_sub(6));
        }
        3 => {
            let copy = cut.pieces[index].clone();
            let before = index.saturating_sub(random.below(3));
            cut.insert(before, vec![copy]);
        }
        4 if cut.pieces.len() > 1 => drop(cut.pieces.remove(index)),
        5 => {
            let bytes = small_bytes(random);
            cut.pieces[index].fields.push(bytes);
        }
        6 => {
            let other = random.below(cut.pieces.len());
            cut.pieces.swap(index, other);
        }
        7 => {
            let field = random.below(cut.pieces[index].fields.len());
            cut.pieces[index].fields[field].pop();
        }
        _ => {
            let field = random.below(cut.pieces[index].fields.len());
            set_field(&mut cut.pieces[index], random, field);
        }
    }
}

fn small_bytes(random: &mut Random) -> Vec<u8> {
    let count = random.between(1, 9);
    let mut bytes = vec![0; count];
    bytes[count - 1] = random.pick(&[0, 1, 2, 8, 16, 24, 64, 255]);
    bytes
}

/// Gives a field other bytes of the same length, numbers near limits often.
fn set_field(piece: &mut Piece, random: &mut Random, field: usize) {
    let Some(bytes) = piece.fields.get_mut(field) else {
        return;
    };
    let count = bytes.len();
    if count == 0 {
        return;
    }
    match random.below(4) {
        0 => *bytes = random.bytes(count),
        1 => *bytes = vec![random.pick(&[0, b' ', 0xFF]); count],
        2 => {
            *bytes = vec![0; count];
            bytes[count - 1] = random.pick(&[0, 1, 2, 3, 5, 6, 7, 8, 16, 24, 25, 64, 0x12, 0x14]);
        }
        _ => {
            let place = random.below(count);
            bytes[place] ^= 1 << random.below(8);
        }
    }
}

/// Changes to bytes wherever they stand, the header's length in line or not.
fn with_bytes_changed(random: &mut Random) -> Damaged {
    let mut bytes = if random.once_in(3) {
        with_faults(random).bytes
    } else {
        legal::legal(random).bytes
    };
    let changes = random.between(1, 3);
    for _ in 0..changes {
        change_bytes(&mut bytes, random);
    }
    if bytes.len() >= 4 && random.coin() {
        let length = bytes.len() as u16;
        bytes[2..4].copy_from_slice(&length.to_be_bytes());
    }
    Damaged { bytes, changes }
}

fn change_bytes(bytes: &mut Vec<u8>, random: &mut Random) {
    if bytes.is_empty() {
        return;
    }
    let place = random.below(bytes.len());
    match random.below(9) {
        0 => bytes.truncate(place),
        1 => bytes.truncate(random.below(9)),
        2 => {
            let count = random.between(1, 40);
            bytes.extend(random.bytes(count));
        }
        3 => {
            let end = (place + random.between(1, 20)).min(bytes.len());
            bytes.drain(place..end);
        }
        4 => {
            let more = small_bytes(random);
            bytes.splice(place..place, more);
        }
        5 => bytes[place] = random.byte(),
        6 => bytes[place] = random.pick(&[0, 1, 2, 0x11, 0x12, 0x14, 0x20, 0xFF]),
        7 => {
            let early = random.below(bytes.len().min(120));
            bytes[early] ^= 1 << random.below(8);
        }
        _ => bytes[place] ^= 1 << random.below(8),
    }
}

/// Random bytes behind a header that may be right, cut like sections and
/// subsections or not at all.
pub fn from_nothing(random: &mut Random) -> Vec<u8> {
    let mut bytes = vec![random.pick(&[EXTERNAL, INTERNAL]), 0, 0, 0, 0, 0, 0, 0];
    for _ in 0..random.below(12) {
        let kind = random.pick(&ALL);
        let least = least_length(kind).unwrap_or(4);
        let length = least + random.pick(&[0, 0, 0, 1, 8, 16, 64]);
        let stated = (length as u16).to_be_bytes();
        let mut part = vec![0; length];
        if is_section(kind) {
            part[..4].copy_from_slice(&[(kind >> 16) as u8, 0, stated[0], stated[1]]);
        } else {
            part[..4].copy_from_slice(&[0, kind as u8, stated[0], stated[1]]);
        }
        for _ in 0..random.below(4) {
            let place = random.between(4, length - 1);
            part[place] = random.byte();
        }
        bytes.extend(part);
    }
    if random.once_in(4) {
        let count = random.below(100);
        bytes = random.bytes(count);
    }
    if bytes.len() >= 4 && !random.once_in(8) {
        let length = bytes.len() as u16;
        bytes[2..4].copy_from_slice(&length.to_be_bytes());
    }
    bytes
}
