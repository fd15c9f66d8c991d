//! Single faults in lengths, and in which parts are there.

use super::cut::{At, CutToken, Expected, Piece};
use super::faults::{any_section, any_subsection, at_header, at_length, at_piece};
use crate::kinds::{
    least_length, APPLICATION_DATA, DATES, EXPORT_PARAMETERS, INFORMATION, LONGEST, NAME,
    PROTECTION, PUBLIC_KEY, RULE, SHORTEST, SOURCE_RULE, TOKEN_PARAMETERS, TRANSPORT_RULE,
    TRANSPORT_VARIANT,
};
use crate::random::Random;

/// Application data that makes the token too long.
pub fn over_long(cut: &mut CutToken, random: &mut Random) -> Option<Expected> {
    let index = match cut.any_of(random, &[APPLICATION_DATA]) {
        Some(index) => index,
        None => {
            let index = cut.any_gap(random);
            let fields = vec![vec![0x15], vec![0], vec![0, 0], vec![0, 0], vec![]];
            let kind = APPLICATION_DATA;
            cut.insert(index, vec![Piece { kind, fields }]);
            index
        }
    };
    let present = cut.pieces[index].fields.get(4)?.len();
    let wanted = match random.below(2) {
        0 => LONGEST + 1,
        _ => random.between(LONGEST + 1, LONGEST + 300),
    };
    let length = (wanted + present).saturating_sub(cut.size());
    cut.pieces[index].fields[4] = random.bytes(length);
    cut.pieces[index].fields[3] = (length as u16).to_be_bytes().to_vec();
    cut.bring_lengths_in_line();
    at_header(4, 2)
}

fn stray_bytes(random: &mut Random, kind: u32) -> Piece {
    let count = random.between(1, 3);
    let bytes = match random.below(3) {
        0 => vec![0; count],
        1 => [0x12, 0, 0][..count].to_vec(),
        _ => random.bytes(count),
    };
    let fields = vec![bytes];
    Piece { kind, fields }
}

pub fn stray_at_the_end(cut: &mut CutToken, random: &mut Random) -> Option<Expected> {
    let stray = stray_bytes(random, 0);
    cut.pieces.push(stray);
    cut.bring_lengths_in_line();
    at_piece(6, cut.pieces.len() - 1)
}

pub fn stray_in_a_section(cut: &mut CutToken, random: &mut Random) -> Option<Expected> {
    let section = cut.any_of(random, &[RULE, INFORMATION])?;
    let index = cut.end_of_section(section);
    let stray = stray_bytes(random, 1);
    cut.insert(index, vec![stray]);
    cut.bring_lengths_in_line();
    at_piece(12, index)
}

/// Puts a copy of a section somewhere; gives the later one of the two.
fn repeat_section(cut: &mut CutToken, random: &mut Random, section: usize, whole: bool) -> usize {
    let end = if whole {
        cut.end_of_section(section)
    } else {
        section + 1
    };
    let copy = cut.pieces[section..end].to_vec();
    let count = copy.len();
    let gap = cut.any_gap(random);
    cut.insert(gap, copy);
    cut.bring_lengths_in_line();
    if gap <= section {
        section + count
    } else {
        gap
    }
}

pub fn section_repeated(cut: &mut CutToken, random: &mut Random) -> Option<Expected> {
    let kinds = [PUBLIC_KEY, NAME, INFORMATION, APPLICATION_DATA];
    let section = cut.any_of(random, &kinds)?;
    let later = repeat_section(cut, random, section, true);
    at_piece(9, later)
}

/// A copy of a rule, whole; or the ID of one rule given to another.
pub fn rule_id_repeated(cut: &mut CutToken, random: &mut Random) -> Option<Expected> {
    let rules = cut.which(|piece| piece.kind == RULE);
    if rules.is_empty() {
        return None;
    }
    let (one, other) = (random.pick(&rules), random.pick(&rules));
    if one == other {
        let later = repeat_section(cut, random, one, true);
        return at_piece(9, later);
    }
    cut.pieces[other].fields[3] = cut.pieces[one].fields[3].clone();
    at_piece(9, one.max(other))
}

pub fn tag_repeated(cut: &mut CutToken, random: &mut Random) -> Option<Expected> {
    let index = any_subsection(cut, random)?;
    let section = cut.section_of(index);
    let copy = cut.pieces[index].clone();
    let place = random.between(section + 1, cut.end_of_section(section));
    cut.insert(place, vec![copy]);
    cut.bring_lengths_in_line();
    let later = if place <= index { index + 1 } else { place };
    at_piece(14, later)
}

fn add_bytes(cut: &mut CutToken, random: &mut Random, index: usize) {
    let count = random.pick(&[1, 2, 4, 8, 20]);
    let bytes = random.bytes(count);
    cut.pieces[index].fields.push(bytes);
    cut.bring_lengths_in_line();
}

pub fn longer_fixed_subsection(cut: &mut CutToken, random: &mut Random) -> Option<Expected> {
    let kinds = [TRANSPORT_RULE, SOURCE_RULE, PROTECTION, DATES];
    let index = cut.any_of(random, &kinds)?;
    add_bytes(cut, random, index);
    at_length(12, index, cut)
}

pub fn longer_section(cut: &mut CutToken, random: &mut Random) -> Option<Expected> {
    let index = cut.any_of(random, &[PUBLIC_KEY, NAME, APPLICATION_DATA])?;
    add_bytes(cut, random, index);
    at_length(15, index, cut)
}

pub fn shorter_name(cut: &mut CutToken, random: &mut Random) -> Option<Expected> {
    let index = cut.any_of(random, &[NAME])?;
    let length = random.pick(&[0, 1, 62, 63]);
    cut.pieces[index].fields.get_mut(3)?.truncate(length);
    cut.bring_lengths_in_line();
    at_length(6, index, cut)
}

pub fn no_information(cut: &mut CutToken, random: &mut Random) -> Option<Expected> {
    let section = cut.any_of(random, &[INFORMATION])?;
    let end = cut.end_of_section(section);
    cut.pieces.drain(section..end);
    cut.bring_lengths_in_line();
    let (number, at) = (20, At::End);
    Some(Expected { number, at })
}

pub fn no_protection(cut: &mut CutToken, random: &mut Random) -> Option<Expected> {
    let index = cut.any_of(random, &[PROTECTION])?;
    let section = cut.section_of(index);
    cut.pieces.remove(index);
    cut.bring_lengths_in_line();
    at_piece(20, section)
}

pub fn no_export_parameters(cut: &mut CutToken, random: &mut Random) -> Option<Expected> {
    let index = cut.any_of(random, &[EXPORT_PARAMETERS])?;
    let section = cut.section_of(index);
    if cut.pieces[section].fields.get(4)? != &[0, 0, 0, 1] {
        return None;
    }
    cut.pieces.remove(index);
    cut.bring_lengths_in_line();
    at_piece(20, section)
}

pub fn header_length(cut: &mut CutToken, random: &mut Random) -> Option<Expected> {
    let right = cut.size();
    let length = match random.below(5) {
        0 => right + 1,
        1 => right - 1,
        2 => random.pick(&[0, 7, 8, SHORTEST, LONGEST, LONGEST + 1, 65535]),
        3 => right ^ (1 << random.below(16)),
        _ => random.below(65536),
    };
    if length == right || length > 65535 {
        return None;
    }
    cut.header[2] = (length as u16).to_be_bytes().to_vec();
    at_header(4, 2)
}

pub fn section_below_least(cut: &mut CutToken, random: &mut Random) -> Option<Expected> {
    let index = any_section(cut, random)?;
    let length = below_least(random, cut.pieces[index].kind)?;
    cut.pieces[index].set_length(length);
    at_length(6, index, cut)
}

/// A length below the least of its kind.
fn below_least(random: &mut Random, kind: u32) -> Option<usize> {
    let least = least_length(kind)?;
    Some(match random.below(3) {
        0 => least - 1,
        1 => random.below(6),
        _ => random.below(least),
    })
}

pub fn section_past_end(cut: &mut CutToken, random: &mut Random) -> Option<Expected> {
    let index = any_section(cut, random)?;
    let left = cut.size() - cut.place_of(index);
    let length = beyond(random, left);
    cut.pieces[index].set_length(length);
    at_length(6, index, cut)
}

/// A length above `left`.
fn beyond(random: &mut Random, left: usize) -> usize {
    match random.below(4) {
        0 => left + 1,
        1 => left + random.between(1, 64),
        2 => 65535,
        _ => random.between(left + 1, 65535),
    }
}

pub fn subsection_below_least(cut: &mut CutToken, random: &mut Random) -> Option<Expected> {
    let index = any_subsection(cut, random)?;
    let length = below_least(random, cut.pieces[index].kind)?;
    cut.pieces[index].set_length(length);
    at_length(12, index, cut)
}

pub fn subsection_past_section(cut: &mut CutToken, random: &mut Random) -> Option<Expected> {
    let index = any_subsection(cut, random)?;
    let section = cut.section_of(index);
    let end = cut.place_of(section) + cut.size_of_section(section);
    let length = beyond(random, end - cut.place_of(index));
    cut.pieces[index].set_length(length);
    at_length(12, index, cut)
}

/// Gives a field another number than it has.
fn another_number(random: &mut Random, field: &mut [u8]) {
    let before = field.to_vec();
    let last = field.len() - 1;
    match random.below(3) {
        0 => field[last] = field[last].wrapping_add(1),
        1 => field[last] = field[last].wrapping_sub(1),
        _ => field.copy_from_slice(&random.bytes(before.len())),
    }
    if field == before {
        field[last] ^= 8;
    }
}

/// x or y of section 11, or x of section 15.
pub fn inner_of_section(cut: &mut CutToken, random: &mut Random) -> Option<Expected> {
    let index = cut.any_of(random, &[PUBLIC_KEY, APPLICATION_DATA])?;
    let number = match cut.pieces[index].kind {
        PUBLIC_KEY => random.pick(&[4, 6]),
        _ => 3,
    };
    another_number(random, cut.pieces[index].fields.get_mut(number)?);
    at_length(15, index, cut)
}

/// n of 0001, c of 0003 or z of 0005; or an x or m whose field would pass the
/// subsection.
pub fn inner_of_subsection(cut: &mut CutToken, random: &mut Random) -> Option<Expected> {
    let kinds = [TRANSPORT_VARIANT, EXPORT_PARAMETERS, TOKEN_PARAMETERS];
    let index = cut.any_of(random, &kinds)?;
    let piece = &mut cut.pieces[index];
    let size = piece.size();
    let (last_count, first_count, least_past) = match piece.kind {
        TRANSPORT_VARIANT => (4, 4, 256),
        EXPORT_PARAMETERS => (9, 7, size.saturating_sub(11)),
        _ => (8, 5, size.saturating_sub(9).div_ceil(2)),
    };
    if least_past <= 255 && random.coin() {
        let past = match random.below(3) {
            0 => least_past,
            _ => random.between(least_past, 255),
        };
        *piece.fields.get_mut(first_count)? = vec![past as u8];
    } else {
        another_number(random, piece.fields.get_mut(last_count)?);
    }
    at_length(12, index, cut)
}
