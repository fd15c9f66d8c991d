//! Single faults in the public key, the lengths of 0003 and 0005, and dates.
//! Lengths are brought in line after each.

use super::cut::{CutToken, Expected};
use super::faults::at_field;
use super::values::{self, with_leading_zeros};
use crate::forms::date_exists;
use crate::kinds::{DATES, EXPORT_PARAMETERS, PUBLIC_KEY, TOKEN_PARAMETERS};
use crate::random::Random;
use crate::reader::number;

// Field numbers of section 11.
const X: usize = 4;
const BITS: usize = 5;
const Y: usize = 6;
const EXPONENT: usize = 7;
const MODULUS: usize = 8;

fn two_bytes(length: usize) -> Vec<u8> {
    (length as u16).to_be_bytes().to_vec()
}

/// Changes the exponent and the modulus, brings their lengths in line, and
/// expects a broken public key rule at a field; at x, which is tested first,
/// where the exponent has got too long.
fn change_key(
    cut: &mut CutToken,
    random: &mut Random,
    field: usize,
    change: impl FnOnce(&mut Vec<u8>, &mut Vec<u8>, &mut Random),
) -> Option<Expected> {
    let index = cut.any_of(random, &[PUBLIC_KEY])?;
    let fields = &mut cut.pieces[index].fields;
    let (mut exponent, mut modulus) = (fields[EXPONENT].clone(), fields[MODULUS].clone());
    if exponent.is_empty() || modulus.len() < 64 {
        return None;
    }
    change(&mut exponent, &mut modulus, random);
    let field = if exponent.len() > 512 { X } else { field };
    fields[X] = two_bytes(exponent.len());
    fields[Y] = two_bytes(modulus.len());
    fields[EXPONENT] = exponent;
    fields[MODULUS] = modulus;
    cut.bring_lengths_in_line();
    at_field(16, index, field)
}

pub fn exponent_length(cut: &mut CutToken, random: &mut Random) -> Option<Expected> {
    change_key(cut, random, X, |exponent, _, random| {
        *exponent = match random.below(3) {
            0 => vec![],
            1 => with_leading_zeros(exponent, 513),
            _ => with_leading_zeros(exponent, random.between(513, 800)),
        };
    })
}

/// Bits out of range, or bits that the modulus doesn't have.
pub fn modulus_bits(cut: &mut CutToken, random: &mut Random) -> Option<Expected> {
    let index = cut.any_of(random, &[PUBLIC_KEY])?;
    let bits = number(&cut.pieces[index].fields[BITS]);
    let other = match random.below(5) {
        0 => random.pick(&[0, 1, 64, 504, 511, 4097, 4104, 8192, 65535]),
        1 => bits + 1,
        2 => bits.saturating_sub(1),
        3 => bits + 8,
        _ => random.below(65536),
    };
    if other == bits || other > 65535 {
        return None;
    }
    let length = cut.pieces[index].fields[MODULUS].len();
    cut.pieces[index].fields[BITS] = two_bytes(other);
    let field = if !(512..=4096).contains(&other) {
        BITS
    } else if other.div_ceil(8) != length {
        Y
    } else {
        MODULUS
    };
    at_field(16, index, field)
}

/// One byte more or fewer than the bits need.
pub fn modulus_length(cut: &mut CutToken, random: &mut Random) -> Option<Expected> {
    change_key(cut, random, Y, |_, modulus, random| match random.below(3) {
        0 => modulus.insert(0, 0),
        1 => drop(modulus.pop()),
        _ => drop(modulus.remove(0)),
    })
}

/// The highest bit cleared, or one above it set where there is room.
pub fn significant_bits(cut: &mut CutToken, random: &mut Random) -> Option<Expected> {
    change_key(cut, random, MODULUS, |_, modulus, random| {
        let free = modulus[0].leading_zeros();
        if free > 0 && free < 8 && random.coin() {
            modulus[0] |= 0x80 >> random.below(free as usize);
        } else {
            modulus[0] &= !(0x80u8.checked_shr(free).unwrap_or(0));
        }
    })
}

pub fn even_modulus(cut: &mut CutToken, random: &mut Random) -> Option<Expected> {
    change_key(cut, random, MODULUS, |_, modulus, _| {
        let last = modulus.len() - 1;
        modulus[last] &= 0xFE;
    })
}

pub fn even_exponent(cut: &mut CutToken, random: &mut Random) -> Option<Expected> {
    change_key(cut, random, EXPONENT, |exponent, _, random| {
        let last = exponent.len() - 1;
        if random.once_in(4) {
            *exponent = random.pick::<&[u8]>(&[&[2], &[0], &[0, 0]]).to_vec();
        } else {
            exponent[last] &= 0xFE;
        }
    })
}

/// The modulus itself, or an odd number above it.
pub fn exponent_too_large(cut: &mut CutToken, random: &mut Random) -> Option<Expected> {
    change_key(cut, random, EXPONENT, |exponent, modulus, random| {
        *exponent = modulus.clone();
        match random.below(4) {
            0 => {}
            1 => exponent.insert(0, 1),
            2 => *exponent = with_leading_zeros(modulus, modulus.len() + random.below(9)),
            _ => {
                // Some bit that is clear is set: the number grows.
                let place = random.below(exponent.len());
                exponent[place] = 0xFF;
            }
        }
    })
}

/// A byte other than 8, 16 and 24.
fn no_key_length(random: &mut Random) -> u8 {
    loop {
        let length = random.pick_or_any(&[0, 1, 7, 9, 15, 17, 23, 25, 32, 255]);
        if ![8, 16, 24].contains(&length) {
            return length;
        }
    }
}

pub fn minimum(cut: &mut CutToken, random: &mut Random) -> Option<Expected> {
    let index = cut.any_of(random, &[EXPORT_PARAMETERS])?;
    *cut.pieces[index].fields.get_mut(5)? = vec![no_key_length(random)];
    at_field(18, index, 5)
}

pub fn maximum(cut: &mut CutToken, random: &mut Random) -> Option<Expected> {
    let index = cut.any_of(random, &[EXPORT_PARAMETERS])?;
    *cut.pieces[index].fields.get_mut(6)? = vec![no_key_length(random)];
    at_field(18, index, 6)
}

pub fn minimum_above_maximum(cut: &mut CutToken, random: &mut Random) -> Option<Expected> {
    let index = cut.any_of(random, &[EXPORT_PARAMETERS])?;
    let (minimum, maximum) = random.pick(&[(16, 8), (24, 8), (24, 16)]);
    let fields = &mut cut.pieces[index].fields;
    fields[5] = vec![minimum];
    fields[6] = vec![maximum];
    at_field(18, index, 6)
}

/// Gives a counted field and its count other bytes, lengths in line.
fn set_counted(cut: &mut CutToken, index: usize, count: usize, field: usize, bytes: Vec<u8>) {
    let fields = &mut cut.pieces[index].fields;
    fields[count] = vec![bytes.len() as u8];
    fields[field] = bytes;
    cut.bring_lengths_in_line();
}

pub fn variant_length(cut: &mut CutToken, random: &mut Random) -> Option<Expected> {
    let index = cut.any_of(random, &[EXPORT_PARAMETERS])?;
    let length = random.between(1, 7);
    set_counted(cut, index, 7, 8, random.bytes(length));
    at_field(18, index, 7)
}

pub fn variant_below_maximum(cut: &mut CutToken, random: &mut Random) -> Option<Expected> {
    let index = cut.any_of(random, &[EXPORT_PARAMETERS])?;
    let maximum = random.pick(&[16, 24]);
    cut.pieces[index].fields[5] = vec![8];
    cut.pieces[index].fields[6] = vec![maximum];
    let length = random.pick(&[8, usize::from(maximum) - 1]);
    set_counted(cut, index, 7, 8, random.bytes(length));
    at_field(18, index, 7)
}

pub fn cv_length(cut: &mut CutToken, random: &mut Random) -> Option<Expected> {
    let index = cut.any_of(random, &[EXPORT_PARAMETERS])?;
    let length = random.pick(&[1, 7, 9, 15, 17, 24, 255]);
    set_counted(cut, index, 9, 10, random.bytes(length));
    at_field(18, index, 9)
}

fn set_mask(cut: &mut CutToken, random: &mut Random, index: usize, length: usize) {
    cut.pieces[index].fields[7] = random.bytes(length);
    set_counted(cut, index, 5, 6, random.bytes(length));
}

pub fn mask_length(cut: &mut CutToken, random: &mut Random) -> Option<Expected> {
    let index = cut.any_of(random, &[TOKEN_PARAMETERS])?;
    let length = random.pick(&[1, 4, 7, 9, 15, 17, 24, 255]);
    set_mask(cut, random, index, length);
    at_field(18, index, 5)
}

/// The rule gets a 0003 whose minimum is above the mask of its 0005.
pub fn mask_below_minimum(cut: &mut CutToken, random: &mut Random) -> Option<Expected> {
    let limits = cut.any_of(random, &[TOKEN_PARAMETERS])?;
    let section = cut.section_of(limits);
    let export = cut.find_in_section(section, EXPORT_PARAMETERS)?;
    let (mask, minimum) = random.pick(&[(8, 16), (8, 24), (16, 24)]);
    let variant = random.pick(&[0, 24, 255]);
    cut.pieces[export].fields[5] = vec![minimum];
    cut.pieces[export].fields[6] = vec![24];
    set_counted(cut, export, 7, 8, random.bytes(variant));
    set_mask(cut, random, limits, mask);
    at_field(18, limits, 5)
}

pub fn label_length(cut: &mut CutToken, random: &mut Random) -> Option<Expected> {
    let index = cut.any_of(random, &[TOKEN_PARAMETERS])?;
    let length = random.pick(&[1, 8, 10, 63, 65, 255]);
    let bytes = if random.coin() {
        vec![b'A'; length]
    } else {
        random.bytes(length)
    };
    set_counted(cut, index, 8, 9, bytes);
    at_field(18, index, 8)
}

/// Flags 0 become 1, so that the dates are judged; other flags stay.
fn judge_dates(cut: &mut CutToken, index: usize) -> Option<()> {
    let flags = cut.pieces[index].fields.get_mut(4)?;
    if *flags == [0, 0] {
        *flags = vec![0, 1];
    }
    Some(())
}

/// At the first of the two that is no date: where nobody judged them before,
/// the activation may be any bytes.
pub fn no_such_date(cut: &mut CutToken, random: &mut Random) -> Option<Expected> {
    let index = cut.any_of(random, &[DATES])?;
    judge_dates(cut, index)?;
    let field = random.pick(&[5, 6]);
    *cut.pieces[index].fields.get_mut(field)? = values::bad_date(random);
    let first = date_exists(cut.pieces[index].fields.get(5)?);
    at_field(19, index, if first { 6 } else { 5 })
}

pub fn dates_out_of_order(cut: &mut CutToken, random: &mut Random) -> Option<Expected> {
    let index = cut.any_of(random, &[DATES])?;
    let (first, second) = values::two_dates(random);
    if first == second {
        return None;
    }
    judge_dates(cut, index)?;
    cut.pieces[index].fields[5] = second;
    cut.pieces[index].fields[6] = first;
    at_field(19, index, 6)
}
