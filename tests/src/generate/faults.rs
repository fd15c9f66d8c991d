//! The list of single faults, and those in headers, versions, reserved
//! fields and flags. Alone in a legal token each gives the answer it states.

use super::cut::{At, CutToken, Expected, Piece};
use super::{field_faults as field, form_faults as form, part_faults as part};
use crate::kinds::{
    ALL, DATES, EXPORT_PARAMETERS, EXTERNAL, INFORMATION, INTERNAL, PROTECTION, PUBLIC_KEY, RULE,
    SOURCE_RULE, TOKEN_PARAMETERS, TRANSPORT_RULE,
};
use crate::random::Random;

/// Changes the token; None, with nothing changed, where it can't be done.
pub type Apply = fn(&mut CutToken, &mut Random) -> Option<Expected>;

pub struct Fault {
    pub name: &'static str,
    pub apply: Apply,
}

const fn fault(name: &'static str, apply: Apply) -> Fault {
    Fault { name, apply }
}

/// Faults in what the fields hold; lengths stay in line.
pub const CONTENT: &[Fault] = &[
    fault("header id", header_id),
    fault("header version", header_version),
    fault("header reserved", header_reserved),
    fault("section id", section_id),
    fault("tag", tag),
    fault("version", version),
    fault("reserved", reserved),
    fault("public key flags", public_key_flags),
    fault("rule flags", rule_flags),
    fault("generated length", generated_length),
    fault("key check", key_check),
    fault("symmetric format", symmetric_format),
    fault("asymmetric format", asymmetric_format),
    fault("flags of 0003 and 0005", parameter_flags),
    fault("information flags", information_flags),
    fault("dates flags", dates_flags),
    fault("mkvp", mkvp),
    fault("exponent length", field::exponent_length),
    fault("modulus bits", field::modulus_bits),
    fault("modulus length", field::modulus_length),
    fault("significant bits", field::significant_bits),
    fault("even modulus", field::even_modulus),
    fault("even exponent", field::even_exponent),
    fault("exponent too large", field::exponent_too_large),
    fault("rule id form", form::rule_id_form),
    fault("label template form", form::label_form),
    fault("minimum", field::minimum),
    fault("maximum", field::maximum),
    fault("minimum above maximum", field::minimum_above_maximum),
    fault("variant length", field::variant_length),
    fault("variant below maximum", field::variant_below_maximum),
    fault("cv length", field::cv_length),
    fault("mask length", field::mask_length),
    fault("mask below minimum", field::mask_below_minimum),
    fault("label template length", field::label_length),
    fault("no such date", field::no_such_date),
    fault("dates out of order", field::dates_out_of_order),
    fault("over 3,500 bytes", part::over_long),
    fault("stray bytes at the end", part::stray_at_the_end),
    fault("stray bytes in a section", part::stray_in_a_section),
    fault("section repeated", part::section_repeated),
    fault("rule id repeated", part::rule_id_repeated),
    fault("tag repeated", part::tag_repeated),
    fault("longer fixed subsection", part::longer_fixed_subsection),
    fault("longer section", part::longer_section),
    fault("shorter name", part::shorter_name),
    fault("no section 14", part::no_information),
    fault("no 0001 in 14", part::no_protection),
    fault("no 0003 in an export rule", part::no_export_parameters),
];

/// Faults that leave lengths out of line.
pub const LENGTHS: &[Fault] = &[
    fault("header length", part::header_length),
    fault("section below its least", part::section_below_least),
    fault("section past the end", part::section_past_end),
    fault("subsection below its least", part::subsection_below_least),
    fault("subsection past its section", part::subsection_past_section),
    fault("inner length of a section", part::inner_of_section),
    fault("inner length of a subsection", part::inner_of_subsection),
];

/// At a field of the header.
pub fn at_header(number: u32, field: usize) -> Option<Expected> {
    let at = At::Header(field);
    Some(Expected { number, at })
}

/// At the start of a piece.
pub fn at_piece(number: u32, index: usize) -> Option<Expected> {
    let at = At::Piece(index);
    Some(Expected { number, at })
}

/// At the first byte of a field of a piece.
pub fn at_field(number: u32, index: usize, field: usize) -> Option<Expected> {
    let at = At::Field(index, field, 0);
    Some(Expected { number, at })
}

/// At a piece's own length.
pub fn at_length(number: u32, index: usize, cut: &CutToken) -> Option<Expected> {
    at_field(number, index, cut.pieces[index].length_field())
}

/// Gives a field of any piece of these kinds other bytes of the same length.
fn set(
    cut: &mut CutToken,
    random: &mut Random,
    kinds: &[u32],
    field: usize,
    bytes: Vec<u8>,
    number: u32,
) -> Option<Expected> {
    let index = cut.any_of(random, kinds)?;
    *cut.pieces[index].fields.get_mut(field)? = bytes;
    at_field(number, index, field)
}

fn header_id(cut: &mut CutToken, random: &mut Random) -> Option<Expected> {
    let id = random.pick_or_any(&[0x00, 0x1D, 0x20, 0x11, 0x9E, 0xFF]);
    if id == EXTERNAL || id == INTERNAL {
        return None;
    }
    cut.header[0] = vec![id];
    at_header(2, 0)
}

fn header_version(cut: &mut CutToken, random: &mut Random) -> Option<Expected> {
    cut.header[1] = vec![random.nonzero_byte()];
    at_header(3, 1)
}

fn header_reserved(cut: &mut CutToken, random: &mut Random) -> Option<Expected> {
    cut.header[3] = random.nonzero_bytes(4);
    at_header(5, 3)
}

fn section_id(cut: &mut CutToken, random: &mut Random) -> Option<Expected> {
    let id = random.pick_or_any(&[0x00, 0x10, 0x16, 0x1E, 0xFF]);
    if (0x11..=0x15).contains(&id) {
        return None;
    }
    let index = any_section(cut, random)?;
    *cut.pieces[index].fields.get_mut(0)? = vec![id];
    at_piece(7, index)
}

fn tag(cut: &mut CutToken, random: &mut Random) -> Option<Expected> {
    let index = any_subsection(cut, random)?;
    let known = if cut.pieces[index].kind / 0x1_0000 == 0x12 {
        0x0005
    } else {
        0x0002
    };
    let tag = match random.below(4) {
        0 => 0x0000,
        1 => known + 1,
        2 => random.between(known + 1, 0xFFFF),
        _ => 0x0100,
    };
    cut.pieces[index].fields[0] = (tag as u16).to_be_bytes().to_vec();
    at_piece(13, index)
}

/// Any subsection that is no stray bytes.
pub fn any_subsection(cut: &CutToken, random: &mut Random) -> Option<usize> {
    let found = cut.which(|piece| ALL.contains(&piece.kind) && !piece.is_section());
    (!found.is_empty()).then(|| random.pick(&found))
}

/// Any section that is no stray bytes.
pub fn any_section(cut: &CutToken, random: &mut Random) -> Option<usize> {
    let found = cut.which(|piece| ALL.contains(&piece.kind) && piece.is_section());
    (!found.is_empty()).then(|| random.pick(&found))
}

fn version(cut: &mut CutToken, random: &mut Random) -> Option<Expected> {
    let index = cut.any_of(random, &ALL)?;
    let field = if cut.pieces[index].is_section() { 1 } else { 2 };
    *cut.pieces[index].fields.get_mut(field)? = vec![random.nonzero_byte()];
    at_field(8, index, field)
}

fn reserved(cut: &mut CutToken, random: &mut Random) -> Option<Expected> {
    let has_reserved =
        |piece: &Piece| !piece.is_section() || [PUBLIC_KEY, INFORMATION].contains(&piece.kind);
    let found = cut.which(|piece| ALL.contains(&piece.kind) && has_reserved(piece));
    if found.is_empty() {
        return None;
    }
    let index = random.pick(&found);
    let length = match cut.pieces[index].kind {
        TRANSPORT_RULE | SOURCE_RULE | PROTECTION | DATES => 1,
        _ => 2,
    };
    *cut.pieces[index].fields.get_mut(3)? = random.nonzero_bytes(length);
    at_field(10, index, 3)
}

/// Four bytes of flags other than 0 and 1.
fn other_flags(random: &mut Random) -> Vec<u8> {
    let flags = match random.below(3) {
        0 => 2,
        1 => random.pick(&[0x0100, 0x0001_0000, 0x0100_0000, 0x8000_0000, 0x8000_0001]),
        _ => 2 + random.number() as u32 % 0xFFFF_FFF0,
    };
    flags.to_be_bytes().to_vec()
}

fn public_key_flags(cut: &mut CutToken, random: &mut Random) -> Option<Expected> {
    let flags: u32 = random.pick(&[
        1,
        0x4000_0000,
        0x8000_0001,
        0xC000_0001,
        0xE000_0000,
        0x0080_0000,
        0x00C0_0000,
        0xFFFF_FFFF,
    ]);
    set(
        cut,
        random,
        &[PUBLIC_KEY],
        9,
        flags.to_be_bytes().to_vec(),
        11,
    )
}

fn rule_flags(cut: &mut CutToken, random: &mut Random) -> Option<Expected> {
    let flags = other_flags(random);
    set(cut, random, &[RULE], 4, flags, 11)
}

fn generated_length(cut: &mut CutToken, random: &mut Random) -> Option<Expected> {
    let generates = |piece: &Piece| piece.kind == RULE && piece.fields[4] == [0; 4];
    let found = cut.which(generates);
    let length = random.pick_or_any(&[0, 1, 7, 9, 15, 17, 23, 25, 32, 255]);
    if found.is_empty() || [8, 16, 24].contains(&length) {
        return None;
    }
    let index = random.pick(&found);
    cut.pieces[index].fields[5] = vec![length];
    at_field(11, index, 5)
}

fn key_check(cut: &mut CutToken, random: &mut Random) -> Option<Expected> {
    let value = random.pick_or_any(&[3, 4, 8, 16, 255]).max(3);
    set(cut, random, &[RULE], 6, vec![value], 11)
}

fn symmetric_format(cut: &mut CutToken, random: &mut Random) -> Option<Expected> {
    let index = cut.any_of(random, &[RULE])?;
    let right = cut.pieces[index].fields[4][3];
    let value = random.pick(&[1 - right.min(1), 2, 3, 255]);
    cut.pieces[index].fields[7] = vec![value];
    at_field(11, index, 7)
}

fn asymmetric_format(cut: &mut CutToken, random: &mut Random) -> Option<Expected> {
    let value = random.pick_or_any(&[3, 4, 255]).max(3);
    set(cut, random, &[RULE], 8, vec![value], 11)
}

fn parameter_flags(cut: &mut CutToken, random: &mut Random) -> Option<Expected> {
    let flags = random.pick_or_any(&[1, 2, 128]).max(1);
    let kinds = [EXPORT_PARAMETERS, TOKEN_PARAMETERS];
    set(cut, random, &kinds, 4, vec![flags], 11)
}

fn information_flags(cut: &mut CutToken, random: &mut Random) -> Option<Expected> {
    let flags = other_flags(random);
    set(cut, random, &[INFORMATION], 4, flags, 11)
}

fn dates_flags(cut: &mut CutToken, random: &mut Random) -> Option<Expected> {
    let flags: u16 = random.pick(&[2, 3, 0x0100, 0x0101, 0x8000, 0xFFFF]);
    set(cut, random, &[DATES], 4, flags.to_be_bytes().to_vec(), 11)
}

fn mkvp(cut: &mut CutToken, random: &mut Random) -> Option<Expected> {
    let bytes = random.nonzero_bytes(16);
    let expected = set(cut, random, &[PROTECTION], 6, bytes, 21)?;
    cut.header[0] = vec![EXTERNAL];
    Some(expected)
}
