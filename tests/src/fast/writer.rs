//! An optimised writer. An addition reads twice: the draft, then the longer
//! draft, which is made in place and undone where it is refused.

use super::{fast_read, judge, two, DRAFT, LONGEST};
use crate::kinds::owner_of;
use crate::parts::Part;
use crate::reader::Answer;

/// Adds a part at the draft's end; a subsection joins the last section.
pub fn fast_add(draft: &mut [u8], part: &Part) -> Answer {
    let last = match judge::<DRAFT>(draft) {
        Ok(last) => last as usize,
        Err(refusal) => return refusal,
    };
    let length = two(draft, 2);
    if !part.fields_fit() {
        return Answer::new(24, length);
    }
    let last_kind = u32::from(draft[last]) << 16;
    if !part.is_section() && (last == 0 || last_kind != owner_of(part.kind())) {
        return Answer::new(25, length);
    }
    let longer = length + part.size();
    if longer > LONGEST || longer > draft.len() {
        return Answer::new(23, length);
    }
    let joined = if part.is_section() { length } else { last };
    let kept = draft[length..longer].to_vec();
    write(part, &mut draft[length..longer]);
    set_two(draft, 2, longer);
    set_two(draft, joined + 2, longer - joined);
    if let Err(refusal) = judge::<DRAFT>(draft) {
        set_two(draft, joined + 2, length - joined);
        set_two(draft, 2, length);
        draft[length..longer].copy_from_slice(&kept);
        return refusal;
    }
    Answer::new(0, longer)
}

/// The draft's own fault, else the reading's 20, else the length.
pub fn fast_finish(draft: &[u8]) -> Answer {
    if let Err(refusal) = judge::<DRAFT>(draft) {
        return refusal;
    }
    let length = two(draft, 2);
    match fast_read(&draft[..length]) {
        Answer { number: 0, .. } => Answer::new(0, length),
        refusal => refusal,
    }
}

#[inline]
fn set_two(bytes: &mut [u8], place: usize, value: usize) {
    bytes[place..place + 2].copy_from_slice(&(value as u16).to_be_bytes());
}

/// The fields one after another, which fill `bytes`.
#[inline]
fn put(bytes: &mut [u8], fields: &[&[u8]]) {
    let mut rest = bytes;
    for field in fields {
        let (place, behind) = rest.split_at_mut(field.len());
        place.copy_from_slice(field);
        rest = behind;
    }
}

/// Writes the part's own bytes. Its fields fit, and `bytes` is of its size.
fn write(part: &Part, bytes: &mut [u8]) {
    let size = (bytes.len() as u16).to_be_bytes();
    if part.is_section() {
        let id = (part.kind() >> 16) as u8;
        write_section(part, bytes, &[id, 0, size[0], size[1]]);
    } else {
        let tag = part.kind() as u8;
        write_subsection(part, bytes, &[0, tag, size[0], size[1], 0]);
    }
}

fn two_bytes(field: &[u8]) -> [u8; 2] {
    (field.len() as u16).to_be_bytes()
}

fn one_byte(field: &[u8]) -> u8 {
    field.len() as u8
}

fn write_section(part: &Part, bytes: &mut [u8], first: &[u8]) {
    match part {
        Part::PublicKey {
            modulus_bits,
            exponent,
            modulus,
            flags,
        } => {
            let (x, y) = (two_bytes(exponent), two_bytes(modulus));
            let (bits, flags) = (modulus_bits.to_be_bytes(), flags.to_be_bytes());
            let fields: [&[u8]; 8] = [first, &[0, 0], &x, &bits, &y, exponent, modulus, &flags];
            put(bytes, &fields);
        }
        Part::Rule {
            rule_id,
            flags,
            generated_length,
            key_check,
            symmetric_format,
            asymmetric_format,
        } => {
            let formats = [*symmetric_format, *asymmetric_format];
            let lengths = [*generated_length, *key_check];
            let flags = flags.to_be_bytes();
            put(bytes, &[first, rule_id, &flags, &lengths, &formats]);
        }
        Part::Name { name } => put(bytes, &[first, name]),
        Part::Information { flags } => put(bytes, &[first, &[0, 0], &flags.to_be_bytes()]),
        Part::ApplicationData { data } => put(bytes, &[first, &two_bytes(data), data]),
        _ => unreachable!("asked of sections only"),
    }
}

fn write_subsection(part: &Part, bytes: &mut [u8], first: &[u8]) {
    match part {
        Part::TransportVariant { variant } => {
            put(bytes, &[first, &[0, 0, one_byte(variant)], variant]);
        }
        Part::TransportRule { rule_id } | Part::SourceRule { rule_id } => {
            put(bytes, &[first, &[0], rule_id]);
        }
        Part::ExportParameters {
            minimum,
            maximum,
            variant,
            cv,
        } => {
            let fixed = [0, 0, 0, *minimum, *maximum, one_byte(variant)];
            put(bytes, &[first, &fixed, variant, &[one_byte(cv)], cv]);
        }
        Part::TokenParameters {
            mask,
            template,
            label_template: label,
        } => {
            let fixed = [0, 0, 0, one_byte(mask)];
            let z = [one_byte(label)];
            put(bytes, &[first, &fixed, mask, template, &z, label]);
        }
        Part::Protection { mac_key, mac, mkvp } => put(bytes, &[first, &[0], mac_key, mac, mkvp]),
        Part::Dates {
            flags,
            activation,
            expiration,
        } => {
            let flags = flags.to_be_bytes();
            put(bytes, &[first, &[0], &flags, activation, expiration]);
        }
        _ => unreachable!("asked of subsections only"),
    }
}
