//! Sections 12 with their subsections.

use super::signs::{is_label_template, is_rule_id, wrong_in_label, wrong_in_rule_id};
use super::{refuse, subsection_frame, Judged, Progress, LENGTH};

/// Slots for Rule IDs; the longest token holds 174 rules at most.
const SLOTS: usize = 512;

/// Rule IDs met so far as big-endian numbers, by open addressing. No Rule ID
/// is 0, so 0 marks a free slot.
pub struct RuleIds {
    slots: [u64; SLOTS],
}

impl RuleIds {
    #[inline]
    pub fn new() -> RuleIds {
        RuleIds { slots: [0; SLOTS] }
    }

    /// Adds an ID; false if it was there.
    #[inline]
    fn add(&mut self, rule_id: u64) -> bool {
        let mut slot = (rule_id.wrapping_mul(0x9E37_79B9_7F4A_7C15) >> 55) as usize;
        loop {
            match self.slots[slot] {
                0 => {
                    self.slots[slot] = rule_id;
                    return true;
                }
                met if met == rule_id => return false,
                _ => slot = (slot + 1) % SLOTS,
            }
        }
    }
}

/// Whether the byte is 8, 16 or 24.
#[inline]
fn is_key_length(length: u8) -> bool {
    matches!(length, 8 | 16 | 24)
}

/// A rule, whose length is at least 20.
#[inline]
pub fn rule<const ALL: bool>(
    section: &[u8],
    place: usize,
    rule_ids: &mut RuleIds,
    progress: &mut Progress,
) -> Judged<()> {
    let Some((fixed, subsections)) = section.split_first_chunk::<20>() else {
        return refuse(6, place + LENGTH);
    };
    let [_, _, _, _, a, b, c, d, e, f, g, h, ..] = *fixed;
    let [.., f0, f1, f2, flags, generated, check, symmetric, asymmetric] = *fixed;
    let rule_id = [a, b, c, d, e, f, g, h];
    if !is_rule_id(rule_id) {
        return refuse(17, place + 4 + wrong_in_rule_id(rule_id));
    }
    let right = f0 | f1 | f2 == 0
        && flags <= 1
        && (flags == 1 || is_key_length(generated))
        && check <= 2
        && symmetric == flags
        && asymmetric <= 2;
    if !right {
        return refuse(11, place + wrong_value(fixed));
    }
    if !rule_ids.add(u64::from_be_bytes(rule_id)) {
        return refuse(9, place);
    }
    progress.rows += 1;
    if !ALL {
        progress.last = place as u32;
    }
    if subsections.is_empty() && flags == 0 {
        return Ok(());
    }
    rule_subsections::<ALL>(subsections, place, flags == 1, progress)
}

/// Where the first field of a rule stands that has a value not allowed.
#[cold]
fn wrong_value(fixed: &[u8; 20]) -> usize {
    let [.., f0, f1, f2, flags, generated, check, symmetric, _] = *fixed;
    if f0 | f1 | f2 != 0 || flags > 1 {
        12
    } else if flags == 0 && !is_key_length(generated) {
        16
    } else if check > 2 {
        17
    } else if symmetric != flags {
        18
    } else {
        19
    }
}

/// The subsections of the rule at `rule_place`, its own tests after them.
#[inline(always)]
fn rule_subsections<const ALL: bool>(
    subsections: &[u8],
    rule_place: usize,
    export: bool,
    progress: &mut Progress,
) -> Judged<()> {
    const LEAST: [u8; 5] = [8, 14, 12, 14, 10];
    let (mut minimum, mut mask, mut mask_place) = (0, 0, 0);
    let (mut met, mut rest, mut place) = (0u8, subsections, rule_place + 20);
    while !rest.is_empty() {
        let (tag, length) = subsection_frame(rest, place, &LEAST, &mut met)?;
        let (subsection, after) = rest.split_at(length);
        match tag {
            0x0001 => transport_variant(subsection, place)?,
            0x0003 => minimum = export_parameters(subsection, place)?,
            0x0005 => {
                mask = token_parameters(subsection, place)?;
                mask_place = place;
            }
            _ => rule_reference(subsection, place)?,
        }
        progress.rows += 1;
        rest = after;
        place += length;
    }
    // Without a 0003 the minimum is 0, without a 0005 the mask is.
    if mask != 0 && mask < minimum {
        return refuse(18, mask_place + 8);
    }
    if ALL && export && minimum == 0 {
        return refuse(20, rule_place);
    }
    Ok(())
}

#[inline(always)]
fn transport_variant(subsection: &[u8], place: usize) -> Judged<()> {
    if subsection.len() != 8 + usize::from(subsection[7]) {
        return refuse(12, place + LENGTH);
    }
    if subsection[5] | subsection[6] != 0 {
        return refuse(10, place + 5);
    }
    Ok(())
}

#[inline(always)]
fn rule_reference(subsection: &[u8], place: usize) -> Judged<()> {
    let Ok([_, _, _, _, _, reserved, rule_id @ ..]) = <[u8; 14]>::try_from(subsection) else {
        return refuse(12, place + LENGTH);
    };
    if reserved != 0 {
        return refuse(10, place + 5);
    }
    if !is_rule_id(rule_id) {
        return refuse(17, place + 6 + wrong_in_rule_id(rule_id));
    }
    Ok(())
}

/// Gives the minimum.
#[inline(always)]
fn export_parameters(subsection: &[u8], place: usize) -> Judged<u8> {
    let variant = usize::from(subsection[10]);
    let cv = match subsection.get(11 + variant) {
        Some(cv) if subsection.len() == 12 + variant + usize::from(*cv) => *cv,
        _ => return refuse(12, place + LENGTH),
    };
    if subsection[5] | subsection[6] != 0 {
        return refuse(10, place + 5);
    }
    if subsection[7] != 0 {
        return refuse(11, place + 7);
    }
    let (minimum, maximum) = (subsection[8], subsection[9]);
    let right = is_key_length(minimum)
        && is_key_length(maximum)
        && minimum <= maximum
        && (variant == 0 || variant >= usize::from(maximum))
        && matches!(cv, 0 | 8 | 16);
    if !right {
        return refuse(18, place + wrong_length(minimum, maximum, variant));
    }
    Ok(minimum)
}

/// Where the first field of a 0003 stands that breaks a rule on lengths.
#[cold]
fn wrong_length(minimum: u8, maximum: u8, variant: usize) -> usize {
    if !is_key_length(minimum) {
        8
    } else if !is_key_length(maximum) || minimum > maximum {
        9
    } else if variant != 0 && variant < usize::from(maximum) {
        10
    } else {
        11 + variant
    }
}

/// Gives the mask's length.
#[inline(always)]
fn token_parameters(subsection: &[u8], place: usize) -> Judged<u8> {
    let mask = subsection[8];
    let masks = 2 * usize::from(mask);
    let label = match subsection.get(9 + masks) {
        Some(label) if subsection.len() == 10 + masks + usize::from(*label) => *label,
        _ => return refuse(12, place + LENGTH),
    };
    if subsection[5] | subsection[6] != 0 {
        return refuse(10, place + 5);
    }
    if subsection[7] != 0 {
        return refuse(11, place + 7);
    }
    if !matches!(mask, 0 | 8 | 16) || !matches!(label, 0 | 64) {
        let mask_right = matches!(mask, 0 | 8 | 16);
        return refuse(18, place + if mask_right { 9 + masks } else { 8 });
    }
    let label_place = 10 + masks;
    if label == 64 && !is_label_template(&subsection[label_place..]) {
        let wrong = wrong_in_label(&subsection[label_place..]);
        return refuse(17, place + label_place + wrong);
    }
    Ok(mask)
}
