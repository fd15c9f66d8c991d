//! The public key, and section 14 with its subsections.

use super::{refuse, subsection_frame, two, Judged, Progress, LENGTH};

#[inline(always)]
pub fn public_key(section: &[u8], place: usize) -> Judged<()> {
    let (x, bits, y) = (two(section, 6), two(section, 8), two(section, 10));
    if section.len() != 16 + x + y {
        return refuse(15, place + LENGTH);
    }
    if section[4] | section[5] != 0 {
        return refuse(10, place + 4);
    }
    let sizes_right =
        x.wrapping_sub(1) < 512 && (512..=4096).contains(&bits) && y == bits.div_ceil(8);
    if !sizes_right {
        return refuse(16, place + wrong_size(x, bits));
    }
    let (exponent, rest) = section[12..].split_at(x);
    let (modulus, flags) = rest.split_at(y);
    let unused = (8 * y - bits) as u32;
    let odd = modulus[y - 1] & exponent[x - 1] & 1 == 1;
    if modulus[0].leading_zeros() != unused || !odd || !is_below(exponent, modulus) {
        let modulus_right = modulus[0].leading_zeros() == unused && modulus[y - 1] & 1 == 1;
        return refuse(16, place + if modulus_right { 12 } else { 12 + x });
    }
    if !matches!(flags, [0 | 0x80 | 0xC0, 0, 0, 0]) {
        return refuse(11, place + 12 + x + y);
    }
    Ok(())
}

/// Where x, the modulus bits or y stand, the first of them that is wrong.
#[cold]
fn wrong_size(x: usize, bits: usize) -> usize {
    if !(1..=512).contains(&x) {
        6
    } else if !(512..=4096).contains(&bits) {
        8
    } else {
        10
    }
}

/// Whether the exponent is less than a modulus whose first byte is not 0.
fn is_below(exponent: &[u8], modulus: &[u8]) -> bool {
    match exponent.len().checked_sub(modulus.len()) {
        None => true,
        Some(more) => {
            let (leading, low) = exponent.split_at(more);
            leading.iter().all(|byte| *byte == 0) && low < modulus
        }
    }
}

#[inline]
pub fn information<const ALL: bool>(
    section: &[u8],
    section_place: usize,
    progress: &mut Progress,
) -> Judged<()> {
    const LEAST: [u8; 2] = [62, 16];
    let (fixed, mut rest) = section.split_at(10);
    if fixed[4] | fixed[5] != 0 {
        return refuse(10, section_place + 4);
    }
    if fixed[6] | fixed[7] | fixed[8] != 0 || fixed[9] > 1 {
        return refuse(11, section_place + 6);
    }
    let (mut met, mut place) = (0u8, section_place + 10);
    while !rest.is_empty() {
        let (tag, length) = subsection_frame(rest, place, &LEAST, &mut met)?;
        let (subsection, after) = rest.split_at(length);
        match tag {
            0x0001 => protection(subsection, place, progress.external)?,
            _ => dates(subsection, place)?,
        }
        progress.rows += 1;
        rest = after;
        place += length;
    }
    if ALL && met & (1 << 0x0001) == 0 {
        return refuse(20, section_place);
    }
    Ok(())
}

#[inline]
fn protection(subsection: &[u8], place: usize, external: bool) -> Judged<()> {
    let Some((mkvp, [])) = subsection[46..].split_first_chunk::<16>() else {
        return refuse(12, place + LENGTH);
    };
    if subsection[5] != 0 {
        return refuse(10, place + 5);
    }
    if external && u128::from_ne_bytes(*mkvp) != 0 {
        return refuse(21, place + 46);
    }
    Ok(())
}

#[inline(always)]
fn dates(subsection: &[u8], place: usize) -> Judged<()> {
    let Ok([_, _, _, _, _, reserved, f0, f1, a, b, c, d, e, f, g, h]) =
        <[u8; 16]>::try_from(subsection)
    else {
        return refuse(12, place + LENGTH);
    };
    if reserved != 0 {
        return refuse(10, place + 5);
    }
    if f0 != 0 || f1 > 1 {
        return refuse(11, place + 6);
    }
    if f1 == 0 {
        return Ok(());
    }
    let activation = u32::from_be_bytes([a, b, c, d]);
    let expiration = u32::from_be_bytes([e, f, g, h]);
    if !is_date(activation) || !is_date(expiration) || activation > expiration {
        return refuse(19, place + wrong_date(activation));
    }
    Ok(())
}

/// Where the activation stands if it is no date, else the expiration.
#[cold]
fn wrong_date(activation: u32) -> usize {
    if is_date(activation) {
        12
    } else {
        8
    }
}

fn is_date(date: u32) -> bool {
    const DAYS: [u8; 12] = [31, 28, 31, 30, 31, 30, 31, 31, 30, 31, 30, 31];
    let (year, month, day) = (date >> 16, (date >> 8) as u8, date as u8);
    let leap = year % 4 == 0 && (year % 100 != 0 || year % 400 == 0);
    match DAYS.get(usize::from(month.wrapping_sub(1))) {
        Some(days) => {
            let days = days + u8::from(leap && month == 2);
            year <= 9999 && day.wrapping_sub(1) < days
        }
        None => false,
    }
}
