//! Legal values of single fields, limits included, and dates that are none.

use crate::forms::{days_of_month, is_less};
use crate::random::Random;

const LETTERS_AND_DIGITS: &[u8] = b"ABCXYZMabcxyzm0189";

/// A sign of a Rule ID.
fn rule_sign(random: &mut Random) -> u8 {
    match random.below(4) {
        0 => random.pick(b"-_"),
        1 => random.pick(LETTERS_AND_DIGITS),
        2 => b'A' + random.below(26) as u8,
        _ => b'a' + random.below(26) as u8,
    }
}

pub fn rule_id(random: &mut Random) -> Vec<u8> {
    let signs = if random.once_in(3) {
        random.pick(&[1, 2, 7, 8])
    } else {
        random.between(1, 8)
    };
    let mut field = vec![b' '; 8];
    for place in field.iter_mut().take(signs) {
        *place = rule_sign(random);
    }
    field
}

/// A Rule ID that no other of the list has.
pub fn new_rule_id(random: &mut Random, others: &[Vec<u8>]) -> Vec<u8> {
    loop {
        let candidate = match others {
            // Differs from another one in the last sign only.
            [.., last] if random.once_in(3) => {
                let mut close = last.clone();
                close[7] = rule_sign(random);
                if close[1..7].contains(&b' ') {
                    continue;
                }
                close
            }
            _ => rule_id(random),
        };
        if !others.contains(&candidate) {
            return candidate;
        }
    }
}

/// A label template without a star, of the given count of signs.
fn plain_label(random: &mut Random, signs: usize) -> Vec<u8> {
    let mut field = vec![b' '; 64];
    for place in field.iter_mut().take(signs) {
        *place = match random.below(3) {
            0 => random.pick(b"#$@"),
            1 => random.pick(LETTERS_AND_DIGITS),
            _ => b'A' + random.below(26) as u8,
        };
    }
    while field[0].is_ascii_digit() {
        field[0] = random.pick(LETTERS_AND_DIGITS);
    }
    field
}

pub fn label_template(random: &mut Random) -> Vec<u8> {
    let signs = match random.below(3) {
        0 => random.pick(&[1, 2, 3, 62, 63, 64]),
        _ => random.between(1, 64),
    };
    let mut field = plain_label(random, signs);
    match random.below(3) {
        0 => {}
        1 => field[signs - 1] = b'*',
        _ => {
            field[0] = b'*';
            if signs > 1 && random.coin() {
                field[1] = random.pick(b"0189");
            }
        }
    }
    field
}

pub fn date(random: &mut Random) -> Vec<u8> {
    let year = match random.below(3) {
        0 => random.pick(&[0, 1, 4, 100, 400, 1900, 2000, 2023, 2024, 2100, 9996, 9999]),
        _ => random.below(10_000),
    };
    let month = match random.below(3) {
        0 => random.pick(&[1, 2, 12]),
        _ => random.between(1, 12) as u8,
    };
    let last = days_of_month(year, month);
    let day = match random.below(3) {
        0 => last,
        1 => 1,
        _ => random.between(1, last.into()) as u8,
    };
    vec![(year / 256) as u8, (year % 256) as u8, month, day]
}

/// Four bytes that are no date.
pub fn bad_date(random: &mut Random) -> Vec<u8> {
    let mut date = date(random);
    match random.below(6) {
        0 => date[2] = random.pick(&[0, 13, 99, 255]),
        1 => date[3] = random.pick(&[0, 32, 99, 255]),
        2 => date[2..].copy_from_slice(random.pick(&[&[2, 30], &[4, 31], &[11, 31], &[6, 31]])),
        3 => {
            let year: u16 = random.pick(&[1900, 2100, 2023, 1, 100, 9998, 9999]);
            date[..2].copy_from_slice(&year.to_be_bytes());
            date[2..].copy_from_slice(&[2, 29]);
        }
        4 => date[..2].copy_from_slice(&10_000u16.to_be_bytes()),
        _ => date[..2].copy_from_slice(&(random.between(10_000, 65_535) as u16).to_be_bytes()),
    }
    date
}

/// Four bytes where no date is judged: zeros, ones, any bytes, no date, a date.
fn kept_date(random: &mut Random) -> Vec<u8> {
    match random.below(6) {
        0 | 1 => vec![0; 4],
        2 => vec![0xFF; 4],
        3 => random.bytes(4),
        4 => bad_date(random),
        _ => date(random),
    }
}

/// Two dates that nobody judges, some of them only in the wrong order.
pub fn kept_dates(random: &mut Random) -> (Vec<u8>, Vec<u8>) {
    if random.once_in(5) {
        let (first, second) = two_dates(random);
        return (second, first);
    }
    (kept_date(random), kept_date(random))
}

/// Two dates, the first not after the second.
pub fn two_dates(random: &mut Random) -> (Vec<u8>, Vec<u8>) {
    let first = date(random);
    let second = if random.once_in(4) {
        first.clone()
    } else {
        date(random)
    };
    if first <= second {
        (first, second)
    } else {
        (second, first)
    }
}

pub fn modulus_bits(random: &mut Random) -> usize {
    match random.below(3) {
        0 => random.pick(&[512, 513, 519, 520, 521, 1024, 1025, 2048, 4089, 4095, 4096]),
        1 => random.between(512, 700),
        _ => random.between(512, 4096),
    }
}

/// An odd number of exactly this many bits.
pub fn modulus(random: &mut Random, bits: usize) -> Vec<u8> {
    let length = bits.div_ceil(8);
    let mut number = match random.below(4) {
        0 => vec![0; length],
        1 => vec![0xFF; length],
        _ => random.bytes(length),
    };
    let top = 1u8 << ((bits - 1) % 8);
    number[0] = (number[0] & (top - 1)) | top;
    number[length - 1] |= 1;
    number
}

/// The number less two; it is odd and not 1.
fn less_two(number: &[u8]) -> Vec<u8> {
    let mut result = number.to_vec();
    let (mut place, mut subtract) = (result.len() - 1, 2u8);
    loop {
        let (digit, borrow) = result[place].overflowing_sub(subtract);
        result[place] = digit;
        if !borrow {
            return result;
        }
        subtract = 1;
        place -= 1;
    }
}

/// An odd number less than the modulus, with leading zeros up to 512 bytes.
pub fn exponent(random: &mut Random, modulus: &[u8]) -> Vec<u8> {
    let mut number = match random.below(6) {
        0 => vec![1],
        1 => vec![3],
        2 => vec![1, 0, 1],
        3 => less_two(modulus),
        4 => number_close_below(random, modulus),
        _ => {
            let length = random.between(1, modulus.len());
            random.bytes(length)
        }
    };
    if let Some(last) = number.last_mut() {
        *last |= 1;
    }
    if !is_less(&number, modulus) {
        number = vec![1, 0, 1];
    }
    let length = match random.below(6) {
        0 => number.len() + 1,
        1 => modulus.len(),
        2 => modulus.len() + 1,
        3 => random.between(number.len(), 512.max(number.len())),
        4 => random.pick(&[512, number.len()]),
        _ => number.len(),
    };
    with_leading_zeros(&number, length.min(512))
}

/// The modulus with one of its bits cleared, so that the two begin alike.
fn number_close_below(random: &mut Random, modulus: &[u8]) -> Vec<u8> {
    let mut number = modulus.to_vec();
    let place = random.below(number.len());
    let bit = 1u8 << random.below(8);
    number[place] &= !bit;
    number
}

/// The number with zeros in front of it up to a length.
pub fn with_leading_zeros(number: &[u8], length: usize) -> Vec<u8> {
    let mut padded = vec![0; length.saturating_sub(number.len())];
    padded.extend(number);
    padded
}

/// A length from 0 to 255, the limits often.
pub fn any_length(random: &mut Random) -> usize {
    match random.below(3) {
        0 => random.pick(&[0, 1, 7, 8, 16, 24, 254, 255]),
        1 => random.below(20),
        _ => random.below(256),
    }
}
