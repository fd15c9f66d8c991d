//! Forms of single fields: Rule IDs, label templates, dates; large numbers.

use crate::reader::number;

/// The field without the spaces at its end.
fn without_end_spaces(field: &[u8]) -> &[u8] {
    let mut kept = field;
    while let [before @ .., b' '] = kept {
        kept = before;
    }
    kept
}

/// One to eight of A-Z, a-z, 0-9, hyphen, underscore, then spaces to the end.
pub fn is_rule_id(field: &[u8]) -> bool {
    let signs = without_end_spaces(field);
    let allowed = |sign: &u8| sign.is_ascii_alphanumeric() || b"-_".contains(sign);
    field.len() == 8 && !signs.is_empty() && signs.iter().all(allowed)
}

/// One or more letters, digits, `#`, `$`, `@`, `*`, then spaces to 64. The
/// first is no digit; at most one `*`, first or last before the spaces.
pub fn is_label_template(field: &[u8]) -> bool {
    let signs = without_end_spaces(field);
    let allowed = |sign: &u8| sign.is_ascii_alphanumeric() || b"#$@*".contains(sign);
    if field.len() != 64 || signs.is_empty() || !signs.iter().all(allowed) {
        return false;
    }
    let stars: Vec<usize> = (0..signs.len()).filter(|i| signs[*i] == b'*').collect();
    let stars_right = match stars[..] {
        [] => true,
        [star] => star == 0 || star == signs.len() - 1,
        _ => false,
    };
    !signs[0].is_ascii_digit() && stars_right
}

/// The first byte at which no legal form can go on: the least place such that
/// no legal field of this length begins with the bytes up to it. None for a
/// legal field. A beginning of a legal field is itself legal with spaces after
/// it, so that only spaces need be tried; tests/tests/form_places.rs tries all.
pub fn first_wrong(field: &[u8], is_form: fn(&[u8]) -> bool) -> Option<usize> {
    let begins_a_form = |length: usize| {
        let mut completed = field[..length].to_vec();
        completed.resize(field.len(), b' ');
        is_form(&completed)
    };
    if is_form(field) {
        return None;
    }
    (0..field.len()).find(|index| !begins_a_form(index + 1))
}

/// Leap years of the Gregorian calendar, year 0 by the same rule.
pub fn is_leap_year(year: usize) -> bool {
    year % 4 == 0 && (year % 100 != 0 || year % 400 == 0)
}

/// The days of a month from 1 to 12.
pub fn days_of_month(year: usize, month: u8) -> u8 {
    match month {
        4 | 6 | 9 | 11 => 30,
        2 if is_leap_year(year) => 29,
        2 => 28,
        _ => 31,
    }
}

/// Two bytes of year 0 to 9999, a month, a day that exists.
pub fn date_exists(field: &[u8]) -> bool {
    let [high, low, month, day] = *field else {
        return false;
    };
    let year = number(&[high, low]);
    year <= 9999 && (1..=12).contains(&month) && (1..=days_of_month(year, month)).contains(&day)
}

/// The number without its leading zero bytes.
fn without_leading_zeros(number: &[u8]) -> &[u8] {
    let mut kept = number;
    while let [0, after @ ..] = kept {
        kept = after;
    }
    kept
}

/// How many significant bits a big-endian number has.
pub fn significant_bits(number: &[u8]) -> usize {
    match without_leading_zeros(number) {
        [] => 0,
        [first, rest @ ..] => 8 * rest.len() + 8 - first.leading_zeros() as usize,
    }
}

pub fn is_odd(number: &[u8]) -> bool {
    number.last().is_some_and(|byte| byte % 2 == 1)
}

/// Whether one big-endian number is less than another.
pub fn is_less(left: &[u8], right: &[u8]) -> bool {
    let (left, right) = (without_leading_zeros(left), without_leading_zeros(right));
    if left.len() != right.len() {
        return left.len() < right.len();
    }
    left < right
}
