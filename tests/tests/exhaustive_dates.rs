//! Every day of the years 0 to 9,999, and dates that are none, as activation
//! and as expiration of 14/0002, by the library's reader and writer: judged
//! with flags 1, accepted whatever they are with flags 0.

mod common;

use common::*;
use trusted_block_tests::forms::date_exists;
use trusted_block_tests::library;
use trusted_block_tests::library_writer;
use trusted_block_tests::parts::Part;
use trusted_block_tests::reader::{read_answer, Answer};

const FIRST: [u8; 4] = [0, 0, 1, 1];
const LAST: [u8; 4] = [0x27, 0x0F, 12, 31];

/// Days of 10,000 years: 25 times 400 years of 146,097 days.
const DAYS: usize = 25 * 146_097;

/// Where the activation stands in [`with_dates`]; the expiration follows.
const PLACE: usize = 26;

/// Where the flags' second byte stands, right before the activation.
const FLAGS: usize = PLACE - 1;

/// T with dates before its protection.
fn with_dates() -> Vec<u8> {
    token_of(&[information(&[dates(FIRST, LAST), protection()])])
}

fn date(year: u16, month: u8, day: u8) -> [u8; 4] {
    let [high, low] = year.to_be_bytes();
    [high, low, month, day]
}

/// The token with these dates must be accepted with flags 0, and with flags 1,
/// too, or be refused at a place.
fn check(token: &mut [u8], activation: [u8; 4], expiration: [u8; 4], refused: Option<usize>) {
    token[PLACE..PLACE + 4].copy_from_slice(&activation);
    token[PLACE + 4..PLACE + 8].copy_from_slice(&expiration);
    for (flags, refused) in [(0, None), (1, refused)] {
        token[FLAGS] = flags;
        let expected = match refused {
            None => answer(0, 3),
            Some(place) => answer(19, place as u32),
        };
        let given = library::read(token);
        assert_eq!(
            given, expected,
            "{flags} {activation:02X?} {expiration:02X?}"
        );
    }
}

/// The same date as activation and as expiration, with the furthest other. It
/// is refused where it stands.
fn check_each(token: &mut [u8], date: [u8; 4]) -> bool {
    let exists = date_exists(&date);
    let refused_at = |place| (!exists).then_some(place);
    check(token, date, LAST, refused_at(PLACE));
    check(token, FIRST, date, refused_at(PLACE + 4));
    exists
}

/// The day after one, by the lengths of the months; none after the last.
fn next_day([high, low, month, day]: [u8; 4]) -> Option<[u8; 4]> {
    let year = u16::from_be_bytes([high, low]);
    let leap = year % 400 == 0 || year % 4 == 0 && year % 100 != 0;
    let february = if leap { 29 } else { 28 };
    let days = [31, february, 31, 30, 31, 30, 31, 31, 30, 31, 30, 31];
    match (month, day) {
        (12, 31) if year == 9999 => None,
        (12, 31) => Some(date(year + 1, 1, 1)),
        _ if day == days[usize::from(month) - 1] => Some(date(year, month + 1, 1)),
        _ => Some(date(year, month, day + 1)),
    }
}

/// The years 0 to 10,000 with the months 0 to 13 and the days 0 to 32.
#[test]
fn every_day_and_the_days_around_each_month() {
    let mut token = with_dates();
    let mut days = 0;
    for year in 0..=10_000 {
        for month in 0..=13 {
            for day in 0..=32 {
                days += usize::from(check_each(&mut token, date(year, month, day)));
            }
        }
    }
    assert_eq!(days, DAYS);
}

/// From the first day to the last: each day with itself, with the next one,
/// and with the next one before it, which is refused at the later field.
#[test]
fn every_day_and_the_next() {
    let mut token = with_dates();
    let mut days = 1;
    let mut day = FIRST;
    while let Some(next) = next_day(day) {
        check(&mut token, day, day, None);
        check(&mut token, day, next, None);
        check(&mut token, next, day, Some(PLACE + 4));
        day = next;
        days += 1;
    }
    assert_eq!((day, days), (LAST, DAYS));
}

/// The years for all values of month and day: some, or with the environment
/// variable TRUSTED_BLOCK_ALL_DATES all 65,536.
fn years() -> Vec<u16> {
    if std::env::var_os("TRUSTED_BLOCK_ALL_DATES").is_some() {
        return (0..=u16::MAX).collect();
    }
    let border = [0, 1, 4, 100, 400, 1900, 2000, 2024, 9996, 9999, 10_000];
    let others = (0..64).map(|count| count * 1021 + 37);
    border.into_iter().chain(others).chain([u16::MAX]).collect()
}

#[test]
fn every_byte_of_month_and_day() {
    let mut token = with_dates();
    for year in years() {
        for pair in 0..=u16::MAX {
            let [month, day] = pair.to_be_bytes();
            check_each(&mut token, date(year, month, day));
        }
    }
}

/// Days on each side of a border in all values of the year.
#[test]
fn every_year() {
    let mut token = with_dates();
    let days = [(0, 1), (1, 0), (1, 1), (2, 28), (2, 29), (2, 30), (12, 31)];
    for year in 0..=u16::MAX {
        for (month, day) in days.into_iter().chain([(12, 32), (13, 1)]) {
            check_each(&mut token, date(year, month, day));
        }
    }
}

/// The second reader's whole answer, for a day of each month of each year.
#[test]
fn the_second_reader_says_the_same() {
    let mut token = with_dates();
    for year in 0..=10_000 {
        for month in 0..=13 {
            let day = [28, 29, 30, 31, 32][usize::from(year + u16::from(month)) % 5];
            check_each(&mut token, date(year, month, day));
            for flags in [0, 1] {
                token[FLAGS] = flags;
                assert_eq!(library::read(&token), read_answer(&token));
            }
        }
    }
}

/// The date as activation and as expiration, added to this draft.
fn add_both(empty: &[u8], flags: u16, date: [u8; 4], accepted: bool) {
    let part = Part::Dates {
        flags,
        activation: date.to_vec(),
        expiration: date.to_vec(),
    };
    let mut draft = empty.to_vec();
    let expected = if accepted { (0, 34) } else { (19, PLACE) };
    let given = library_writer::add(&mut draft, &part);
    assert_eq!(given, Answer::new(expected.0, expected.1), "{part:?}");
    assert_eq!(draft == empty, !accepted);
}

/// The writer's addition, in the years around 0, 400 and 10,000.
#[test]
fn every_day_added_by_the_writer() {
    let mut empty = vec![0x77; 80];
    empty[..18].copy_from_slice(&in_line(smallest_token()[..18].to_vec()));
    empty[10..12].copy_from_slice(&[0, 10]);
    for year in (0..=404).chain(9890..=10_003) {
        for month in 0..=13 {
            for day in 0..=32 {
                let date = date(year, month, day);
                add_both(&empty, 0, date, true);
                add_both(&empty, 1, date, date_exists(&date));
            }
        }
    }
}
