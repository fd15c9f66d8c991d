//! Bytes as a token, by the library and the second reader. Panics where they
//! differ.

use crate::fast::{fast_fill, fast_read};
use crate::kinds::LONGEST;
use crate::library;
use crate::library_writer;
use crate::reader::{put_rows, read, Answer, Row, COLUMNS, ROWS, TABLE};
use crate::views::{fields_of, row_among, step_among, taken_apart, Step};

/// What a table holds before a call.
const UNTOUCHED: u32 = 0xDEAD_BEEF;

/// At most about this many rows are asked for, by their views and places.
const ROWS_VIEWED: usize = 24;

/// At most about this many rows are asked for by number. A row costs as many
/// readings as there are rows before it.
const ROWS_NUMBERED: u32 = 9;

/// Every reading call on these bytes.
pub fn compare(token: &[u8]) -> Answer {
    let outcome = read(token);
    let expected = expected(&outcome, TABLE);
    assert_eq!(library::read(token), expected, "tb_read");
    assert_eq!(fast_read(token), expected, "the optimised reader");
    compare_tables(token, &outcome);
    compare_steps(token, &outcome);
    compare_rows(token, &outcome);
    match &outcome {
        Ok(rows) => {
            compare_views(token, rows);
            compare_rebuilt(token);
        }
        Err(refusal) => compare_refused_views(token, *refusal),
    }
    expected
}

/// What the second reader answers for a table of this length.
fn expected(outcome: &Result<Vec<Row>, Answer>, length: usize) -> Answer {
    match outcome {
        Ok(rows) if COLUMNS * rows.len() > length => Answer::new(23, rows.len()),
        Ok(rows) => Answer::new(0, rows.len()),
        Err(refusal) => *refusal,
    }
}

/// Tables of no numbers, one too few, exactly enough, and [`TABLE`].
fn compare_tables(token: &[u8], outcome: &Result<Vec<Row>, Answer>) {
    let enough = COLUMNS * outcome.as_ref().map_or(2, Vec::len);
    for length in [0, enough - 1, enough, TABLE] {
        let expected = expected(outcome, length);
        let mut wanted = [UNTOUCHED; TABLE + 1];
        if let (0, Ok(rows)) = (expected.number, outcome) {
            put_rows(rows, &mut wanted);
        }
        let mut table = [UNTOUCHED; TABLE + 1];
        let given = library::read_table(token, &mut table[..length]);
        assert_eq!(given, expected, "tb_read_table, {length} numbers");
        assert!(table == wanted, "the table of {length} numbers");
        let mut table = [UNTOUCHED; TABLE + 1];
        let given = fast_fill(token, &mut table[..length]);
        assert_eq!(given, expected, "the optimised reader");
        assert!(table == wanted, "its table of {length} numbers");
    }
}

/// The step of the walk: of any bytes at a few places, of a legal token also
/// at the rows' places and beside them, and at the ends of header and token.
fn compare_steps(token: &[u8], outcome: &Result<Vec<Row>, Answer>) {
    let (length, picked) = (token.len() as u32, picked(token));
    let mut places = vec![8, length, u32::MAX, picked];
    if let Ok(rows) = outcome {
        places.extend([0, 7, length - 1, length + 1, picked % length]);
        places.extend([0x1_0008, 0x1_0000 + length]);
        for index in some_of(token, rows) {
            let place = rows[index].offset;
            places.extend([place - 1, place, place + 1]);
        }
    }
    for place in places {
        let expected = walked(step_among, outcome, token, place);
        assert_eq!(library::step(token, place), expected, "place {place}");
    }
}

/// The rows by number, of a long token some; numbers behind the last.
fn compare_rows(token: &[u8], outcome: &Result<Vec<Row>, Answer>) {
    let count = outcome.as_ref().map_or(0, |rows| rows.len() as u32);
    let picked = picked(token);
    let large = [0x1_0000, 0x1_0000 + count, u32::MAX, picked | 0x200];
    let apart = 1 + count / ROWS_NUMBERED;
    let numbers = (picked % apart..count + 2).step_by(apart as usize);
    for number in numbers.chain([large[picked as usize % large.len()]]) {
        let expected = walked(row_among, outcome, token, number);
        assert_eq!(library::row(token, number), expected, "row {number}");
    }
}

/// What the second reader's walk answers, or its refusal.
fn walked(
    walk: fn(&[Row], usize, usize) -> Step,
    outcome: &Result<Vec<Row>, Answer>,
    token: &[u8],
    asked: u32,
) -> Step {
    match outcome {
        Ok(rows) => walk(rows, token.len(), asked as usize),
        Err(refusal) => Step::Refused(*refusal),
    }
}

/// Some number that depends on all bytes.
fn picked(token: &[u8]) -> u32 {
    let next = |sum: u32, byte: &u8| sum.rotate_left(5) ^ u32::from(*byte);
    token.iter().fold(0, next).wrapping_mul(0x9E37_79B1)
}

/// The numbers of all rows, of a long token of some, by its last byte.
fn some_of(token: &[u8], rows: &[Row]) -> impl Iterator<Item = usize> {
    let apart = 1 + rows.len() / ROWS_VIEWED;
    let first = usize::from(token[token.len() - 1]) % apart;
    (first..rows.len()).step_by(apart)
}

/// All fields of the rows, of a long token of some rows, and others that are
/// not there.
fn compare_views(token: &[u8], rows: &[Row]) {
    let no_such = Err(Answer::new(22, 0));
    for index in some_of(token, rows) {
        let number = index as u32;
        let mut place = rows[index].offset;
        let fields = fields_of(token, &rows[index]);
        for (field, bytes) in fields.iter().enumerate() {
            let view = Ok((place, bytes.len() as u32));
            let given = library::view(token, number, field as u32);
            assert_eq!(given, view, "row {index} field {field}");
            place += bytes.len() as u32;
        }
        for field in [fields.len() as u32, 255, u32::MAX] {
            assert_eq!(library::view(token, number, field), no_such);
        }
    }
    let count = rows.len() as u32;
    for row in [count, count + 1, 0x1_0000, u32::MAX] {
        assert_eq!(library::view(token, row, 0), no_such, "row {row}");
    }
}

fn compare_refused_views(token: &[u8], refusal: Answer) {
    for (row, field) in [(0, 0), (1, 3), (ROWS as u32, 0), (u32::MAX, u32::MAX)] {
        let given = library::view(token, row, field);
        assert_eq!(given, Err(refusal), "row {row} field {field}");
    }
}

/// The library's writer on the parts of a legal token gives its very bytes.
fn compare_rebuilt(token: &[u8]) {
    let (id, parts) = taken_apart(token).expect("legal");
    let mut draft = [0xEE; LONGEST];
    assert_eq!(
        library_writer::start(&mut draft, id),
        Answer::new(0, 8),
        "tb_start"
    );
    for part in &parts {
        let given = library_writer::add(&mut draft, part);
        assert_eq!(given.number, 0, "{part:?}");
    }
    let finished = Answer::new(0, token.len());
    assert_eq!(library_writer::finish(&draft), finished, "tb_finish");
    assert!(draft[..token.len()] == *token, "the token written again");
    let rest = &draft[token.len()..];
    assert!(rest.iter().all(|byte| *byte == 0xEE), "bytes behind it");
}
