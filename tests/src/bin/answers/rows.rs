//! Table, views, walk and listing.

use crate::cases::{hex, part_words, row_word, Cases};
use crate::kinds::{self, LONGEST, SHORTEST};
use crate::reader::{read, Answer, Row, COLUMNS, ROWS};
use crate::samples::{in_line, smallest_token};
use crate::tokens::{bases, every, key_between_rules, name_between_rules, small_drafts};
use crate::views::{fields_of, taken_apart, view};

pub fn ask(cases: &mut Cases) {
    for (_, token) in bases() {
        taken(cases, &token);
    }
    for token in [smallest_token(), every()] {
        tables(cases, &token);
        steps(cases, &token);
        rows_of_views(cases, &token);
        views_laid_together(cases, &token);
    }
    for token in [name_between_rules(), key_between_rules()] {
        tables(cases, &token);
        steps(cases, &token);
    }
    for draft in small_drafts() {
        views(cases, &draft);
    }
    let mut refused = smallest_token();
    refused[79] = 1;
    cases.table(&refused, 9);
    cases.view(&refused, 0, 0);
    cases.view(&refused, 9, 9);
    cases.step(&refused, 8);
    cases.step(&refused, 80);
    first_lines(cases);
    row_lines(cases);
}

/// The token's parts, from which it is written, and its rows.
fn taken(cases: &mut Cases, token: &[u8]) {
    let (id, parts) = taken_apart(token).expect("it is legal");
    let rows = read(token).expect("it is legal");
    let parts: Vec<String> = parts.iter().map(part_words).collect();
    let rows: Vec<String> = rows.iter().map(row_word).collect();
    let question = format!("parts {id} {} {}", parts.len(), parts.join(" "));
    cases.ask(&question, &format!("{} {}", hex(token), rows.join(" ")));
}

/// Room for nothing, for four numbers to a row, for a number less than the
/// rows need, for them, and for some more.
fn tables(cases: &mut Cases, token: &[u8]) {
    let rows = read(token).expect("it is legal").len();
    let enough = COLUMNS * rows;
    for room in [0, 4 * rows, enough - 1, enough, enough + 3] {
        cases.table(token, room);
    }
}

/// Each field of the last row, and the field after the last, where the draft
/// has all that it needs or needs only the smallest token's section.
fn views(cases: &mut Cases, draft: &[u8]) {
    let own = &draft[8..];
    let token = [&[smallest_token(), own.to_vec()].concat(), draft]
        .map(|token| in_line(token.to_vec()))
        .into_iter()
        .find(|token| read(token).is_ok());
    let Some(token) = token else {
        return;
    };
    let last = read(&token).expect("it is legal").len() as u32 - 1;
    let fields = (0..)
        .take_while(|field| view(&token, last, *field).is_ok())
        .count();
    for field in 0..=fields {
        cases.view(&token, last, field as u32);
    }
}

/// All fields of a row, which together are its bytes without its subsections;
/// of a long token the last row's.
fn views_laid_together(cases: &mut Cases, token: &[u8]) {
    let rows = read(token).expect("it is legal");
    let first = if token.len() > 100 { rows.len() - 1 } else { 0 };
    for (index, row) in rows.iter().enumerate().skip(first) {
        let from = row.offset as usize;
        let to = rows
            .get(index + 1)
            .map_or(token.len(), |next| next.offset as usize);
        let fields = fields_of(token, row).len();
        let question = format!("views {} {index} {fields}", hex(token));
        cases.ask(&question, &hex(&token[from..to]));
    }
}

/// The first field of each row and one that no row has, the rows after the last.
fn rows_of_views(cases: &mut Cases, token: &[u8]) {
    let rows = read(token).expect("it is legal").len() as u32;
    for row in 0..rows + 2 {
        cases.view(token, row, 0);
        cases.view(token, row, 11);
    }
}

/// Each row's place and those beside it, the header's and the end's.
fn steps(cases: &mut Cases, token: &[u8]) {
    let rows = read(token).expect("it is legal");
    for row in &rows {
        cases.step(token, row.offset as usize);
    }
    for place in [0, 7, 9, token.len() - 1, token.len(), token.len() + 1] {
        cases.step(token, place);
    }
}

fn first_lines(cases: &mut Cases) {
    for (id, length, rows) in [
        (0x1E, SHORTEST, 2),
        (0x1F, SHORTEST, 2),
        (0x1E, LONGEST, 173),
        (0x1F, 99, 9),
        (0x1E, 100, 10),
        (0x1F, 101, 11),
    ] {
        cases.first_line(id, length, Answer::new(0, rows));
    }
    for (number, place) in [(1, 0), (9, 9), (10, 10), (19, 99), (20, 100), (21, 3438)] {
        cases.first_line(0x1E, SHORTEST, Answer::new(number, place));
    }
}

fn row_lines(cases: &mut Cases) {
    let row = |kind, offset, length, owner, rule| Row {
        kind,
        offset,
        length,
        owner,
        rule,
    };
    for (place, kind) in kinds::ALL.into_iter().enumerate() {
        let (offset, owner) = (8 + 3 * place as u32, place as u32 / 2);
        cases.row_line(place, &row(kind, offset, 62, owner, place as u32 % 3));
    }
    for (place, kind, rule) in [
        (0, 0x01_0000, 1),
        (9, 0x09_0009, 9),
        (10, 0x0A_000A, 10),
        (99, 0x0F_000F, 99),
        (100, 0x10_0010, 100),
        (172, 0xFF_FFFF, 171),
        (ROWS, 0xA9_00FF, 4_294_967_295),
    ] {
        cases.row_line(place, &row(kind, 3480, 20, 171, rule));
        cases.row_line(place, &row(kind, 9, 10, 0, 0));
    }
}
