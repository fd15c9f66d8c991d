//! The reading of a token: each test in the order of document 01, the first
//! one that fails gives the answer, at the place of request 107. Written to be
//! clear and not to be quick.

use crate::checks;
use crate::kinds::{
    is_section, least_length, EXPORT_PARAMETERS, EXTERNAL, HEADER, INFORMATION, INTERNAL, LENGTH,
    LONGEST, PROTECTION, RULE, TOKEN_PARAMETERS,
};

/// Numbers to a row of the table.
pub const COLUMNS: usize = 5;
/// Rows of a table with room for any token.
pub const ROWS: usize = 300;
/// Numbers of such a table.
pub const TABLE: usize = ROWS * COLUMNS;

/// One row of the table: a section or a subsection.
#[derive(Clone, Copy, Debug, PartialEq, Eq)]
pub struct Row {
    pub kind: u32,
    pub offset: u32,
    pub length: u32,
    pub owner: u32,
    /// "For a rule and its subsections the rule's place among the rules, from
    /// 1; elsewhere 0" (02, #108).
    pub rule: u32,
}

impl Row {
    /// The numbers of the row, as they stand in the table.
    pub fn numbers(&self) -> [u32; COLUMNS] {
        [self.kind, self.offset, self.length, self.owner, self.rule]
    }
}

/// A number and a second number: the place of a refusal, or what 0 gives.
#[derive(Clone, Copy, Debug, PartialEq, Eq)]
pub struct Answer {
    pub number: u32,
    pub second: u32,
}

impl Answer {
    pub fn new(number: u32, second: usize) -> Answer {
        Answer {
            number,
            second: u32::try_from(second).expect("second numbers are small"),
        }
    }
}

fn refuse<T>(number: u32, place: usize) -> Result<T, Answer> {
    Err(Answer::new(number, place))
}

/// A fault of the part that begins at `place`.
fn refusal(fault: checks::Fault, place: usize) -> Answer {
    Answer::new(fault.number, place + fault.offset)
}

/// The big-endian number in one or two bytes.
pub fn number(bytes: &[u8]) -> usize {
    bytes
        .iter()
        .fold(0, |sum, byte| sum * 256 + usize::from(*byte))
}

/// The rows of a legal token, or the refusal.
pub fn read(token: &[u8]) -> Result<Vec<Row>, Answer> {
    let total = token.len();
    check_header(token, |length| total <= LONGEST && length == total)?;
    read_parts(token, true)
}

/// The rows of a draft: its first L bytes under all rules but 20.
pub fn read_draft(draft: &[u8]) -> Result<Vec<Row>, Answer> {
    let room = draft.len();
    check_header(draft, |length| {
        (HEADER..=LONGEST).contains(&length) && length <= room
    })?;
    read_parts(&draft[..number(&draft[2..4])], false)
}

/// 0 with the count of rows, or the refusal.
pub fn read_answer(token: &[u8]) -> Answer {
    match read(token) {
        Ok(rows) => Answer::new(0, rows.len()),
        Err(refusal) => refusal,
    }
}

/// Reads and fills the table, five numbers to a row. A refusal leaves the
/// table as it was, and nothing past the rows is changed.
pub fn read_table(token: &[u8], table: &mut [u32]) -> Answer {
    let rows = match read(token) {
        Ok(rows) => rows,
        Err(refusal) => return refusal,
    };
    if COLUMNS * rows.len() > table.len() {
        return Answer::new(23, rows.len());
    }
    put_rows(&rows, table);
    Answer::new(0, rows.len())
}

/// Writes the rows at the start of a table that has room for them.
pub fn put_rows(rows: &[Row], table: &mut [u32]) {
    for (index, row) in rows.iter().enumerate() {
        table[COLUMNS * index..COLUMNS * (index + 1)].copy_from_slice(&row.numbers());
    }
}

/// The header's tests 1, 2, 3, 4, 5 in order, each at its field; tokens and
/// drafts differ in which worth of the length field is right.
fn check_header(bytes: &[u8], length_is_right: impl Fn(usize) -> bool) -> Result<(), Answer> {
    if bytes.len() < HEADER {
        return refuse(1, 0);
    }
    if bytes[0] != EXTERNAL && bytes[0] != INTERNAL {
        return refuse(2, 0);
    }
    if bytes[1] != 0 {
        return refuse(3, 1);
    }
    if !length_is_right(number(&bytes[2..4])) {
        return refuse(4, 2);
    }
    if !checks::all_zero(&bytes[4..8]) {
        return refuse(5, 4);
    }
    Ok(())
}

/// Reads section by section. `complete` is false for a draft, where nothing
/// is missing yet.
fn read_parts(token: &[u8], complete: bool) -> Result<Vec<Row>, Answer> {
    let mut rows = Vec::new();
    let mut place = HEADER;
    while place < token.len() {
        place += read_section(token, place, complete, &mut rows)?;
    }
    if complete && !rows.iter().any(|row| row.kind == INFORMATION) {
        return refuse(20, token.len());
    }
    Ok(rows)
}

/// Reads the section that begins at `place` with its subsections, adds their
/// rows, and gives the section's length.
fn read_section(
    token: &[u8],
    place: usize,
    complete: bool,
    rows: &mut Vec<Row>,
) -> Result<usize, Answer> {
    let (kind, fixed, length) = section_frame(&token[place..], place)?;
    if kind != RULE && rows.iter().any(|row| row.kind == kind) {
        return refuse(9, place);
    }
    let section = &token[place..place + length];
    checks::section(kind, section).map_err(|fault| refusal(fault, place))?;
    if kind == RULE && rule_id_stands_before(token, rows, &section[4..12]) {
        return refuse(9, place);
    }
    let owner = rows.len();
    rows.push(Row {
        kind,
        offset: place as u32,
        length: length as u32,
        owner: owner as u32,
        rule: rule_number(kind, rows),
    });
    if kind == RULE || kind == INFORMATION {
        read_subsections(token, place + fixed, owner, rows)?;
        check_mask_against_minimum(token, &rows[owner..])?;
        if complete {
            check_required(token, &rows[owner..])?;
        }
    }
    Ok(length)
}

/// Kind, least length and length of the section with which `rest` begins: the
/// tests 6 (four bytes), 7, 8, 6 (length).
fn section_frame(rest: &[u8], place: usize) -> Result<(u32, usize, usize), Answer> {
    if rest.len() < 4 {
        return refuse(6, place);
    }
    let kind = u32::from(rest[0]) * 0x1_0000;
    let Some(fixed) = least_length(kind) else {
        return refuse(7, place);
    };
    if rest[1] != 0 {
        return refuse(8, place + 1);
    }
    let length = number(&rest[2..4]);
    if length < fixed || length > rest.len() {
        return refuse(6, place + LENGTH);
    }
    Ok((kind, fixed, length))
}

/// The rule number of a section that stands after these rows: for a rule one
/// more than the rules among them, else 0.
fn rule_number(kind: u32, rows: &[Row]) -> u32 {
    if kind != RULE {
        return 0;
    }
    let before = rows.iter().filter(|row| row.kind == RULE).count();
    before as u32 + 1
}

/// Whether a rule among the rows has this Rule ID.
fn rule_id_stands_before(token: &[u8], rows: &[Row], rule_id: &[u8]) -> bool {
    rows.iter()
        .filter(|row| row.kind == RULE)
        .any(|row| bytes_of(token, row)[4..12] == *rule_id)
}

/// Reads the subsections that tile the rest of the section `owner`. Their rows
/// have its owner and its rule number.
fn read_subsections(
    token: &[u8],
    first: usize,
    owner: usize,
    rows: &mut Vec<Row>,
) -> Result<(), Answer> {
    let section = rows[owner];
    let end = (section.offset + section.length) as usize;
    let mut place = first;
    while place < end {
        let rest = &token[place..end];
        if rest.len() < 4 {
            return refuse(12, place);
        }
        let tag = number(&rest[0..2]) as u32;
        let kind = section.kind + tag;
        let Some(least) = least_length(kind).filter(|_| !is_section(kind)) else {
            return refuse(13, place);
        };
        let length = number(&rest[2..4]);
        if length < least || length > rest.len() {
            return refuse(12, place + LENGTH);
        }
        if rows[owner..].iter().any(|row| row.kind == kind) {
            return refuse(14, place);
        }
        checks::subsection(kind, &rest[..length], token[0] == EXTERNAL)
            .map_err(|fault| refusal(fault, place))?;
        rows.push(Row {
            kind,
            offset: place as u32,
            length: length as u32,
            ..section
        });
        place += length;
    }
    Ok(())
}

/// 18 at the m of a 0005 whose mask is shorter than the minimum of the 0003 in
/// the same section. `rows` are the section's own rows.
fn check_mask_against_minimum(token: &[u8], rows: &[Row]) -> Result<(), Answer> {
    let export = rows.iter().find(|row| row.kind == EXPORT_PARAMETERS);
    let limits = rows.iter().find(|row| row.kind == TOKEN_PARAMETERS);
    if let (Some(export), Some(limits)) = (export, limits) {
        let minimum = bytes_of(token, export)[8];
        let m = limits.offset as usize + 8;
        if token[m] != 0 && token[m] < minimum {
            return refuse(18, m);
        }
    }
    Ok(())
}

/// 20 at an export rule without a 0003, and at a section 14 without a 0001.
fn check_required(token: &[u8], rows: &[Row]) -> Result<(), Answer> {
    let section = rows[0];
    let is_export = section.kind == RULE && bytes_of(token, &section)[15] == 1;
    let needed = match section.kind {
        RULE if is_export => EXPORT_PARAMETERS,
        INFORMATION => PROTECTION,
        _ => return Ok(()),
    };
    if !rows.iter().any(|row| row.kind == needed) {
        return refuse(20, section.offset as usize);
    }
    Ok(())
}

/// The bytes of a row's section or subsection.
pub fn bytes_of<'a>(token: &'a [u8], row: &Row) -> &'a [u8] {
    &token[row.offset as usize..(row.offset + row.length) as usize]
}
