//! The listing of a token. A newline ends every line.

use crate::kinds::{is_section, EXTERNAL, LONGEST};
use crate::reader::{read, Answer, Row};

/// The first line: the token's identifier, its length and its rows, or the
/// refusal. Meant for the answers that a reading gives.
pub fn first_line(id: u8, length: usize, answer: Answer) -> String {
    let Answer { number, second } = answer;
    if number != 0 {
        return format!("refused {number} at {second}\n");
    }
    let side = if id == EXTERNAL {
        "external"
    } else {
        "internal"
    };
    format!("token {side} {length} bytes {second} rows\n")
}

/// The line of one row at its place in the table.
pub fn row_line(place: usize, row: &Row) -> String {
    let id = row.kind / 0x1_0000;
    let tag = if is_section(row.kind) {
        "-".to_string()
    } else {
        format!("{:04X}", row.kind % 0x1_0000)
    };
    let Row {
        offset,
        length,
        owner,
        rule,
        ..
    } = row;
    format!("{place} {id:02X} {tag} {offset} {length} {owner} {rule}\n")
}

/// The whole listing of a token.
pub fn listing(token: &[u8]) -> String {
    match read(token) {
        Err(refusal) => first_line(0, token.len(), refusal),
        Ok(rows) => {
            let mut lines = first_line(token[0], token.len(), Answer::new(0, rows.len()));
            for (place, row) in rows.iter().enumerate() {
                lines += &row_line(place, row);
            }
            lines
        }
    }
}

/// What the program writes for its input, of which it reads at most one byte
/// more than the longest token has.
pub fn program_output(input: &[u8]) -> String {
    listing(&input[..input.len().min(LONGEST + 1)])
}
