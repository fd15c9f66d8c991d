//! A question is a word with its arguments; after `=` stands what the second
//! reader or writer says. Bytes are written `x1E00`, a row
//! `kind,offset,length,owner,rule`.

use crate::parts::Part;
use crate::reader::{read_answer, read_draft, read_table, Answer, Row};
use crate::views::{step, view, Step};
use crate::{listing, writer};
use std::collections::HashSet;

#[derive(Default)]
pub struct Cases {
    lines: Vec<String>,
    seen: HashSet<String>,
}

/// Bytes as one word.
pub fn hex(bytes: &[u8]) -> String {
    let digits: String = bytes.iter().map(|byte| format!("{byte:02X}")).collect();
    format!("x{digits}")
}

fn numbers(answer: Answer) -> String {
    format!("{} {}", answer.number, answer.second)
}

pub fn row_word(row: &Row) -> String {
    row.numbers().map(|number| number.to_string()).join(",")
}

/// A part as words: its kind, how many values follow, and its values, numbers
/// and bytes in the order of document 01.
pub fn part_words(part: &Part) -> String {
    let kind = format!("{:06X}", part.kind());
    let values = match part {
        Part::PublicKey {
            modulus_bits,
            exponent,
            modulus,
            flags,
        } => format!("{modulus_bits} {} {} {flags}", hex(exponent), hex(modulus)),
        Part::Rule {
            rule_id,
            flags,
            generated_length,
            key_check,
            symmetric_format,
            asymmetric_format,
        } => format!(
            "{} {flags} {generated_length} {key_check} {symmetric_format} {asymmetric_format}",
            hex(rule_id)
        ),
        Part::ExportParameters {
            minimum,
            maximum,
            variant,
            cv,
        } => format!("{minimum} {maximum} {} {}", hex(variant), hex(cv)),
        Part::Information { flags } => format!("{flags}"),
        Part::Dates {
            flags,
            activation,
            expiration,
        } => format!("{flags} {} {}", hex(activation), hex(expiration)),
        other => runs(&mut other.clone()),
    };
    format!("{kind} {} {values}", values.split(' ').count())
}

/// The values of a part that has nothing but runs of bytes.
fn runs(part: &mut Part) -> String {
    let words: Vec<String> = part.runs_mut().iter().map(|run| hex(run)).collect();
    words.join(" ")
}

impl Cases {
    /// A question with its answer, once.
    pub fn ask(&mut self, question: &str, says: &str) {
        let line = format!("{question} = {says}");
        if self.seen.insert(line.clone()) {
            self.lines.push(line);
        }
    }

    /// A token that others are told by.
    pub fn base(&mut self, name: &str, token: &[u8]) {
        self.ask(&format!("base {name}"), &hex(token));
    }

    pub fn print(&self) {
        println!("{}", self.lines.join("\n"));
    }

    pub fn read(&mut self, token: &[u8]) {
        self.ask(
            &format!("read {}", hex(token)),
            &numbers(read_answer(token)),
        );
    }

    /// The reading as a draft: 0 with the rows, or the refusal.
    pub fn draft(&mut self, draft: &[u8]) {
        self.ask(
            &format!("draft {}", hex(draft)),
            &numbers(draft_answer(draft)),
        );
    }

    pub fn finish(&mut self, draft: &[u8]) {
        let says = numbers(writer::finish(draft));
        self.ask(&format!("finish {}", hex(draft)), &says);
    }

    pub fn start(&mut self, id: u8, draft: &[u8]) {
        let mut after = draft.to_vec();
        let says = numbers(writer::start(&mut after, id));
        let question = format!("start {id} {}", hex(draft));
        self.ask(&question, &format!("{says} {}", hex(&after)));
    }

    pub fn add(&mut self, part: &Part, draft: &[u8]) {
        let mut after = draft.to_vec();
        let says = numbers(writer::add(&mut after, part));
        let question = format!("add {} {}", hex(draft), part_words(part));
        self.ask(&question, &format!("{says} {}", hex(&after)));
    }

    pub fn table(&mut self, token: &[u8], room: usize) {
        let mut table: Vec<u32> = (1..=room as u32).collect();
        let says = numbers(read_table(token, &mut table));
        let after: Vec<String> = table.iter().map(u32::to_string).collect();
        let question = format!("table {} {room}", hex(token));
        self.ask(&question, &format!("{says} {}", after.join(",")));
    }

    pub fn view(&mut self, token: &[u8], row: u32, field: u32) {
        let says = match view(token, row, field) {
            Ok((offset, length)) => format!("at {offset} {length}"),
            Err(refusal) => format!("missing {}", numbers(refusal)),
        };
        self.ask(&format!("view {} {row} {field}", hex(token)), &says);
    }

    pub fn step(&mut self, token: &[u8], place: usize) {
        let says = match step(token, place) {
            Step::Row(row, next) => format!("row {} {next}", row_word(&row)),
            Step::End => "end".to_string(),
            Step::Refused(refusal) => format!("stopped {}", numbers(refusal)),
        };
        self.ask(&format!("step {} {place}", hex(token)), &says);
    }

    pub fn first_line(&mut self, id: u8, length: usize, answer: Answer) {
        let says = listing::first_line(id, length, answer);
        let question = format!("first {id} {length} {}", numbers(answer));
        self.ask(&question, &hex(says.as_bytes()));
    }

    pub fn row_line(&mut self, place: usize, row: &Row) {
        let says = listing::row_line(place, row);
        let question = format!("line {place} {}", row_word(row));
        self.ask(&question, &hex(says.as_bytes()));
    }
}

/// The answer of reading a draft, with its rows counted.
pub fn draft_answer(draft: &[u8]) -> Answer {
    match read_draft(draft) {
        Ok(rows) => Answer::new(0, rows.len()),
        Err(refusal) => refusal,
    }
}
