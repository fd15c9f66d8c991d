//! Prints small questions with the answers of the second reader and writer,
//! a question to a line. tests/answers lets the prover compute the definitions
//! on the same questions: docs/TESTING.md.
//!
//! The modules of the second reader are taken by path, so that the program
//! stands without the proved library.

#![allow(dead_code)]

#[path = "../../checks.rs"]
mod checks;
#[path = "../../forms.rs"]
mod forms;
#[path = "../../kinds.rs"]
mod kinds;
#[path = "../../listing.rs"]
mod listing;
#[path = "../../parts.rs"]
mod parts;
#[path = "../../reader.rs"]
mod reader;
#[path = "../../samples.rs"]
mod samples;
#[path = "../../views.rs"]
mod views;
#[path = "../../writer.rs"]
mod writer;

/// Values of bytes at which an answer changes, pairs of faults, cuts.
mod boundaries;
/// The questions as lines.
mod cases;
/// Tokens with counted fields of many lengths, repeated and missing parts.
mod lengths;
/// Single fields, numbers given back, the paper's examples.
mod others;
/// Table, views, walk, listing.
mod rows;
/// Tokens that the questions begin with.
mod tokens;
/// Drafts, starts, additions, finishes.
mod writing;

fn main() {
    let mut cases = cases::Cases::default();
    for (name, token) in tokens::bases() {
        cases.base(name, &token);
    }
    boundaries::ask(&mut cases);
    lengths::ask(&mut cases);
    writing::ask(&mut cases);
    rows::ask(&mut cases);
    others::ask(&mut cases);
    cases.print();
}
