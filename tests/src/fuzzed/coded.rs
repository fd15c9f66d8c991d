//! Sequences of writer calls as bytes. Any bytes stand for some sequence:
//! what is missing at their end is 0.
//!
//! First the buffer: its size in two bytes, the byte that fills it, and a
//! field with what stands at its start. Then the calls, each a byte with its
//! number and its values in order, numbers big-endian. A field is its length
//! in a byte, up to 250, and its bytes; or 251, its length in two bytes and
//! its bytes; or 252, its length in two bytes and one byte that is repeated;
//! or 253 and how much longer than 65,535 it is.

use crate::generate::calls::{Call, Sequence};
use crate::kinds;
use crate::parts::Part;
use crate::views::part_of;
use std::mem::take;

/// Sizes of buffers are below this, but for one.
const SIZES: u16 = 5000;
/// A buffer longer than any length field can state.
const HUGE: usize = 70_000;
/// Calls after these are left out.
const MOST_CALLS: usize = 200;

const START: u8 = 12;
const FINISH: u8 = 13;
const SET_BYTE: u8 = 14;

/// The bytes not yet taken.
struct Input<'a> {
    rest: &'a [u8],
}

impl Input<'_> {
    fn one(&mut self) -> u8 {
        let Some((first, rest)) = self.rest.split_first() else {
            return 0;
        };
        self.rest = rest;
        *first
    }

    fn two(&mut self) -> u16 {
        u16::from_be_bytes([self.one(), self.one()])
    }

    fn bytes(&mut self, length: usize) -> Vec<u8> {
        let there = length.min(self.rest.len());
        let (bytes, rest) = self.rest.split_at(there);
        self.rest = rest;
        let mut bytes = bytes.to_vec();
        bytes.resize(length, 0);
        bytes
    }

    fn field(&mut self) -> Vec<u8> {
        match self.one() {
            length @ 0..=250 => self.bytes(length.into()),
            251 => {
                let length = self.two();
                self.bytes(length.into())
            }
            252 => {
                let length = self.two();
                vec![self.one(); length.into()]
            }
            253 => vec![0; 0x1_0000 + usize::from(self.one())],
            _ => Vec::new(),
        }
    }
}

/// The sequence that these bytes stand for.
pub fn decoded(bytes: &[u8]) -> Sequence {
    let mut input = Input { rest: bytes };
    let size = match input.two() {
        u16::MAX => HUGE,
        size => usize::from(size % SIZES),
    };
    let mut buffer = vec![input.one(); size];
    let first = input.field();
    let there = first.len().min(size);
    buffer[..there].copy_from_slice(&first[..there]);
    let mut calls = Vec::new();
    while !input.rest.is_empty() && calls.len() < MOST_CALLS {
        calls.push(call(&mut input));
    }
    Sequence { buffer, calls }
}

fn call(input: &mut Input) -> Call {
    match input.one() % 16 {
        START => Call::Start { id: input.one() },
        SET_BYTE => Call::SetByte {
            place: input.two().into(),
            value: input.one(),
        },
        index @ 0..=11 => Call::Add(part(kinds::ALL[usize::from(index)], input)),
        _ => Call::Finish,
    }
}

/// The width in [`stated`] of a field that is a run of bytes.
const RUN: usize = 0;

/// Of the fields of a kind those that a part states, in order: the number of
/// each in document 01, and its width.
fn stated(kind: u32) -> &'static [(usize, usize)] {
    match kind {
        kinds::PUBLIC_KEY => &[(5, 2), (7, RUN), (8, RUN), (9, 4)],
        kinds::RULE => &[(3, RUN), (4, 4), (5, 1), (6, 1), (7, 1), (8, 1)],
        kinds::TRANSPORT_VARIANT => &[(5, RUN)],
        kinds::TRANSPORT_RULE | kinds::SOURCE_RULE => &[(4, RUN)],
        kinds::EXPORT_PARAMETERS => &[(5, 1), (6, 1), (8, RUN), (10, RUN)],
        kinds::TOKEN_PARAMETERS => &[(6, RUN), (7, RUN), (9, RUN)],
        kinds::NAME => &[(3, RUN)],
        kinds::INFORMATION => &[(4, 4)],
        kinds::PROTECTION => &[(4, RUN), (5, RUN), (6, RUN)],
        kinds::DATES => &[(4, 2), (5, RUN), (6, RUN)],
        _ => &[(4, RUN)],
    }
}

/// The most fields that a kind has.
const MOST_FIELDS: usize = 11;

fn part(kind: u32, input: &mut Input) -> Part {
    let mut fields = vec![Vec::new(); MOST_FIELDS];
    for (index, width) in stated(kind) {
        fields[*index] = match *width {
            RUN => input.field(),
            width => input.bytes(width),
        };
    }
    let fields: Vec<&[u8]> = fields.iter().map(Vec::as_slice).collect();
    part_of(kind, &fields)
}

/// Bytes that stand for the sequence, but that a buffer and a field which are
/// too long are cut.
pub fn coded(sequence: &Sequence) -> Vec<u8> {
    let buffer = &sequence.buffer;
    let size = (buffer.len() as u16).min(SIZES - 1);
    let fill = buffer.last().copied().unwrap_or(0);
    let mut output = size.to_be_bytes().to_vec();
    output.push(fill);
    let first = buffer.iter().rposition(|byte| *byte != fill);
    put_field(&mut output, &buffer[..first.map_or(0, |last| last + 1)]);
    for call in &sequence.calls {
        put_call(&mut output, call);
    }
    output
}

fn put_call(output: &mut Vec<u8>, call: &Call) {
    match call {
        Call::Start { id } => output.extend([START, *id]),
        Call::Finish => output.push(FINISH),
        Call::SetByte { place, value } => {
            output.push(SET_BYTE);
            output.extend((*place as u16).to_be_bytes());
            output.push(*value);
        }
        Call::Add(part) => {
            let index = kinds::ALL.iter().position(|kind| *kind == part.kind());
            output.push(index.expect("a listed kind") as u8);
            put_part(output, part);
        }
    }
}

fn put_part(output: &mut Vec<u8>, part: &Part) {
    let mut part = part.clone();
    let runs: Vec<Vec<u8>> = part.runs_mut().into_iter().map(take).collect();
    // Its numbers, with the runs taken out: these need not fit.
    let numbers = part.fields(0);
    let mut runs = runs.iter();
    for (index, width) in stated(part.kind()) {
        match *width {
            RUN => put_field(output, runs.next().expect("a run for each")),
            _ => output.extend(&numbers[*index]),
        }
    }
}

fn put_field(output: &mut Vec<u8>, field: &[u8]) {
    let one_byte = field.iter().all(|byte| *byte == field[0]);
    match (u16::try_from(field.len()), one_byte) {
        (Err(_), _) => {
            let more = (field.len() - 0x1_0000).min(255);
            output.extend([253, more as u8]);
        }
        (Ok(length), true) if length > 8 => {
            output.push(252);
            output.extend(length.to_be_bytes());
            output.push(field[0]);
        }
        (Ok(length @ 0..=250), _) => {
            output.push(length as u8);
            output.extend(field);
        }
        (Ok(length), _) => {
            output.push(251);
            output.extend(length.to_be_bytes());
            output.extend(field);
        }
    }
}
