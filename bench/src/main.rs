//! The proved library against the optimised reader and writer in Rust, in one
//! run, the rounds of both interleaved. Prints times and ratios; it is no test.

mod measure;
mod tokens;
mod writing;

use measure::{interleaved, print, ROUNDS};
use std::hint::black_box;
use tokens::{samples, Sample};
use trusted_block_tests::fast::{fast_fill, fast_read};
use trusted_block_tests::library;
use trusted_block_tests::reader::{read_answer, Answer, TABLE};

fn main() {
    let asked = std::env::args().nth(1);
    let wanted = |what| asked.as_deref().is_none_or(|asked| asked == what);
    println!("median of {ROUNDS} rounds; library / Rust in ns, ratio (quartiles of the ratio)");
    if wanted("reading") {
        for sample in samples() {
            check(&sample);
            measure_read(&sample);
            measure_table(&sample);
        }
    }
    if wanted("writing") {
        writing::measure_all();
    }
}

/// Both give the answer of the second reader, before anything is measured.
fn check(sample: &Sample) {
    let token = &sample.token;
    let expected = read_answer(token);
    let (mut one, mut other) = ([7; TABLE], [7; TABLE]);
    assert_eq!(expected.number, sample.number, "{}", sample.name);
    assert_eq!(library::read(token), expected);
    assert_eq!(fast_read(token), expected);
    assert_eq!(library::read_table(token, &mut one), expected);
    assert_eq!(fast_fill(token, &mut other), expected);
    assert_eq!(one, other);
    let bytes = token.len();
    println!("{}: {bytes} bytes, {expected:?}", sample.name);
}

fn measure_read(sample: &Sample) {
    let token = &sample.token;
    let pairs = interleaved(
        || library::read(black_box(token)),
        || never_inlined_read(black_box(token)),
    );
    print("read", pairs);
}

/// The table holds the rows of the call before, and is warm.
fn measure_table(sample: &Sample) {
    let token = &sample.token;
    let (mut one, mut other) = (vec![7; TABLE], vec![7; TABLE]);
    let pairs = interleaved(
        || library::read_table(black_box(token), black_box(&mut one)),
        || never_inlined_fill(black_box(token), black_box(&mut other)),
    );
    print("read into a table", pairs);
}

/// A call as the library's is: not inlined into the measuring loop.
#[inline(never)]
fn never_inlined_read(token: &[u8]) -> Answer {
    fast_read(token)
}

#[inline(never)]
fn never_inlined_fill(token: &[u8], table: &mut [u32]) -> Answer {
    fast_fill(token, table)
}
