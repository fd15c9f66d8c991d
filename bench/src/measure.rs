//! Two calls measured in turn, and the medians printed.

use std::hint::black_box;
use std::time::Instant;
use trusted_block_tests::reader::Answer;

/// Rounds of each of the two, one after the other in turn.
pub const ROUNDS: usize = 6001;

/// About how long one round takes: so short that few are interrupted.
const ROUND_NANOSECONDS: f64 = 100_000.0;

/// Nanoseconds of a call in each round, of one and of the other. Who begins
/// changes from round to round.
pub fn interleaved(
    mut one: impl FnMut() -> Answer,
    mut other: impl FnMut() -> Answer,
) -> Vec<(f64, f64)> {
    let calls = calls_per_round(&mut one);
    let mut pairs = Vec::with_capacity(ROUNDS);
    for round in 0..ROUNDS {
        if round % 2 == 0 {
            let first = time(&mut one, calls);
            pairs.push((first, time(&mut other, calls)));
        } else {
            let first = time(&mut other, calls);
            pairs.push((time(&mut one, calls), first));
        }
    }
    pairs
}

/// As many calls as make a round of about the wanted time.
fn calls_per_round(call: &mut impl FnMut() -> Answer) -> usize {
    time(call, 1000);
    let each = time(call, 1000);
    (ROUND_NANOSECONDS / each) as usize + 1
}

fn time(call: &mut impl FnMut() -> Answer, calls: usize) -> f64 {
    let began = Instant::now();
    for _ in 0..calls {
        black_box(call());
    }
    began.elapsed().as_nanos() as f64 / calls as f64
}

pub fn print(what: &str, pairs: Vec<(f64, f64)>) {
    let ours = sorted(pairs.iter().map(|pair| pair.0));
    let theirs = sorted(pairs.iter().map(|pair| pair.1));
    let ratios = sorted(pairs.iter().map(|pair| pair.0 / pair.1));
    println!(
        "  {what}: {:.1} / {:.1}, {:.2} ({:.2} to {:.2})",
        ours[ROUNDS / 2],
        theirs[ROUNDS / 2],
        ratios[ROUNDS / 2],
        ratios[ROUNDS / 4],
        ratios[3 * ROUNDS / 4],
    );
}

fn sorted(values: impl Iterator<Item = f64>) -> Vec<f64> {
    let mut values: Vec<f64> = values.collect();
    values.sort_by(f64::total_cmp);
    values
}
