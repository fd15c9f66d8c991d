//! Writes what the fuzzer begins with into a folder: `reading` with tokens,
//! `writing` with sequences of writer calls.

use std::fs::{create_dir_all, write};
use std::path::Path;
use trusted_block_tests::fuzzed::coded::coded;
use trusted_block_tests::generate::calls::{sequence, Call, Sequence};
use trusted_block_tests::generate::damage::damaged;
use trusted_block_tests::generate::legal::{legal, ordinary};
use trusted_block_tests::kinds;
use trusted_block_tests::parts::Part;
use trusted_block_tests::random::Random;
use trusted_block_tests::sample_files::samples;
use trusted_block_tests::samples::token_of_all_kinds;
use trusted_block_tests::views::taken_apart;

/// Generated ones of each sort.
const COUNT: usize = 150;

fn main() -> std::io::Result<()> {
    let folder = std::env::args().nth(1).expect("the folder to write into");
    let mut random = Random::new(0x7365_6564);
    let mut tokens: Vec<Vec<u8>> = samples().into_iter().map(|s| s.token).collect();
    tokens.push(token_of_all_kinds());
    let by_hand = tokens.len();
    for _ in 0..COUNT {
        tokens.push(ordinary(&mut random).bytes);
        tokens.push(damaged(&mut random).bytes);
    }
    tokens.extend((0..COUNT / 10).map(|_| legal(&mut random).bytes));
    let mut calls: Vec<Vec<u8>> = tokens
        .iter()
        .take(by_hand)
        .filter_map(|t| rebuilding(t))
        .collect();
    calls.extend((0..3 * COUNT).map(|_| coded(&sequence(&mut random))));
    calls.extend(short_last_sections());
    write_all(&Path::new(&folder).join("reading"), &tokens)?;
    write_all(&Path::new(&folder).join("writing"), &calls)
}

/// The calls that build a legal token.
fn rebuilding(token: &[u8]) -> Option<Vec<u8>> {
    let (id, parts) = taken_apart(token).ok()?;
    let mut calls = vec![Call::Start { id }];
    calls.extend(parts.into_iter().map(Call::Add));
    calls.push(Call::Finish);
    let buffer = vec![0xEE; token.len()];
    Some(coded(&Sequence { buffer, calls }))
}

/// An addition to a draft whose last section ends within its own fields.
fn short_last_sections() -> [Vec<u8>; 2] {
    let variant = Part::TransportVariant { variant: vec![] };
    let dates = Part::Dates {
        flags: 0,
        activation: vec![0x07, 0xD0, 1, 1],
        expiration: vec![0x07, 0xD0, 1, 1],
    };
    [variant, dates].map(|part| {
        let id = (kinds::owner_of(part.kind()) >> 16) as u8;
        let mut buffer = vec![0xEE; 100];
        buffer[..12].copy_from_slice(&[kinds::EXTERNAL, 0, 0, 12, 0, 0, 0, 0, id, 0, 0, 4]);
        let calls = vec![Call::Add(part)];
        coded(&Sequence { buffer, calls })
    })
}

fn write_all(folder: &Path, seeds: &[Vec<u8>]) -> std::io::Result<()> {
    create_dir_all(folder)?;
    for (index, seed) in seeds.iter().enumerate() {
        write(folder.join(format!("seed-{index:03}")), seed)?;
    }
    Ok(())
}
