//! The input stands for a sequence of writer calls on a draft.
#![no_main]

use trusted_block_fuzz::{change_list, changed, changed_call, Random};
use trusted_block_tests::fuzzed::coded::{coded, decoded};
use trusted_block_tests::fuzzed::writing;
use trusted_block_tests::generate::calls::{any_part, Call};

trusted_block_fuzz::target!(writing::compare, other_input);

/// Changes bytes, or the list of calls.
fn other_input(random: &mut Random, given: &[u8], most: usize) -> Vec<u8> {
    if random.coin() {
        changed(given, most)
    } else {
        other_calls(random, given)
    }
}

/// One call changed, or the list of calls.
fn other_calls(random: &mut Random, given: &[u8]) -> Vec<u8> {
    let mut sequence = decoded(given);
    let calls = &mut sequence.calls;
    if random.coin() && !calls.is_empty() {
        let index = random.below(calls.len());
        calls[index] = changed_call(&calls[index]).unwrap_or(Call::Finish);
    } else {
        for _ in 0..random.between(1, 3) {
            change_list(random, calls, any_call);
        }
    }
    coded(&sequence)
}

fn any_call(random: &mut Random) -> Call {
    match random.below(12) {
        0 => Call::Start {
            id: random.pick(&[0x1E, 0x1F, 0x20]),
        },
        1 => Call::Finish,
        2 => Call::SetByte {
            place: random.below(600),
            value: random.pick_or_any(&[0, 1, 8, 0x1E, 0x1F]),
        },
        _ => Call::Add(any_part(random)),
    }
}
