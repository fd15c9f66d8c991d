//! The library's writer and the second writer side by side.

use super::answer;
use std::ops::Range;
use trusted_block_tests::generate::calls::Call;
use trusted_block_tests::library_writer::{self, add_lending, lent_fields};
use trusted_block_tests::parts::Part;
use trusted_block_tests::random::Random;
use trusted_block_tests::reader::Answer;
use trusted_block_tests::writer;

/// Most bytes before and after what is lent, which must not change either.
const AROUND: usize = 16;

/// One draft twice, among the same random bytes and at any alignment. The
/// library works on one and the second writer on the other.
pub struct Twins {
    ours: Vec<u8>,
    theirs: Vec<u8>,
    here: Range<usize>,
    random: Random,
}

impl Twins {
    pub fn new(draft: &[u8], seed: u64) -> Twins {
        let mut random = Random::new(seed);
        let (ours, here) = among_other_bytes(&mut random, &[draft]);
        Twins {
            theirs: ours.clone(),
            ours,
            here: here[0].clone(),
            random,
        }
    }

    /// The draft; after each call it is the same in both.
    pub fn draft(&self) -> &[u8] {
        &self.theirs[self.here.clone()]
    }

    /// Makes the call on both; answers and all bytes must be the same. None
    /// for a byte set outside the writer.
    pub fn call(&mut self, call: &Call) -> Option<Answer> {
        let before = self.draft().to_vec();
        let ours = &mut self.ours[self.here.clone()];
        let theirs = &mut self.theirs[self.here.clone()];
        let (given, expected) = match call {
            Call::Start { id } => (library_writer::start(ours, *id), writer::start(theirs, *id)),
            Call::Add(part) => {
                let given = add_from_among_other_bytes(&mut self.random, ours, part);
                (given, writer::add(theirs, part))
            }
            Call::Finish => (library_writer::finish(ours), writer::finish(theirs)),
            Call::SetByte { place, value } => {
                if let Some(byte) = ours.get_mut(*place) {
                    *byte = *value;
                    theirs[*place] = *value;
                }
                return None;
            }
        };
        assert_eq!(given, expected, "{call:?} on {before:02X?}");
        assert!(
            self.ours == self.theirs,
            "{call:?} on {before:02X?} makes {:02X?}",
            &self.ours[self.here.clone()]
        );
        if given.number != 0 || matches!(call, Call::Finish) {
            assert!(self.draft() == before, "{call:?} on {before:02X?}");
        }
        Some(given)
    }

    pub fn start(&mut self, id: u8) -> Answer {
        self.call(&Call::Start { id }).expect("a writer's call")
    }

    pub fn add(&mut self, part: &Part) -> Answer {
        let call = Call::Add(part.clone());
        self.call(&call).expect("a writer's call")
    }

    pub fn finish(&mut self) -> Answer {
        self.call(&Call::Finish).expect("a writer's call")
    }
}

/// The pieces one after another, random bytes around each, and where they
/// lie.
fn among_other_bytes(random: &mut Random, pieces: &[&[u8]]) -> (Vec<u8>, Vec<Range<usize>>) {
    let mut bytes = Vec::new();
    let mut places = Vec::new();
    for piece in pieces {
        let before = random.between(1, AROUND);
        bytes.extend(random.bytes(before));
        places.push(bytes.len()..bytes.len() + piece.len());
        bytes.extend(*piece);
    }
    bytes.extend(random.bytes(AROUND));
    (bytes, places)
}

/// The library's addition of a part whose fields lie among other bytes. None
/// of these may change.
fn add_from_among_other_bytes(random: &mut Random, draft: &mut [u8], part: &Part) -> Answer {
    let (bytes, places) = among_other_bytes(random, &lent_fields(part));
    let before = bytes.clone();
    let fields = [0, 1, 2].map(|index: usize| &bytes[places[index].clone()]);
    let given = add_lending(draft, part, fields);
    assert!(bytes == before, "lent values changed: {part:?}");
    given
}

/// Adds to this draft in a buffer with this much more room.
pub fn added(draft: &[u8], more: usize, part: &Part) -> Answer {
    let mut buffer = draft.to_vec();
    buffer.resize(draft.len() + more, 0x77);
    Twins::new(&buffer, buffer.len() as u64).add(part)
}

/// What a refusal with the draft's length as its place is.
pub fn at_the_end(number: u32, draft: &[u8]) -> Answer {
    answer(number, draft.len() as u32)
}
