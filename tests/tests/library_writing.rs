//! The library's writer against the second writer. How many sequences of
//! calls is set by TRUSTED_BLOCK_TOKENS.

mod common;

use common::twins::Twins;
use common::{answer, assert_exactly, count_of_tokens, token_of_all_kinds, Tally};
use std::ptr::{null, null_mut};
use trusted_block_tests::generate::calls::{sequence, Call};
use trusted_block_tests::generate::legal::{legal, with_bare_rules, with_most_rows, Token};
use trusted_block_tests::kinds::{is_section, ALL, HEADER, LONGEST};
use trusted_block_tests::library;
use trusted_block_tests::library_writer::{add, add_at, calls, finish, start};
use trusted_block_tests::parts::Part;
use trusted_block_tests::random::Random;
use trusted_block_tests::reader::{number, Answer, COLUMNS, TABLE};
use trusted_block_tests::views::{part_of, taken_apart};

/// What is to be met among the additions of the sequences, each often.
const ROOMS: [&str; 8] = [
    "a buffer under 8 bytes",
    "a buffer of 8 bytes",
    "a header that states more than there is",
    "a part that fills the buffer",
    "a part one byte longer than the buffer's rest",
    "a part that fills 3,500 bytes",
    "a part that passes 3,500 bytes in a larger buffer",
    "an accepted part in a larger buffer",
];

/// Which of these an addition is. `draft` is the buffer before it.
fn rooms(draft: &[u8], part: &Part, given: Answer) -> [bool; 8] {
    let room = draft.len();
    let accepted = given.number == 0;
    let stated = draft.get(2..4).map_or(0, number);
    let longer = stated + part.size();
    [
        room < HEADER && given.number == 1,
        room == HEADER,
        stated > room && given.number == 4,
        accepted && longer == room,
        given.number == 23 && longer == room + 1,
        accepted && longer == LONGEST,
        given.number == 23 && longer > LONGEST && longer <= room,
        accepted && room > LONGEST,
    ]
}

/// How often each number was answered, and each sort of room met.
#[derive(Default)]
struct Counts {
    starts: Tally,
    additions: Tally,
    finishes: Tally,
    rooms: [usize; 8],
}

impl Counts {
    /// All calls of a sequence, by the library and the second writer.
    fn run(&mut self, buffer: &[u8], calls: &[Call], seed: u64) {
        let mut twins = Twins::new(buffer, seed);
        for call in calls {
            let before = twins.draft().to_vec();
            let Some(given) = twins.call(call) else {
                continue;
            };
            match call {
                Call::Add(part) => {
                    self.additions.add(given);
                    let met = rooms(&before, part, given);
                    for (count, met) in self.rooms.iter_mut().zip(met) {
                        *count += usize::from(met);
                    }
                }
                Call::Start { .. } => self.starts.add(given),
                _ => self.finishes.add(given),
            }
        }
    }
}

/// 22 is no answer of a writer. A start answers 0, 2 or 23; an addition never
/// 20, since a draft is read under all rules but that; a finish only what a
/// reading does.
#[test]
fn sequences_of_calls() {
    let mut random = Random::new(0x6C69_7772);
    let mut counts = Counts::default();
    let sequences = (count_of_tokens() / 5).max(40_000);
    for turn in 0..sequences {
        let sequence = sequence(&mut random);
        counts.run(&sequence.buffer, &sequence.calls, turn as u64);
    }
    println!("starts gave {:?}", counts.starts.numbers);
    println!("additions gave {:?}", counts.additions.numbers);
    println!("finishes gave {:?}", counts.finishes.numbers);
    assert_exactly(&counts.starts.numbers, &[0, 2, 23], 100);
    let all_but_20: Vec<usize> = (0..=25).filter(|n| ![20, 22].contains(n)).collect();
    assert_exactly(&counts.additions.numbers, &all_but_20, 20);
    let reading: Vec<usize> = (0..=21).collect();
    assert_exactly(&counts.finishes.numbers, &reading, 20);
    for (room, count) in ROOMS.iter().zip(counts.rooms) {
        println!("{room}: {count}");
        assert!(count >= 20, "{room}: {count}");
    }
}

/// The identifier and the parts of a token, by the library's table and views.
fn taken_apart_by_the_library(token: &[u8]) -> (u8, Vec<Part>) {
    let mut table = [0; TABLE];
    let rows = library::read_table(token, &mut table);
    assert_eq!(rows.number, 0);
    let part = |row: u32| {
        let fields = (0..).map_while(|field| library::view(token, row, field).ok());
        let bytes = |(offset, length): (u32, u32)| &token[offset as usize..][..length as usize];
        let fields: Vec<&[u8]> = fields.map(bytes).collect();
        part_of(table[COLUMNS * row as usize], &fields)
    };
    (token[0], (0..rows.second).map(part).collect())
}

/// Starts a draft in this much room and adds the first parts of a token. Each
/// beginning must be the token cut there, with the lengths of the header and
/// of the last section in line, and nothing behind it changes.
fn build(token: &Token, parts: &[Part], room: usize) -> Vec<u8> {
    let mut draft = vec![0x77; room];
    assert_eq!(start(&mut draft, token.id), answer(0, 8));
    let (mut length, mut section) = (HEADER, 0);
    for part in parts {
        if part.is_section() {
            section = length;
        }
        length += part.size();
        assert_eq!(add(&mut draft, part), Answer::new(0, length));
        let mut wanted = token.bytes[..length].to_vec();
        wanted[2..4].copy_from_slice(&(length as u16).to_be_bytes());
        let section_length = (length - section) as u16;
        wanted[section + 2..section + 4].copy_from_slice(&section_length.to_be_bytes());
        assert_eq!(draft[..length], wanted);
        assert!(draft[length..].iter().all(|byte| *byte == 0x77));
    }
    draft
}

/// Takes a token apart and builds it again, with exact room and with more; a
/// byte too little is 23 at the last part.
fn rebuild(token: &Token, more: usize) {
    let length = token.bytes.len();
    let (id, parts) = taken_apart_by_the_library(&token.bytes);
    assert_eq!((id, &parts), (token.id, &token.parts));
    for room in [length, length + more] {
        let draft = build(token, &parts, room);
        assert_eq!(finish(&draft), Answer::new(0, length));
        assert_eq!(draft[..length], token.bytes);
    }
    let (last, others) = parts.split_last().expect("legal tokens have parts");
    let mut draft = build(token, others, length - 1);
    let before = draft.clone();
    assert_eq!(add(&mut draft, last), Answer::new(23, length - last.size()));
    assert_eq!(draft, before);
}

#[test]
fn legal_tokens_are_rebuilt_byte_for_byte() {
    let mut random = Random::new(0x6C69_7265);
    let mut tokens: Vec<Token> = (0..3000).map(|_| legal(&mut random)).collect();
    for _ in 0..4 {
        tokens.push(with_bare_rules(&mut random, 171));
        tokens.push(with_most_rows(&mut random));
    }
    let bytes = token_of_all_kinds();
    let (id, parts) = taken_apart(&bytes).expect("legal");
    tokens.push(Token { id, parts, bytes });
    for token in &tokens {
        let more = random.pick(&[1, 20, 500, 4000]);
        rebuild(token, more);
    }
    let count = |kind| {
        let parts = tokens.iter().flat_map(|token| &token.parts);
        parts.filter(|part| part.kind() == kind).count()
    };
    let counts = ALL.map(count);
    println!("parts of each kind: {counts:?}");
    assert!(counts.iter().all(|count| *count >= 500), "{counts:?}");
    let full = tokens.iter().filter(|token| token.bytes.len() == LONGEST);
    assert!(full.count() >= 200);
}

/// A part of each kind whose runs of bytes are empty, the number that adding
/// it gives, and the draft it is added to.
fn parts_of_empty_fields() -> Vec<(Part, u32, Vec<Part>)> {
    let (_, parts) = taken_apart(&token_of_all_kinds()).expect("legal");
    let empty = |mut part: Part| {
        part.runs_mut().into_iter().for_each(Vec::clear);
        part
    };
    let numbers = [16, 24, 0, 24, 0, 24, 0, 24, 0, 24, 24, 0];
    let with_draft = |(kind, number): (&u32, u32)| {
        let part = parts.iter().find(|part| part.kind() == *kind);
        let owner = parts.iter().find(|part| part.kind() == *kind & 0xFF_0000);
        let draft = owner.filter(|_| !is_section(*kind)).cloned();
        let part = part.cloned().expect("all kinds are there");
        (empty(part), number, draft.into_iter().collect())
    };
    ALL.iter().zip(numbers).map(with_draft).collect()
}

#[test]
fn nothing_at_null_pointers_is_nothing() {
    for (part, number, beginning) in parts_of_empty_fields() {
        let mut twins = Twins::new(&[0x77; 200], 1);
        assert_eq!(twins.start(0x1E), answer(0, 8));
        for part in beginning {
            assert_eq!(twins.add(&part).number, 0);
        }
        let mut draft = twins.draft().to_vec();
        let given = twins.add(&part);
        assert_eq!(given.number, number, "{part:?}");
        let fields = [(null(), 0); 3];
        // SAFETY: the draft lives, and no byte of a field is lent.
        let by_null = unsafe { add_at((draft.as_mut_ptr(), draft.len()), &part, fields) };
        assert_eq!(by_null, given, "{part:?}");
        assert_eq!(draft, twins.draft());
        // SAFETY: no byte is lent.
        let no_draft = unsafe { add_at((null_mut(), 0), &part, fields) };
        assert_eq!(no_draft, answer(1, 0), "{part:?}");
    }
    let mut second = 7;
    // SAFETY: no byte of a draft is lent, and `second` lives.
    let number = unsafe { calls::tb_start(null_mut(), 0, 0x1E, &mut second) };
    assert_eq!((number, second), (23, 0));
    let mut second = 7;
    // SAFETY: as above.
    let number = unsafe { calls::tb_finish(null(), 0, &mut second) };
    assert_eq!((number, second), (1, 0));
    assert_eq!(start(&mut [], 0x1E), answer(23, 0));
    assert_eq!(finish(&[]), answer(1, 0));
}
