//! The writer over generated parts and sequences of calls.

mod common;

use common::{answer, assert_exactly, token_of_all_kinds};
use trusted_block_tests::generate::calls::{sequence, Call};
use trusted_block_tests::generate::legal::{legal, with_bare_rules, with_most_rows, Token};
use trusted_block_tests::kinds::{EXPORT_PARAMETERS, LONGEST};
use trusted_block_tests::parts::{written, Part};
use trusted_block_tests::random::Random;
use trusted_block_tests::reader::{number, read, read_answer, read_draft, Answer};
use trusted_block_tests::views::taken_apart;
use trusted_block_tests::writer;

/// Builds a token from its parts in a buffer with this much more room.
fn rebuild(token: &Token, more: usize) {
    let (id, parts) = taken_apart(&token.bytes).expect("legal");
    assert_eq!(parts, token.parts);
    let mut draft = vec![0x77; token.bytes.len() + more];
    assert_eq!(writer::start(&mut draft, id), answer(0, 8));
    for count in 0..parts.len() {
        let added = writer::add(&mut draft, &parts[count]);
        let beginning = written(id, &parts[..=count]).expect("legal parts");
        assert_eq!(added, answer(0, beginning.len() as u32));
        assert_eq!(draft[..beginning.len()], beginning);
        assert!(draft[beginning.len()..].iter().all(|byte| *byte == 0x77));
    }
    let length = token.bytes.len();
    assert_eq!(writer::finish(&draft), answer(0, length as u32));
    assert_eq!(draft[..length], token.bytes);
}

#[test]
fn every_legal_token_is_rebuilt_byte_for_byte() {
    let mut random = Random::new(0x7265_6275);
    let mut count = 0;
    while count < 4000 {
        let token = legal(&mut random);
        if token.parts.len() < 60 {
            let more = random.pick(&[0, 0, 1, 500]);
            rebuild(&token, more);
            count += 1;
        }
    }
    for _ in 0..3 {
        rebuild(&with_bare_rules(&mut random, 171), 0);
        rebuild(&with_most_rows(&mut random), 0);
    }
}

#[test]
fn a_token_written_by_hand_is_rebuilt() {
    let bytes = token_of_all_kinds();
    let (id, parts) = taken_apart(&bytes).expect("legal");
    assert_eq!(parts.len(), 12);
    rebuild(&Token { id, parts, bytes }, 0);
}

/// What a call answers and makes of the buffer, by the sentences of document
/// 01 about calls; `parts` are those added since an undisturbed start.
struct Run {
    buffer: Vec<u8>,
    parts: Option<(u8, Vec<Part>)>,
}

impl Run {
    fn call(&mut self, call: &Call) -> Option<Answer> {
        let before = self.buffer.clone();
        match call {
            Call::Start { id } => {
                let answer = writer::start(&mut self.buffer, *id);
                self.check_start(*id, answer, &before);
                Some(answer)
            }
            Call::Add(part) => {
                let answer = writer::add(&mut self.buffer, part);
                self.check_addition(part, answer, &before);
                Some(answer)
            }
            Call::Finish => {
                let answer = writer::finish(&self.buffer);
                assert_eq!(self.buffer, before);
                self.check_finish(answer);
                Some(answer)
            }
            Call::SetByte { place, value } => {
                if let Some(byte) = self.buffer.get_mut(*place) {
                    *byte = *value;
                    self.parts = None;
                }
                None
            }
        }
    }

    fn check_start(&mut self, id: u8, given: Answer, before: &[u8]) {
        if given.number != 0 {
            assert_eq!(self.buffer, before);
            let number = if before.len() < 8 { 23 } else { 2 };
            assert_eq!(given, answer(number, 0));
            return;
        }
        assert_eq!(given, answer(0, 8));
        assert_eq!(self.buffer[..8], [id, 0, 0, 8, 0, 0, 0, 0]);
        assert_eq!(self.buffer[8..], before[8..]);
        self.parts = Some((id, vec![]));
    }

    fn check_addition(&mut self, part: &Part, given: Answer, before: &[u8]) {
        if let Err(refusal) = read_draft(before) {
            assert_eq!(given, refusal);
            assert_eq!(self.buffer, before);
            return;
        }
        let length = number(&before[2..4]);
        let longer = length + part.size();
        if given.number != 0 {
            assert_eq!(self.buffer, before);
            self.check_refused_addition(part, given, length);
            return;
        }
        assert_eq!(given, answer(0, longer as u32));
        assert!(longer <= LONGEST && longer <= before.len());
        assert_eq!(read_draft(&self.buffer).map(|rows| rows.len()).ok(), {
            let rows = read_draft(before).expect("tested above").len();
            Some(rows + 1)
        });
        assert_eq!(self.buffer[longer..], before[longer..]);
        let changed = (0..length).filter(|place| self.buffer[*place] != before[*place]);
        let least = if part.is_section() { 2 } else { 4 };
        assert!(changed.count() <= least);
        if let Some((id, parts)) = &mut self.parts {
            parts.push(part.clone());
            let expected = written(*id, parts).expect("accepted parts have a written form");
            assert_eq!(self.buffer[..longer], expected);
        }
    }

    /// A refused addition to a draft without a fault of its own.
    fn check_refused_addition(&self, part: &Part, given: Answer, length: usize) {
        let longer = length + part.size();
        let has_room = longer <= LONGEST && longer <= self.buffer.len();
        if !part.fields_fit() {
            assert_eq!(given, answer(24, length as u32));
        } else if [23, 25].contains(&given.number) {
            assert_eq!(given.second, length as u32);
            assert!(given.number == 25 || !has_room);
            assert!(given.number == 23 || !part.is_section());
        } else {
            assert!(has_room);
            let possible = [9, 11, 14, 16, 17, 18, 19, 21];
            assert!(possible.contains(&given.number), "{given:?} for {part:?}");
            // In the part that would be added, for 9 and 14 at its start; an
            // earlier 0005 may be at fault by a 0003 that is added.
            let place = given.second as usize;
            assert!(place < longer, "{given:?} for {part:?}");
            match given.number {
                9 | 14 => assert_eq!(place, length),
                18 => assert!(place > length || part.kind() == EXPORT_PARAMETERS),
                _ => assert!(place > length, "{given:?} for {part:?}"),
            }
        }
        // The parts with this one more have no written form, or one that is
        // too long or no draft: the refusal is the reading's own.
        if let Some((id, parts)) = &self.parts {
            let with_part = [&parts[..], std::slice::from_ref(part)].concat();
            match written(*id, &with_part) {
                None => assert!([23, 24, 25].contains(&given.number)),
                Some(bytes) if has_room => assert_eq!(read_draft(&bytes), Err(given)),
                Some(_) => assert_eq!(given.number, 23),
            }
        }
    }

    fn check_finish(&self, given: Answer) {
        if let Err(refusal) = read_draft(&self.buffer) {
            assert_eq!(given, refusal);
            return;
        }
        let length = number(&self.buffer[2..4]);
        let token = &self.buffer[..length];
        match given.number {
            0 => {
                assert_eq!(given.second as usize, length);
                assert!(read(token).is_ok());
            }
            _ => {
                assert_eq!(given.number, 20);
                assert_eq!(given, read_answer(token));
            }
        }
        if let (0, Some((id, parts))) = (given.number, &self.parts) {
            assert_eq!(taken_apart(token), Ok((*id, parts.clone())));
        }
    }
}

/// How often each number was answered to starts, additions and finishes.
#[derive(Default)]
struct Tally {
    starts: [usize; 26],
    additions: [usize; 26],
    fresh_additions: [usize; 26],
    finishes: [usize; 26],
}

impl Tally {
    fn add(&mut self, call: &Call, fresh: bool, answer: Answer) {
        let number = answer.number as usize;
        match call {
            Call::Start { .. } => self.starts[number] += 1,
            Call::Add(_) => {
                self.additions[number] += 1;
                self.fresh_additions[number] += usize::from(fresh);
            }
            _ => self.finishes[number] += 1,
        }
    }
}

#[test]
fn sequences_of_calls_keep_the_sentences_about_calls() {
    let mut random = Random::new(0x7772_6974);
    let mut tally = Tally::default();
    for _ in 0..60_000 {
        let sequence = sequence(&mut random);
        let mut run = Run {
            buffer: sequence.buffer,
            parts: None,
        };
        for call in &sequence.calls {
            let fresh = run.parts.is_some();
            if let Some(answer) = run.call(call) {
                tally.add(call, fresh, answer);
            }
        }
    }
    assert_exactly(&tally.starts, &[0, 2, 23], 100);
    let all_but_20: Vec<usize> = (0..=25).filter(|n| ![20, 22].contains(n)).collect();
    assert_exactly(&tally.additions, &all_but_20, 10);
    let fresh = [0, 9, 11, 14, 16, 17, 18, 19, 21, 23, 24, 25];
    assert_exactly(&tally.fresh_additions, &fresh, 50);
    let finishes: Vec<usize> = (0..=21).collect();
    assert_exactly(&tally.finishes, &finishes, 10);
}

#[test]
fn an_addition_after_the_wrong_section_or_none_is_25() {
    let protection = Part::Protection {
        mac_key: vec![0; 32],
        mac: vec![0; 8],
        mkvp: vec![0; 16],
    };
    let reference = Part::TransportRule {
        rule_id: b"A       ".to_vec(),
    };
    let mut draft = [0; 200];
    writer::start(&mut draft, 0x1E);
    assert_eq!(writer::add(&mut draft, &protection), answer(25, 8));
    assert_eq!(writer::add(&mut draft, &reference), answer(25, 8));
    writer::add(&mut draft, &Part::Information { flags: 1 });
    assert_eq!(writer::add(&mut draft, &reference), answer(25, 18));
    assert_eq!(writer::add(&mut draft, &protection), answer(0, 80));
    assert_eq!(writer::add(&mut draft, &protection), answer(14, 80));
    let data = Part::ApplicationData { data: vec![] };
    assert_eq!(writer::add(&mut draft, &data), answer(0, 86));
    assert_eq!(writer::add(&mut draft, &protection), answer(25, 86));
}

#[test]
fn draft_lengths_outside_8_to_3500_are_4() {
    let data = Part::ApplicationData { data: vec![] };
    for (length, size, right) in [
        (0, 100, false),
        (7, 100, false),
        (8, 8, true),
        (8, 100, true),
        (9, 8, false),
        (LONGEST + 1, 5000, false),
        (65_535, 70_000, false),
    ] {
        let stated = (length as u16).to_be_bytes();
        let mut draft = vec![0; size];
        draft[..4].copy_from_slice(&[0x1E, 0, stated[0], stated[1]]);
        let before = draft.clone();
        let expected = if right { answer(20, 8) } else { answer(4, 2) };
        assert_eq!(writer::finish(&draft), expected);
        let added = writer::add(&mut draft, &data);
        if !right {
            assert_eq!(added, answer(4, 2));
            assert_eq!(draft, before);
        } else if size == 8 {
            assert_eq!(added, answer(23, 8));
        } else {
            assert_eq!(added, answer(0, 14));
        }
    }
}
