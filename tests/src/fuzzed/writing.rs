//! A sequence of writer calls, by the library and the second writer. Panics
//! where an answer or a byte differs.

use super::coded::decoded;
use crate::generate::calls::{Call, Sequence};
use crate::library;
use crate::library_writer;
use crate::parts::{written, Part};
use crate::reader::Answer;
use crate::writer;

/// Bytes before and after the draft lent, which must not change either.
const AROUND: usize = 16;

/// The calls that these bytes stand for; gives their answers.
pub fn compare(input: &[u8]) -> Vec<Answer> {
    run(&decoded(input))
}

/// Makes the calls on two drafts, one for each writer.
pub fn run(sequence: &Sequence) -> Vec<Answer> {
    let mut trial = Trial::new(&sequence.buffer);
    let mut answers = Vec::new();
    for call in &sequence.calls {
        answers.extend(trial.call(call));
    }
    answers
}

/// The library's draft with bytes around it, the second writer's draft, and
/// the parts added since a start that nothing has disturbed.
struct Trial {
    lent: Vec<u8>,
    second: Vec<u8>,
    parts: Option<(u8, Vec<Part>)>,
}

impl Trial {
    fn new(buffer: &[u8]) -> Trial {
        let around = [0xA5; AROUND];
        Trial {
            lent: [&around[..], buffer, &around[..]].concat(),
            second: buffer.to_vec(),
            parts: None,
        }
    }

    /// The draft lent to the library.
    fn draft(&mut self) -> &mut [u8] {
        let end = self.lent.len() - AROUND;
        &mut self.lent[AROUND..end]
    }

    fn call(&mut self, call: &Call) -> Option<Answer> {
        let (given, expected) = match call {
            Call::Start { id } => self.start(*id),
            Call::Add(part) => self.add(part),
            Call::Finish => self.finish(),
            Call::SetByte { place, value } => {
                self.set_byte(*place, *value);
                return None;
            }
        };
        assert_eq!(given, expected, "{call:?}");
        self.compare_bytes(call);
        Some(given)
    }

    fn start(&mut self, id: u8) -> (Answer, Answer) {
        let given = library_writer::start(self.draft(), id);
        if given.number == 0 {
            self.parts = Some((id, Vec::new()));
        }
        (given, writer::start(&mut self.second, id))
    }

    fn add(&mut self, part: &Part) -> (Answer, Answer) {
        let given = library_writer::add(self.draft(), part);
        if let (0, Some((_, parts))) = (given.number, &mut self.parts) {
            parts.push(part.clone());
        }
        (given, writer::add(&mut self.second, part))
    }

    /// A finished draft is the written form of what was added, and is read.
    fn finish(&mut self) -> (Answer, Answer) {
        let given = library_writer::finish(self.draft());
        if given.number == 0 {
            let token = self.draft()[..given.second as usize].to_vec();
            assert_eq!(library::read(&token).number, 0, "a finished token");
            if let Some((id, parts)) = &self.parts {
                assert_eq!(written(*id, parts), Some(token), "its parts");
            }
        }
        (given, writer::finish(&self.second))
    }

    /// From outside the writer; a place past the draft is nothing.
    fn set_byte(&mut self, place: usize, value: u8) {
        if let Some(byte) = self.second.get_mut(place) {
            *byte = value;
            self.draft()[place] = value;
            self.parts = None;
        }
    }

    fn compare_bytes(&mut self, call: &Call) {
        let end = self.lent.len() - AROUND;
        assert!(
            self.lent[AROUND..end] == self.second,
            "bytes after {call:?}"
        );
        let mut around = self.lent[..AROUND].iter().chain(&self.lent[end..]);
        assert!(around.all(|byte| *byte == 0xA5), "outside after {call:?}");
    }
}
