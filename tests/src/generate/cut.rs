//! A token cut into its fields. Fields may be given any bytes; the lengths
//! are brought in line again only where that is asked for.

use crate::kinds::{is_section, HEADER, LONGEST};
use crate::parts::Part;
use crate::random::Random;
use crate::reader::Answer;

/// One section without its subsections, or one subsection, or stray bytes.
#[derive(Clone, Debug)]
pub struct Piece {
    /// The kind before any damage; stray bytes have the kind of where they
    /// stand, 0 at the token's end and 1 inside a section.
    pub kind: u32,
    pub fields: Vec<Vec<u8>>,
}

impl Piece {
    pub fn is_section(&self) -> bool {
        is_section(self.kind)
    }

    pub fn size(&self) -> usize {
        self.fields.iter().map(Vec::len).sum()
    }

    /// The number of the field that holds the piece's own length.
    pub fn length_field(&self) -> usize {
        if self.is_section() {
            2
        } else {
            1
        }
    }

    pub fn set_length(&mut self, length: usize) {
        let field = self.length_field();
        if let Some(bytes) = self.fields.get_mut(field) {
            *bytes = (length as u16).to_be_bytes().to_vec();
        }
    }
}

/// Where a fault lies.
#[derive(Clone, Copy, Debug)]
pub enum At {
    /// A field of the header.
    Header(usize),
    /// The start of a piece.
    Piece(usize),
    /// A byte of a field of a piece: the piece, the field, the byte.
    Field(usize, usize, usize),
    End,
}

/// The number a fault gives when it is the only one, and where.
#[derive(Clone, Copy, Debug)]
pub struct Expected {
    pub number: u32,
    pub at: At,
}

/// The bytes of the fields before one.
fn before(fields: &[Vec<u8>], field: usize) -> usize {
    fields[..field].iter().map(Vec::len).sum()
}

#[derive(Clone, Debug)]
pub struct CutToken {
    pub header: Vec<Vec<u8>>,
    pub pieces: Vec<Piece>,
}

impl CutToken {
    pub fn new(id: u8, parts: &[Part]) -> CutToken {
        let pieces = parts.iter().map(|part| Piece {
            kind: part.kind(),
            fields: part.fields(part.size() as u16),
        });
        let mut cut = CutToken {
            header: vec![vec![id], vec![0], vec![0, 0], vec![0; 4]],
            pieces: pieces.collect(),
        };
        cut.bring_lengths_in_line();
        cut
    }

    pub fn size(&self) -> usize {
        HEADER + self.pieces.iter().map(Piece::size).sum::<usize>()
    }

    pub fn bytes(&self) -> Vec<u8> {
        let pieces = self.pieces.iter().flat_map(|piece| &piece.fields);
        self.header
            .iter()
            .chain(pieces)
            .flatten()
            .copied()
            .collect()
    }

    /// The place in the token at which a piece begins.
    pub fn place_of(&self, index: usize) -> usize {
        HEADER + self.pieces[..index].iter().map(Piece::size).sum::<usize>()
    }

    /// The answer to a single fault; a token that grew too long gives 4.
    pub fn answer(&self, expected: Expected) -> Answer {
        let Expected { number, at } = expected;
        if self.size() > LONGEST && ![1, 2, 3].contains(&number) {
            return Answer::new(4, before(&self.header, 2));
        }
        let place = match at {
            At::Header(field) => before(&self.header, field),
            At::Piece(index) => self.place_of(index),
            At::Field(index, field, byte) => {
                self.place_of(index) + before(&self.pieces[index].fields, field) + byte
            }
            At::End => self.size(),
        };
        Answer::new(number, place)
    }

    /// The index after the last piece of the section at `index`.
    pub fn end_of_section(&self, index: usize) -> usize {
        let following = self.pieces[index + 1..].iter();
        index + 1 + following.take_while(|piece| !piece.is_section()).count()
    }

    /// The index of the section that a piece belongs to, its own for a
    /// section.
    pub fn section_of(&self, index: usize) -> usize {
        (0..=index)
            .rev()
            .find(|before| self.pieces[*before].is_section())
            .unwrap_or(0)
    }

    /// The bytes of the section at `index`, subsections included.
    pub fn size_of_section(&self, index: usize) -> usize {
        let end = self.end_of_section(index);
        self.pieces[index..end].iter().map(Piece::size).sum()
    }

    pub fn bring_lengths_in_line(&mut self) {
        for index in 0..self.pieces.len() {
            let length = if self.pieces[index].is_section() {
                self.size_of_section(index)
            } else {
                self.pieces[index].size()
            };
            self.pieces[index].set_length(length);
        }
        self.bring_header_in_line();
    }

    pub fn bring_header_in_line(&mut self) {
        self.header[2] = (self.size() as u16).to_be_bytes().to_vec();
    }

    /// The indexes of the pieces for which a test holds.
    pub fn which(&self, test: impl Fn(&Piece) -> bool) -> Vec<usize> {
        (0..self.pieces.len())
            .filter(|index| test(&self.pieces[*index]))
            .collect()
    }

    /// Any piece of one of these kinds.
    pub fn any_of(&self, random: &mut Random, kinds: &[u32]) -> Option<usize> {
        let found = self.which(|piece| kinds.contains(&piece.kind));
        (!found.is_empty()).then(|| random.pick(&found))
    }

    /// The piece of a kind within the section at `section`.
    pub fn find_in_section(&self, section: usize, kind: u32) -> Option<usize> {
        (section..self.end_of_section(section)).find(|index| self.pieces[*index].kind == kind)
    }

    /// Any index at which a section may be put.
    pub fn any_gap(&self, random: &mut Random) -> usize {
        let mut gaps = self.which(Piece::is_section);
        gaps.push(self.pieces.len());
        random.pick(&gaps)
    }

    pub fn insert(&mut self, index: usize, pieces: Vec<Piece>) {
        self.pieces.splice(index..index, pieces);
    }
}
