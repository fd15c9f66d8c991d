//! An optimised reader: one pass judges the token, one pass fills the table,
//! nothing is allocated. Same answers as [`crate::reader`]. Where several tests
//! are made at once, the place is worked out only after they have failed.

mod filling;
mod rules;
mod sections;
mod signs;
/// An optimised writer with the same answers as [`crate::writer`].
pub mod writer;

use crate::reader::Answer;
use filling::fill;
use rules::{rule, RuleIds};
use sections::{information, public_key};

/// The number of a fault and its place.
type Judged<T> = Result<T, Answer>;

/// Most bytes of a token.
const LONGEST: usize = 3500;
/// Numbers to a row of the table.
const COLUMNS: usize = 5;
/// Where `length` stands in a section and in a subsection.
const LENGTH: usize = 2;

/// A token is judged by all rules, a draft by all but 20. The functions that
/// judge are compiled for each, so that the one costs the other nothing.
const WHOLE: bool = true;
const DRAFT: bool = false;

#[cold]
fn refuse<T>(number: u32, place: usize) -> Judged<T> {
    Err(Answer {
        number,
        second: place as u32,
    })
}

/// 0 with the count of rows, or the refusal.
pub fn fast_read(token: &[u8]) -> Answer {
    match judge::<WHOLE>(token) {
        Ok(rows) => Answer {
            number: 0,
            second: rows,
        },
        Err(refusal) => refusal,
    }
}

/// The same, and fills the table with the rows of an accepted token.
pub fn fast_fill(token: &[u8], table: &mut [u32]) -> Answer {
    let rows = match judge::<WHOLE>(token) {
        Ok(rows) => rows,
        Err(refusal) => return refusal,
    };
    let number = if COLUMNS * rows as usize > table.len() {
        23
    } else {
        fill(token, table);
        0
    };
    Answer {
        number,
        second: rows,
    }
}

#[inline]
fn two(bytes: &[u8], place: usize) -> usize {
    usize::from(bytes[place]) << 8 | usize::from(bytes[place + 1])
}

/// What has been met so far.
struct Progress {
    /// One bit for each section id.
    met: u8,
    rows: u32,
    external: bool,
    /// Where the last section of a draft begins; 0 while there is none.
    last: u32,
}

impl Progress {
    /// 9 for a section other than 12 that was met before.
    #[inline]
    fn meet(&mut self, id: u8, place: usize) -> Judged<()> {
        let bit = 1 << (id - 0x11);
        if self.met & bit != 0 {
            return refuse(9, place);
        }
        self.met |= bit;
        Ok(())
    }

    #[inline]
    fn end<const ALL: bool>(&self, length: usize) -> Judged<u32> {
        if !ALL {
            return Ok(self.last);
        }
        if self.met & (1 << (0x14 - 0x11)) == 0 {
            return refuse(20, length);
        }
        Ok(self.rows)
    }
}

/// The rows of a token; of a draft, where its last section begins, or 0.
fn judge<const ALL: bool>(bytes: &[u8]) -> Judged<u32> {
    let Some(&[id, version, high, low, reserved @ ..]) = bytes.first_chunk::<8>() else {
        return refuse(1, 0);
    };
    if id & 0xFE != 0x1E {
        return refuse(2, 0);
    }
    if version != 0 {
        return refuse(3, 1);
    }
    let length = usize::from(high) << 8 | usize::from(low);
    let right = match ALL {
        true => bytes.len() <= LONGEST && length == bytes.len(),
        false => (8..=LONGEST).contains(&length) && length <= bytes.len(),
    };
    if !right {
        return refuse(4, 2);
    }
    if reserved != [0; 4] {
        return refuse(5, 4);
    }
    let mut progress = Progress {
        met: 0,
        rows: 0,
        external: id == 0x1E,
        last: 0,
    };
    let token = &bytes[..length];
    let mut place = 8;
    while place < token.len() {
        let (id, length) = frame(token, place)?;
        if id == 0x12 {
            return judge_with_rules::<ALL>(token, place, progress);
        }
        other_section::<ALL>(&token[place..place + length], id, place, &mut progress)?;
        place += length;
    }
    progress.end::<ALL>(token.len())
}

/// Goes on from the first rule; only from there on is the set of IDs needed.
#[inline(never)]
fn judge_with_rules<const ALL: bool>(
    token: &[u8],
    first: usize,
    mut progress: Progress,
) -> Judged<u32> {
    let mut rule_ids = RuleIds::new();
    let mut place = first;
    while place < token.len() {
        let (id, length) = frame(token, place)?;
        let section = &token[place..place + length];
        if id == 0x12 {
            rule::<ALL>(section, place, &mut rule_ids, &mut progress)?;
        } else {
            other_section::<ALL>(section, id, place, &mut progress)?;
        }
        place += length;
    }
    progress.end::<ALL>(token.len())
}

/// The id and length of the section that begins here.
#[inline(always)]
fn frame(token: &[u8], place: usize) -> Judged<(u8, usize)> {
    const LEAST: [u8; 5] = [16, 20, 68, 10, 6];
    let rest = &token[place..];
    let Some(&[id, version, high, low]) = rest.first_chunk::<4>() else {
        return refuse(6, place);
    };
    let Some(least) = LEAST.get(usize::from(id.wrapping_sub(0x11))) else {
        return refuse(7, place);
    };
    if version != 0 {
        return refuse(8, place + 1);
    }
    let length = usize::from(high) << 8 | usize::from(low);
    if length < usize::from(*least) || length > rest.len() {
        return refuse(6, place + LENGTH);
    }
    Ok((id, length))
}

/// Any section but a rule.
#[inline]
fn other_section<const ALL: bool>(
    section: &[u8],
    id: u8,
    place: usize,
    progress: &mut Progress,
) -> Judged<()> {
    progress.meet(id, place)?;
    progress.rows += 1;
    if !ALL {
        progress.last = place as u32;
    }
    match id {
        0x11 => public_key(section, place),
        0x13 if section.len() != 68 => refuse(15, place + LENGTH),
        0x14 => information::<ALL>(section, place, progress),
        0x15 if section.len() != 6 + two(section, 4) => refuse(15, place + LENGTH),
        _ => Ok(()),
    }
}

/// Tag and length of the subsection that begins here, whose kinds have these
/// least lengths, its version tested too.
#[inline]
fn subsection_frame(
    rest: &[u8],
    place: usize,
    least: &[u8],
    met: &mut u8,
) -> Judged<(usize, usize)> {
    let Some(&[tag_high, tag_low, high, low]) = rest.first_chunk::<4>() else {
        return refuse(12, place);
    };
    let tag = usize::from(tag_high) << 8 | usize::from(tag_low);
    let Some(least) = least.get(tag.wrapping_sub(0x0001)) else {
        return refuse(13, place);
    };
    let length = usize::from(high) << 8 | usize::from(low);
    if length < usize::from(*least) || length > rest.len() {
        return refuse(12, place + LENGTH);
    }
    let bit = 1 << tag;
    if *met & bit != 0 {
        return refuse(14, place);
    }
    *met |= bit;
    if rest[4] != 0 {
        return refuse(8, place + 4);
    }
    Ok((tag, length))
}
