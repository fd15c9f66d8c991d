//! The writer on a lent draft. A refused call changes nothing.

use crate::kinds::{is_section, owner_of, EXTERNAL, HEADER, INTERNAL, LONGEST};
use crate::parts::Part;
use crate::reader::{number, read, read_draft, Answer};

/// Writes the eight header bytes of an empty draft.
pub fn start(draft: &mut [u8], id: u8) -> Answer {
    if draft.len() < HEADER {
        return Answer::new(23, 0);
    }
    if id != EXTERNAL && id != INTERNAL {
        return Answer::new(2, 0);
    }
    draft[..HEADER].copy_from_slice(&[id, 0, 0, 8, 0, 0, 0, 0]);
    Answer::new(0, HEADER)
}

/// Adds a part at the draft's end; a subsection joins the last section.
pub fn add(draft: &mut [u8], part: &Part) -> Answer {
    let rows = match read_draft(draft) {
        Ok(rows) => rows,
        Err(refusal) => return refusal,
    };
    let length = number(&draft[2..4]);
    if !part.fields_fit() {
        return Answer::new(24, length);
    }
    let last_section = rows.iter().rfind(|row| is_section(row.kind));
    let owner = owner_of(part.kind());
    if !part.is_section() && last_section.map(|row| row.kind) != Some(owner) {
        return Answer::new(25, length);
    }
    let new_length = length + part.size();
    if new_length > LONGEST || new_length > draft.len() {
        return Answer::new(23, length);
    }
    let mut longer = draft.to_vec();
    let fields = part.fields(part.size() as u16);
    longer[length..new_length].copy_from_slice(&fields.concat());
    longer[2..4].copy_from_slice(&(new_length as u16).to_be_bytes());
    if let (false, Some(section)) = (part.is_section(), last_section) {
        let place = section.offset as usize + 2;
        let section_length = section.length as usize + part.size();
        longer[place..place + 2].copy_from_slice(&(section_length as u16).to_be_bytes());
    }
    if let Err(refusal) = read_draft(&longer) {
        return refusal;
    }
    draft.copy_from_slice(&longer);
    Answer::new(0, new_length)
}

/// The draft's own fault, else the reading's 20, else the length.
pub fn finish(draft: &[u8]) -> Answer {
    if let Err(refusal) = read_draft(draft) {
        return refusal;
    }
    let length = number(&draft[2..4]);
    match read(&draft[..length]) {
        Ok(_) => Answer::new(0, length),
        Err(refusal) => refusal,
    }
}
