//! The input is a token.
#![no_main]

use trusted_block_fuzz::{change_list, changed, changed_call, Random};
use trusted_block_tests::fuzzed::reading;
use trusted_block_tests::generate::calls::{any_part, Call};
use trusted_block_tests::kinds::is_section;
use trusted_block_tests::parts::written;
use trusted_block_tests::reader::{number, read};
use trusted_block_tests::views::{fields_of, taken_apart};

/// How much longer a part may become.
const LONGER: usize = 80;

trusted_block_fuzz::target!(reading::compare, other_token);

/// Changes bytes, or the parts of a legal token.
fn other_token(random: &mut Random, token: &[u8], most: usize) -> Vec<u8> {
    let other = match random.below(8) {
        0 => other_parts(random, token),
        1 => one_part_changed(random, token),
        2 | 3 => one_field_changed(random, token),
        4 | 5 => one_part_written_otherwise(random, token),
        _ => None,
    };
    let mut other = other.unwrap_or_else(|| changed(token, most));
    if random.below(8) > 0 && other.len() >= 8 {
        let stated = (other.len() as u16).to_be_bytes();
        other[2..4].copy_from_slice(&stated);
    }
    other
}

/// A legal token with a part more or less, or in another order.
fn other_parts(random: &mut Random, token: &[u8]) -> Option<Vec<u8>> {
    let (id, mut parts) = taken_apart(token).ok()?;
    for _ in 0..random.between(1, 3) {
        change_list(random, &mut parts, any_part);
    }
    written(id, &parts)
}

/// A legal token with other fields in a part, and all lengths in line.
fn one_part_written_otherwise(random: &mut Random, token: &[u8]) -> Option<Vec<u8>> {
    let (id, mut parts) = taken_apart(token).ok()?;
    let index = random.below(parts.len());
    let Some(Call::Add(part)) = changed_call(&Call::Add(parts[index].clone())) else {
        return None;
    };
    parts[index] = part;
    written(id, &parts)
}

/// A legal token with a part changed and its section's length in line.
fn one_part_changed(random: &mut Random, token: &[u8]) -> Option<Vec<u8>> {
    let rows = read(token).ok()?;
    let row = rows[random.below(rows.len())];
    let (start, end) = (row.offset as usize, (row.offset + row.length) as usize);
    let part = changed(&token[start..end], end - start + LONGER);
    let mut other = [&token[..start], &part[..], &token[end..]].concat();
    if !is_section(row.kind) {
        let place = rows[row.owner as usize].offset as usize + 2;
        let section = number(&token[place..place + 2]) + part.len() - (end - start);
        other[place..place + 2].copy_from_slice(&(section as u16).to_be_bytes());
    } else if random.coin() && part.len() >= 4 {
        other[start + 2..start + 4].copy_from_slice(&(part.len() as u16).to_be_bytes());
    }
    Some(other)
}

/// A legal token with other bytes in one field.
fn one_field_changed(random: &mut Random, token: &[u8]) -> Option<Vec<u8>> {
    let rows = read(token).ok()?;
    let row = rows[random.below(rows.len())];
    let fields = fields_of(token, &row);
    let index = random.below(fields.len());
    let before: usize = fields[..index].iter().map(|field| field.len()).sum();
    let start = row.offset as usize + before;
    let mut other = token.to_vec();
    let field = &mut other[start..start + fields[index].len()];
    for (byte, value) in field
        .iter_mut()
        .zip(changed(fields[index], fields[index].len()))
    {
        *byte = value;
    }
    Some(other)
}
