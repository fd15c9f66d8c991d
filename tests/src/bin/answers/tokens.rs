//! The tokens that the questions begin with: small ones, and between them
//! every kind with empty fields and with full ones.

use crate::samples::{
    application_data, dates, export_rule, in_line, information, name, protection, public_key, rule,
    section, smallest_token, smallest_with, subsection, token_of, RULE_ID,
};

/// The tokens by name; the first part of a name says what they are.
pub fn bases() -> Vec<(&'static str, Vec<u8>)> {
    vec![
        ("smallest", smallest_token()),
        ("inside", inside()),
        ("bare", smallest_with(&[rule(RULE_ID, &[])])),
        ("full", full()),
        ("every", every()),
        ("key", smallest_with(&[key(513, &[1, 0, 1], &modulus(513))])),
        ("long", long()),
        ("between", name_between_rules()),
        ("behind", key_between_rules()),
    ]
}

/// Drafts of one section with at most one subsection, between them every kind
/// with empty fields and with full ones.
pub fn small_drafts() -> Vec<Vec<u8>> {
    let day = [7, 0xD0, 2, 29];
    let in_rule = [
        vec![],
        variant(0),
        variant(2),
        subsection(0x0002, &[&[0], b"B-2     "]),
        export(8, 24, 0, 0),
        export(8, 8, 8, 8),
        subsection(0x0004, &[&[0], b"Zz09-_ab"]),
        limits(0, &[]),
        limits(8, &spaced(b"A9*", 64)),
    ];
    let in_information = [vec![], protection(), dates(day, [7, 0xD1, 1, 1])];
    let mut drafts: Vec<Vec<u8>> = in_rule
        .map(|part| token_of(&[rule(RULE_ID, &[part])]))
        .into();
    drafts.extend(in_information.map(|part| token_of(&[information(&[part])])));
    drafts.push(token_of(&[export_rule(b"EXPORT_1", 7, &[])]));
    drafts
        .extend([public_key(), key(513, &[1, 0, 1], &modulus(513))].map(|part| token_of(&[part])));
    drafts.extend([name(), application_data(0), application_data(3)].map(|part| token_of(&[part])));
    drafts
}

/// The smallest token as an internal one, with an MKVP.
pub fn inside() -> Vec<u8> {
    let mut token = smallest_token();
    token[0] = 0x1F;
    token[64..80].copy_from_slice(b"0123456789ABCDEF");
    token
}

/// A 0003 with these limits, and a variant and a CV of these lengths.
pub fn export(minimum: u8, maximum: u8, variant: usize, cv: usize) -> Vec<u8> {
    let limits = [0, 0, 0, minimum, maximum, variant as u8];
    subsection(
        0x0003,
        &[&limits, &vec![0x77; variant], &[cv as u8], &vec![0x66; cv]],
    )
}

/// A 0005 with a mask of this length and this label template.
pub fn limits(mask: usize, label: &[u8]) -> Vec<u8> {
    let masks = vec![0x55; 2 * mask];
    subsection(
        0x0005,
        &[&[0, 0, 0, mask as u8], &masks, &[label.len() as u8], label],
    )
}

/// The text with spaces to a length.
pub fn spaced(text: &[u8], length: usize) -> Vec<u8> {
    let mut field = text.to_vec();
    field.resize(length, b' ');
    field
}

/// A transport variant of this length.
pub fn variant(length: usize) -> Vec<u8> {
    subsection(0x0001, &[&[0, 0, length as u8], &vec![0x99; length]])
}

/// The section 14 with a MAC key, a MAC and both dates.
fn information_with_dates() -> Vec<u8> {
    let filled = subsection(0x0001, &[&[0], &[0xA1; 32], &[0xB2; 8], &[0; 16]]);
    information(&[filled, dates([7, 0xD0, 2, 29], [7, 0xD1, 1, 1])])
}

/// A rule with all its subsections, their fields not empty; then a second.
pub fn full() -> Vec<u8> {
    let subsections = [
        limits(16, &spaced(b"Az#9*", 64)),
        subsection(0x0004, &[&[0], b"Zz09-_ab"]),
        variant(2),
        export(8, 16, 16, 8),
        subsection(0x0002, &[&[0], b"gen1    "]),
    ];
    let first = export_rule(b"EXPORT-1", 7, &subsections);
    token_of(&[first, information_with_dates(), rule(b"gen_1   ", &[])])
}

/// Each kind once, as short as it can be.
pub fn every() -> Vec<u8> {
    let subsections = [
        variant(0),
        subsection(0x0002, &[&[0], RULE_ID]),
        export(8, 24, 0, 0),
        subsection(0x0004, &[&[0], RULE_ID]),
        limits(0, &[]),
    ];
    let day = [7, 0xD0, 2, 29];
    token_of(&[
        application_data(0),
        export_rule(RULE_ID, 0, &subsections),
        public_key(),
        information(&[dates(day, day), protection()]),
        name(),
    ])
}

/// Parts that are longer than 255 bytes, between others.
pub fn long() -> Vec<u8> {
    let subsections = [variant(255), export(8, 8, 255, 16), limits(8, &[])];
    token_of(&[
        rule(b"LONG    ", &subsections),
        application_data(300),
        information(&[protection()]),
    ])
}

/// Three rules, between them a name, data and section 14.
pub fn name_between_rules() -> Vec<u8> {
    let day = [7, 0xD0, 2, 29];
    token_of(&[
        rule(b"A       ", &[]),
        name(),
        rule(b"B       ", &[variant(0), limits(0, &[])]),
        application_data(0),
        information(&[protection(), dates(day, day)]),
        rule(b"C       ", &[]),
    ])
}

/// Three rules, the second referring to the third, a key between them; a name
/// and section 14 after them.
pub fn key_between_rules() -> Vec<u8> {
    token_of(&[
        rule(b"A       ", &[]),
        rule(b"B       ", &[subsection(0x0002, &[&[0], b"C       "])]),
        public_key(),
        rule(b"C       ", &[variant(0)]),
        name(),
        information(&[protection()]),
    ])
}

/// A modulus of exactly so many bits, odd, in the fewest bytes.
pub fn modulus(bits: usize) -> Vec<u8> {
    let mut bytes = vec![0x11; bits.div_ceil(8)];
    let high = (bits + 7) % 8;
    bytes[0] = 1 << high;
    let last = bytes.len() - 1;
    bytes[last] |= 1;
    bytes
}

/// A section 11 with these fields, its lengths as they are.
pub fn key(bits: usize, exponent: &[u8], modulus: &[u8]) -> Vec<u8> {
    let two = |n: usize| (n as u16).to_be_bytes();
    let counts = [two(exponent.len()), two(bits), two(modulus.len())].concat();
    section(
        0x11,
        &[&[0, 0], &counts, exponent, modulus, &[0x80, 0, 0, 0]],
    )
}

/// The token with its length stated anew.
pub fn cut(token: &[u8], length: usize) -> Vec<u8> {
    in_line(token[..length].to_vec())
}
