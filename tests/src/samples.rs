//! Tokens written out by hand, for tests and for measurements.

pub const RULE_ID: &[u8; 8] = b"A       ";

/// The smallest token, called T in document 01.
pub fn smallest_token() -> Vec<u8> {
    let mut token = vec![0x1E, 0x00, 0x00, 0x50, 0, 0, 0, 0];
    token.extend([0x14, 0x00, 0x00, 0x48, 0, 0, 0, 0, 0, 0]);
    token.extend([0x00, 0x01, 0x00, 0x3E, 0x00, 0x00]);
    token.extend([0; 56]);
    token
}

/// A header in front of sections.
pub fn token_of(sections: &[Vec<u8>]) -> Vec<u8> {
    let mut token = vec![0x1E, 0, 0, 0, 0, 0, 0, 0];
    token.extend(sections.concat());
    in_line(token)
}

/// The token with its header's length brought in line.
pub fn in_line(mut token: Vec<u8>) -> Vec<u8> {
    let length = token.len() as u16;
    token[2..4].copy_from_slice(&length.to_be_bytes());
    token
}

/// The smallest token with sections after it.
pub fn smallest_with(sections: &[Vec<u8>]) -> Vec<u8> {
    let mut token = smallest_token();
    token.extend(sections.concat());
    in_line(token)
}

/// A section: id, version 0, length, then the rest.
pub fn section(id: u8, rest: &[&[u8]]) -> Vec<u8> {
    let rest = rest.concat();
    let length = (4 + rest.len() as u16).to_be_bytes();
    let mut bytes = vec![id, 0, length[0], length[1]];
    bytes.extend(rest);
    bytes
}

/// A subsection: tag, length, version 0, then the rest.
pub fn subsection(tag: u16, rest: &[&[u8]]) -> Vec<u8> {
    let rest = rest.concat();
    let mut bytes = tag.to_be_bytes().to_vec();
    bytes.extend((5 + rest.len() as u16).to_be_bytes());
    bytes.push(0);
    bytes.extend(rest);
    bytes
}

/// A rule that generates a key, with subsections.
pub fn rule(rule_id: &[u8; 8], subsections: &[Vec<u8>]) -> Vec<u8> {
    let fixed = [0, 0, 0, 0, 8, 0, 0, 0];
    section(0x12, &[rule_id, &fixed, &subsections.concat()])
}

/// A rule that exports a key, with subsections.
pub fn export_rule(rule_id: &[u8; 8], generated: u8, subsections: &[Vec<u8>]) -> Vec<u8> {
    let fixed = [0, 0, 0, 1, generated, 0, 1, 0];
    section(0x12, &[rule_id, &fixed, &subsections.concat()])
}

/// A 0003 with these limits, no variant and no CV.
pub fn export_parameters(minimum: u8, maximum: u8) -> Vec<u8> {
    subsection(0x0003, &[&[0, 0, 0, minimum, maximum, 0, 0]])
}

/// A 0005 with a mask of this many bytes and no label template.
pub fn token_parameters(mask: u8) -> Vec<u8> {
    let masks = vec![0x55; 2 * usize::from(mask)];
    subsection(0x0005, &[&[0, 0, 0, mask], &masks, &[0]])
}

/// Section 14 with its protection and more subsections.
pub fn information(subsections: &[Vec<u8>]) -> Vec<u8> {
    section(0x14, &[&[0; 6], &subsections.concat()])
}

/// 14/0001, all zero.
pub fn protection() -> Vec<u8> {
    subsection(0x0001, &[&[0; 57]])
}

/// 14/0002 with flags 1.
pub fn dates(activation: [u8; 4], expiration: [u8; 4]) -> Vec<u8> {
    dates_with_flags(1, activation, expiration)
}

/// 14/0002; with flags 0 its dates may be any bytes.
pub fn dates_with_flags(flags: u8, activation: [u8; 4], expiration: [u8; 4]) -> Vec<u8> {
    subsection(0x0002, &[&[0, 0, flags], &activation, &expiration])
}

/// Section 13.
pub fn name() -> Vec<u8> {
    section(0x13, &[&[0xAB; 64]])
}

/// Section 15 with this many bytes of data.
pub fn application_data(length: usize) -> Vec<u8> {
    section(0x15, &[&(length as u16).to_be_bytes(), &vec![0xDA; length]])
}

/// Section 11 with exponent 3 and a modulus of 512 bits.
pub fn public_key() -> Vec<u8> {
    let mut modulus = [0x11; 64];
    modulus[0] = 0x80;
    section(
        0x11,
        &[&[0, 0, 0, 1, 2, 0, 0, 64], &[3], &modulus, &[0xC0, 0, 0, 0]],
    )
}

/// A token with each kind once.
pub fn token_of_all_kinds() -> Vec<u8> {
    let parts = [
        subsection(0x0001, &[&[0, 0, 1, 9]]),
        subsection(0x0002, &[&[0], RULE_ID]),
        export_parameters(8, 24),
        subsection(0x0004, &[&[0], RULE_ID]),
        token_parameters(16),
    ];
    let day = [7, 0xD0, 2, 29];
    let sections = [
        application_data(0),
        export_rule(RULE_ID, 0, &parts),
        public_key(),
        information(&[dates(day, day), protection()]),
        name(),
    ];
    token_of(&sections)
}
