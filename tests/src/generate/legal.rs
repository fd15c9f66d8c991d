//! Legal tokens: all kinds, all orders, all optional parts, all limits.

use super::values;
use crate::kinds::{EXTERNAL, HEADER, INTERNAL, LONGEST};
use crate::parts::{written, Part};
use crate::random::Random;

/// A legal token with the parts it was built from.
#[derive(Clone, Debug)]
pub struct Token {
    pub id: u8,
    pub parts: Vec<Part>,
    pub bytes: Vec<u8>,
}

/// A section with its subsections.
type Group = Vec<Part>;

/// Any legal token.
pub fn legal(random: &mut Random) -> Token {
    match random.below(40) {
        0..=3 => smallest(random),
        4..=8 => of_length(random, LONGEST),
        9 => {
            let length = random.between(LONGEST - 40, LONGEST);
            of_length(random, length)
        }
        10 => {
            let count = random.pick(&[171, 171, 170, 100]);
            with_bare_rules(random, count)
        }
        11 => with_most_rows(random),
        _ => ordinary(random),
    }
}

/// A section 14 and nothing else.
pub fn smallest(random: &mut Random) -> Token {
    let id = identifier(random);
    let groups = vec![information(random, id)];
    put_together(random, id, groups)
}

/// Any choice of sections and subsections that fits.
pub fn ordinary(random: &mut Random) -> Token {
    let id = identifier(random);
    let mut groups = any_groups(random, id);
    if random.coin() {
        let length = values::any_length(random);
        groups.push(application_data(random, length));
    }
    drop_to_fit(random, &mut groups, LONGEST);
    put_together(random, id, groups)
}

/// A token of exactly this length, filled up with application data.
pub fn of_length(random: &mut Random, length: usize) -> Token {
    let id = identifier(random);
    let mut groups = any_groups(random, id);
    drop_to_fit(random, &mut groups, length - 6);
    let data = length - 6 - size(&groups);
    groups.push(application_data(random, data));
    put_together(random, id, groups)
}

/// The smallest token with this many rules without subsections.
pub fn with_bare_rules(random: &mut Random, count: usize) -> Token {
    let id = identifier(random);
    let mut groups = vec![vec![Part::Information { flags: 1 }, protection(random, id)]];
    let mut rule_ids = Vec::new();
    for _ in 0..count {
        let rule_id = values::new_rule_id(random, &rule_ids);
        rule_ids.push(rule_id.clone());
        groups.push(vec![rule(random, rule_id, false)]);
    }
    put_together(random, id, groups)
}

/// The most rows found: 276, from rules with the shortest subsections.
pub fn with_most_rows(random: &mut Random) -> Token {
    let id = identifier(random);
    let mut groups = vec![vec![Part::Information { flags: 0 }, protection(random, id)]];
    groups.push(application_data(random, 0));
    let mut rule_ids = Vec::new();
    for count in 0..68 {
        let rule_id = values::new_rule_id(random, &rule_ids);
        rule_ids.push(rule_id.clone());
        let export = random.coin();
        let mut group = vec![rule(random, rule_id, export)];
        group.push(Part::TransportVariant { variant: vec![] });
        group.push(export_parameters_of(random, 0, 0));
        group.push(Part::TokenParameters {
            mask: vec![],
            template: vec![],
            label_template: vec![],
        });
        if count == 0 {
            let rule_id = values::rule_id(random);
            group.push(Part::SourceRule { rule_id });
        }
        groups.push(group);
    }
    put_together(random, id, groups)
}

fn identifier(random: &mut Random) -> u8 {
    random.pick(&[EXTERNAL, INTERNAL])
}

fn size(groups: &[Group]) -> usize {
    HEADER + groups.iter().flatten().map(Part::size).sum::<usize>()
}

/// Leaves out groups other than the first until the token fits.
fn drop_to_fit(random: &mut Random, groups: &mut Vec<Group>, longest: usize) {
    while size(groups) > longest {
        let index = random.between(1, groups.len() - 1);
        groups.remove(index);
    }
}

/// Puts sections, and subsections within theirs, in any order.
fn put_together(random: &mut Random, id: u8, mut groups: Vec<Group>) -> Token {
    for group in &mut groups {
        random.shuffle(&mut group[1..]);
    }
    random.shuffle(&mut groups);
    let parts: Vec<Part> = groups.into_iter().flatten().collect();
    let bytes = written(id, &parts).expect("legal parts have a written form");
    Token { id, parts, bytes }
}

/// Section 14 first, then any choice of keys, names and rules.
fn any_groups(random: &mut Random, id: u8) -> Vec<Group> {
    let mut groups = vec![information(random, id)];
    if random.coin() {
        groups.push(vec![public_key(random)]);
    }
    if random.coin() {
        let name = random.bytes(64);
        groups.push(vec![Part::Name { name }]);
    }
    let most = random.pick(&[0, 1, 3, 6, 12]);
    let mut rule_ids = Vec::new();
    for _ in 0..random.between(0, most) {
        let rule_id = values::new_rule_id(random, &rule_ids);
        rule_ids.push(rule_id.clone());
        groups.push(rule_with_subsections(random, rule_id));
    }
    groups
}

fn application_data(random: &mut Random, length: usize) -> Group {
    let data = random.bytes(length);
    vec![Part::ApplicationData { data }]
}

pub fn public_key(random: &mut Random) -> Part {
    let bits = values::modulus_bits(random);
    let modulus = values::modulus(random, bits);
    Part::PublicKey {
        modulus_bits: bits as u16,
        exponent: values::exponent(random, &modulus),
        modulus,
        flags: random.pick(&[0, 0x8000_0000, 0xC000_0000]),
    }
}

pub fn rule(random: &mut Random, rule_id: Vec<u8>, export: bool) -> Part {
    let generated_length = if export {
        random.byte()
    } else {
        random.pick(&[8, 16, 24])
    };
    Part::Rule {
        rule_id,
        flags: u32::from(export),
        generated_length,
        key_check: random.pick(&[0, 1, 2]),
        symmetric_format: u8::from(export),
        asymmetric_format: random.pick(&[0, 1, 2]),
    }
}

/// A 0003 with any limits. Its variant is empty for 0, else of this length
/// or, where that is longer, of the maximum.
fn export_parameters_of(random: &mut Random, variant_length: usize, cv_length: usize) -> Part {
    let (minimum, maximum) = random.pick(&[(8, 8), (8, 16), (8, 24), (16, 16), (16, 24), (24, 24)]);
    let variant_length = match variant_length {
        0 => 0,
        length => length.max(usize::from(maximum)),
    };
    Part::ExportParameters {
        minimum,
        maximum,
        variant: random.bytes(variant_length),
        cv: random.bytes(cv_length),
    }
}

pub fn export_parameters(random: &mut Random) -> Part {
    let variant_length = match random.below(3) {
        0 => 0,
        // Raised to the maximum where that is longer.
        1 => 8,
        _ => random.pick(&[24, 25, 100, 254, 255]),
    };
    let cv_length = random.pick(&[0, 8, 16]);
    export_parameters_of(random, variant_length, cv_length)
}

/// A 0005 whose mask, if any, is at least `minimum` bytes.
pub fn token_parameters(random: &mut Random, minimum: u8) -> Part {
    let lengths: Vec<usize> = [0, 8, 16]
        .into_iter()
        .filter(|length| *length == 0 || *length >= usize::from(minimum))
        .collect();
    let length = random.pick(&lengths);
    Part::TokenParameters {
        mask: random.bytes(length),
        template: random.bytes(length),
        label_template: if random.coin() {
            values::label_template(random)
        } else {
            vec![]
        },
    }
}

/// A rule with any of its subsections.
pub fn rule_with_subsections(random: &mut Random, rule_id: Vec<u8>) -> Group {
    let export = random.coin();
    let mut group = vec![rule(random, rule_id, export)];
    if random.coin() {
        let length = values::any_length(random);
        let variant = random.bytes(length);
        group.push(Part::TransportVariant { variant });
    }
    if random.coin() {
        let rule_id = values::rule_id(random);
        group.push(Part::TransportRule { rule_id });
    }
    let mut least = 0;
    if export || random.coin() {
        let parameters = export_parameters(random);
        if let Part::ExportParameters { minimum, .. } = parameters {
            least = minimum;
        }
        group.push(parameters);
    }
    if random.coin() {
        let rule_id = values::rule_id(random);
        group.push(Part::SourceRule { rule_id });
    }
    if random.coin() {
        group.push(token_parameters(random, least));
    }
    group
}

pub fn protection(random: &mut Random, id: u8) -> Part {
    let mkvp = if id == EXTERNAL || random.once_in(4) {
        vec![0; 16]
    } else {
        random.bytes(16)
    };
    Part::Protection {
        mac_key: random.bytes(32),
        mac: random.bytes(8),
        mkvp,
    }
}

/// With flags 1 two dates in order, with flags 0 any bytes.
pub fn dates(random: &mut Random) -> Part {
    let flags = random.pick(&[0, 1]);
    let (activation, expiration) = if flags == 1 {
        values::two_dates(random)
    } else {
        values::kept_dates(random)
    };
    Part::Dates {
        flags,
        activation,
        expiration,
    }
}

/// Section 14 with its protection and perhaps dates.
fn information(random: &mut Random, id: u8) -> Group {
    let mut group = vec![Part::Information {
        flags: random.pick(&[0, 1]),
    }];
    group.push(protection(random, id));
    if random.coin() {
        group.push(dates(random));
    }
    group
}
