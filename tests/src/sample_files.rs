//! The files of samples/: tokens that the writer builds from their parts, two
//! of them changed by hand afterwards.

use crate::kinds::{EXTERNAL, INTERNAL, LONGEST};
use crate::parts::Part;
// The proved writer builds them.
use crate::library_writer::{add, finish, start};

/// A token as a file of samples/, without the file's ending.
pub struct Sample {
    pub name: &'static str,
    pub token: Vec<u8>,
}

/// All of them.
pub fn samples() -> Vec<Sample> {
    let sample = |name, token| Sample { name, token };
    vec![
        sample("smallest", smallest()),
        sample("all_kinds", all_kinds()),
        sample("rules_171", rules_171()),
        sample("four_rules", four_rules()),
        sample("zero_dates", zero_dates()),
        sample("spring", spring()),
        sample("rule_id_twice", rule_id_twice()),
    ]
}

/// Builds a token by the writer's calls, each of which must accept.
fn build(id: u8, parts: &[Part]) -> Vec<u8> {
    let mut draft = vec![0xEE; LONGEST];
    assert_eq!(start(&mut draft, id).number, 0);
    for part in parts {
        let answer = add(&mut draft, part);
        assert_eq!(answer.number, 0, "{part:?}");
    }
    let answer = finish(&draft);
    assert_eq!(answer.number, 0);
    draft.truncate(answer.second as usize);
    draft
}

/// A field's text, with spaces to its length.
fn padded(text: &str, length: usize) -> Vec<u8> {
    let mut bytes = text.as_bytes().to_vec();
    bytes.resize(length, b' ');
    bytes
}

/// A rule that generates a key of 16 bytes.
fn rule(rule_id: &str) -> Part {
    Part::Rule {
        rule_id: padded(rule_id, 8),
        flags: 0,
        generated_length: 16,
        key_check: 1,
        symmetric_format: 0,
        asymmetric_format: 0,
    }
}

/// Section 14 and its protection, all zero.
fn information() -> Vec<Part> {
    let protection = Part::Protection {
        mac_key: vec![0; 32],
        mac: vec![0; 8],
        mkvp: vec![0; 16],
    };
    vec![Part::Information { flags: 0 }, protection]
}

/// The smallest token.
fn smallest() -> Vec<u8> {
    build(EXTERNAL, &information())
}

/// As many rules as a token holds.
fn rules_171() -> Vec<u8> {
    let mut parts = information();
    parts.extend((1..=171).map(|count| rule(&format!("RULE-{count:03}"))));
    build(EXTERNAL, &parts)
}

/// Each of the twelve kinds, a second rule that the first refers to.
fn all_kinds() -> Vec<u8> {
    let mut parts = vec![public_key()];
    parts.extend(export_rule());
    parts.push(rule("GEN-01"));
    parts.push(Part::Name {
        name: padded("Sample bank, cash machines north", 64),
    });
    parts.extend(information_with_dates());
    parts.push(Part::ApplicationData {
        data: b"all twelve kinds".to_vec(),
    });
    build(INTERNAL, &parts)
}

/// A modulus of 512 bits: 81, 82, 83 and so on, the last byte odd.
fn public_key() -> Part {
    let mut modulus: Vec<u8> = (0x81..=0xC0).collect();
    modulus[63] = 0xC1;
    Part::PublicKey {
        modulus_bits: 512,
        exponent: vec![1, 0, 1],
        modulus,
        flags: 0xC000_0000,
    }
}

/// A rule that exports a key, with its five subsections.
fn export_rule() -> Vec<Part> {
    vec![
        Part::Rule {
            rule_id: padded("EXPORT-1", 8),
            flags: 1,
            generated_length: 0,
            key_check: 2,
            symmetric_format: 1,
            asymmetric_format: 2,
        },
        Part::TransportVariant {
            variant: vec![0x11; 16],
        },
        Part::TransportRule {
            rule_id: padded("GEN-01", 8),
        },
        Part::ExportParameters {
            minimum: 8,
            maximum: 16,
            variant: vec![0x22; 16],
            cv: vec![0x33; 8],
        },
        Part::SourceRule {
            rule_id: padded("GEN-01", 8),
        },
        Part::TokenParameters {
            mask: vec![0xFF; 8],
            template: vec![0x44; 8],
            label_template: padded("ATM#NORTH*", 64),
        },
    ]
}

/// Active from 1 January 2026 to 29 February 2028.
fn information_with_dates() -> Vec<Part> {
    vec![
        Part::Information { flags: 1 },
        Part::Dates {
            flags: 1,
            activation: vec![0x07, 0xEA, 1, 1],
            expiration: vec![0x07, 0xEC, 2, 29],
        },
        Part::Protection {
            mac_key: vec![0x55; 32],
            mac: vec![0x66; 8],
            mkvp: vec![0x77; 16],
        },
    ]
}

/// Two rules, and dates that nobody judges: flags 0 and both dates zero.
fn zero_dates() -> Vec<u8> {
    let mut parts = information();
    parts.push(Part::Dates {
        flags: 0,
        activation: vec![0; 4],
        expiration: vec![0; 4],
    });
    parts.extend([rule("NIGHT-1"), rule("NIGHT-2")]);
    build(EXTERNAL, &parts)
}

/// Where the second rule of [`four_rules`] begins.
const SECOND_RULE: usize = 100;

/// Four rules. The second has a transport variant, and the variant's 140
/// bytes look like seven rules more.
fn four_rules() -> Vec<u8> {
    let hidden: Vec<u8> = (1..=7)
        .flat_map(|count| rule(&format!("HIDDEN-{count}")).fields(20).concat())
        .collect();
    let mut parts = information();
    parts.push(rule("NIGHT-1"));
    parts.push(rule("NIGHT-2"));
    parts.push(Part::TransportVariant { variant: hidden });
    parts.push(rule("NIGHT-3"));
    parts.push(rule("NIGHT-4"));
    build(EXTERNAL, &parts)
}

/// By hand: the second rule states 28 bytes where it has 168, so that it ends
/// where the variant begins. A reader that takes the subsection past that end
/// and goes on from the stated end counts eleven rules.
fn spring() -> Vec<u8> {
    let mut token = four_rules();
    token[SECOND_RULE + 2..SECOND_RULE + 4].copy_from_slice(&[0, 28]);
    token
}

/// By hand: the second rule gets the Rule ID of the first.
fn rule_id_twice() -> Vec<u8> {
    let mut token = four_rules();
    token[SECOND_RULE + 4..SECOND_RULE + 12].copy_from_slice(&padded("NIGHT-1", 8));
    token
}
