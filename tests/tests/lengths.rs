//! The lengths of lent fields on each side of 24, kind by kind.

mod common;

use common::*;
use trusted_block_tests::kinds::LONGEST;
use trusted_block_tests::parts::Part;
use trusted_block_tests::reader::Answer;
use trusted_block_tests::writer::add;

fn bytes(length: usize) -> Vec<u8> {
    vec![b'A'; length]
}

/// Adds to this draft, in a buffer with room for a whole token.
fn added(draft: &[u8], part: Part) -> Answer {
    let mut buffer = draft.to_vec();
    buffer.resize(LONGEST, 0x77);
    let before = buffer.clone();
    let answer = add(&mut buffer, &part);
    assert_eq!(buffer == before, answer.number != 0, "{part:?}");
    answer
}

#[test]
fn fields_of_sections() {
    let draft = smallest_token();
    for length in [0, 7, 9, 16] {
        let part = Part::Rule {
            rule_id: bytes(length),
            flags: 0,
            generated_length: 8,
            key_check: 0,
            symmetric_format: 0,
            asymmetric_format: 0,
        };
        assert_eq!(added(&draft, part), answer(24, 80));
    }
    let name = |length| Part::Name {
        name: bytes(length),
    };
    for length in [0, 63, 65, 70_000] {
        assert_eq!(added(&draft, name(length)), answer(24, 80));
    }
    assert_eq!(added(&draft, name(64)), answer(0, 148));
    let key = |exponent, modulus| Part::PublicKey {
        modulus_bits: 512,
        exponent: bytes(exponent),
        modulus: bytes(modulus),
        flags: 0,
    };
    // 24 and 23 at the draft's length, 16 at x or y of the key.
    for (exponent, modulus, number, place) in [
        (65_536, 64, 24, 80),
        (1, 65_536, 24, 80),
        (65_535, 64, 23, 80),
        (1, 65_535, 23, 80),
        (0, 64, 16, 86),
        (513, 64, 16, 86),
        (1, 0, 16, 90),
    ] {
        let given = added(&draft, key(exponent, modulus));
        assert_eq!(given, answer(number, place), "{exponent} {modulus}");
    }
}

#[test]
fn fields_of_a_rules_subsections() {
    let draft = smallest_with(&[rule(RULE_ID, &[])]);
    for length in [0, 7, 9] {
        let rule_id = bytes(length);
        let part = Part::TransportRule { rule_id };
        assert_eq!(added(&draft, part), answer(24, 100));
        let rule_id = bytes(length);
        let part = Part::SourceRule { rule_id };
        assert_eq!(added(&draft, part), answer(24, 100));
    }
    let variant = |length| Part::TransportVariant {
        variant: bytes(length),
    };
    assert_eq!(added(&draft, variant(256)), answer(24, 100));
    assert_eq!(added(&draft, variant(255)), answer(0, 363));
    assert_eq!(added(&draft, variant(0)), answer(0, 108));
    let export = |variant, cv| Part::ExportParameters {
        minimum: 8,
        maximum: 24,
        variant: bytes(variant),
        cv: bytes(cv),
    };
    assert_eq!(added(&draft, export(256, 0)), answer(24, 100));
    assert_eq!(added(&draft, export(0, 256)), answer(24, 100));
    assert_eq!(added(&draft, export(0, 255)), answer(18, 111));
    assert_eq!(added(&draft, export(255, 16)), answer(0, 383));
}

#[test]
fn mask_template_and_label() {
    let draft = smallest_with(&[rule(RULE_ID, &[])]);
    let parameters = |mask, template, label| Part::TokenParameters {
        mask: bytes(mask),
        template: bytes(template),
        label_template: bytes(label),
    };
    // 24 at the draft's length, 18 at m or z.
    for (mask, template, label, number, place) in [
        (256, 256, 0, 24, 100),
        (8, 16, 0, 24, 100),
        (16, 8, 0, 24, 100),
        (0, 8, 0, 24, 100),
        (8, 0, 64, 24, 100),
        (0, 0, 256, 24, 100),
        (255, 255, 0, 18, 108),
        (24, 24, 0, 18, 108),
        (0, 0, 255, 18, 109),
        (8, 8, 63, 18, 125),
    ] {
        let given = added(&draft, parameters(mask, template, label));
        assert_eq!(given, answer(number, place), "{mask} {template} {label}");
    }
    assert_eq!(added(&draft, parameters(0, 0, 0)), answer(0, 110));
    assert_eq!(added(&draft, parameters(16, 16, 64)), answer(0, 206));
}

#[test]
fn fields_of_section_14s_subsections() {
    let draft = token_of(&[information(&[])]);
    let protection = |mac_key, mac, mkvp| Part::Protection {
        mac_key: bytes(mac_key),
        mac: bytes(mac),
        mkvp: vec![0; mkvp],
    };
    for (mac_key, mac, mkvp) in [
        (31, 8, 16),
        (33, 8, 16),
        (32, 7, 16),
        (32, 9, 16),
        (32, 8, 15),
        (32, 8, 17),
        (8, 32, 16),
        (0, 0, 0),
    ] {
        let given = added(&draft, protection(mac_key, mac, mkvp));
        assert_eq!(given, answer(24, 18), "{mac_key} {mac} {mkvp}");
    }
    assert_eq!(added(&draft, protection(32, 8, 16)), answer(0, 80));
    let day = [7, 0xD0, 2, 29, 0];
    for flags in [0, 1] {
        let dates = |activation: usize, expiration: usize| Part::Dates {
            flags,
            activation: day[..activation].to_vec(),
            expiration: day[..expiration].to_vec(),
        };
        for (activation, expiration) in [(3, 4), (5, 4), (4, 3), (4, 5), (0, 0), (5, 3)] {
            let given = added(&draft, dates(activation, expiration));
            assert_eq!(given, answer(24, 18), "{flags} {activation} {expiration}");
        }
        assert_eq!(added(&draft, dates(4, 4)), answer(0, 34));
    }
}
