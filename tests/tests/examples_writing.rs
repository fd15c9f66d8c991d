//! Examples of the writer's calls, of document 01, of request 107 and of the
//! readings taken, by the second writer; those of 107 by the library and the
//! quick writer, too. Every place is worked out by hand.

mod common;

use common::*;
use trusted_block_tests::fast::writer::fast_add;
use trusted_block_tests::library_writer;
use trusted_block_tests::parts::Part;
use trusted_block_tests::reader::read_draft;
use trusted_block_tests::writer;

#[test]
fn writer_builds_the_smallest_token() {
    let mut draft = [0x77; 81];
    assert_eq!(writer::start(&mut draft, 0x1E), answer(0, 8));
    assert_eq!(draft[8..], [0x77; 73]);
    assert_eq!(writer::finish(&draft), answer(20, 8));
    let information = Part::Information { flags: 0 };
    assert_eq!(writer::add(&mut draft, &information), answer(0, 18));
    assert_eq!(writer::finish(&draft), answer(20, 8));
    assert_eq!(writer::add(&mut draft, &information), answer(9, 18));
    let protection = Part::Protection {
        mac_key: vec![0; 32],
        mac: vec![0; 8],
        mkvp: vec![0; 16],
    };
    assert_eq!(writer::add(&mut draft, &protection), answer(0, 80));
    assert_eq!(writer::finish(&draft), answer(0, 80));
    assert_eq!(draft[..80], smallest_token());
    assert_eq!(draft[80], 0x77);
    assert_eq!(read_draft(&draft).map(|rows| rows.len()), Ok(2));
}

#[test]
fn writer_starts_only_with_room_and_a_listed_id() {
    for length in 0..8 {
        let mut draft = vec![0x77; length];
        assert_eq!(writer::start(&mut draft, 0x20), answer(23, 0));
        assert_eq!(draft, vec![0x77; length]);
        assert_eq!(writer::finish(&draft), answer(1, 0));
    }
    let mut draft = [0x77; 8];
    assert_eq!(writer::start(&mut draft, 0x20), answer(2, 0));
    assert_eq!(draft, [0x77; 8]);
    assert_eq!(writer::start(&mut draft, 0x1F), answer(0, 8));
    assert_eq!(draft, [0x1F, 0, 0, 8, 0, 0, 0, 0]);
}

#[test]
fn lent_lengths_are_24_before_25_before_23() {
    let mut draft = smallest_token();
    let before = draft.clone();
    let data = |length| Part::ApplicationData {
        data: vec![0; length],
    };
    for length in [1, 3415, 65_529, 65_530, 65_535] {
        assert_eq!(writer::add(&mut draft, &data(length)), answer(23, 80));
    }
    assert_eq!(writer::add(&mut draft, &data(65_536)), answer(24, 80));
    let variant = |length| Part::TransportVariant {
        variant: vec![0; length],
    };
    assert_eq!(writer::add(&mut draft, &variant(256)), answer(24, 80));
    assert_eq!(writer::add(&mut draft, &variant(255)), answer(25, 80));
    assert_eq!(draft, before);
}

#[test]
fn label_template_of_another_length() {
    let mut draft = smallest_with(&[rule(RULE_ID, &[])]);
    draft.resize(1000, 0);
    let before = draft.clone();
    let parameters = |length: usize, mask: usize| Part::TokenParameters {
        mask: vec![0; mask],
        template: vec![0; 8],
        label_template: vec![b'A'; length],
    };
    // z stands behind nine bytes, the mask and the template.
    assert_eq!(writer::add(&mut draft, &parameters(10, 8)), answer(18, 125));
    assert_eq!(
        writer::add(&mut draft, &parameters(256, 8)),
        answer(24, 100)
    );
    assert_eq!(writer::add(&mut draft, &parameters(64, 7)), answer(24, 100));
    assert_eq!(draft, before);
    assert_eq!(writer::add(&mut draft, &parameters(64, 8)), answer(0, 190));
}

#[test]
fn minimum_added_after_the_mask_is_18_at_m() {
    let mut draft = smallest_with(&[rule(RULE_ID, &[token_parameters(8)])]);
    draft.resize(1000, 0);
    let before = draft.clone();
    let parameters = |minimum| Part::ExportParameters {
        minimum,
        maximum: 24,
        variant: vec![],
        cv: vec![],
    };
    assert_eq!(writer::add(&mut draft, &parameters(16)), answer(18, 108));
    assert_eq!(draft, before);
    assert_eq!(writer::add(&mut draft, &parameters(8)), answer(0, 138));
    assert_eq!(writer::finish(&draft), answer(0, 138));
}

/// All three writers refuse the part so, and leave the draft as it is.
fn assert_refused(draft: &[u8], part: &Part, number: u32, place: u32) {
    let mut buffer = draft.to_vec();
    buffer.resize(draft.len() + 800, 0x77);
    let before = buffer.clone();
    for add in [writer::add, fast_add, library_writer::add] {
        assert_eq!(add(&mut buffer, part), answer(number, place), "{part:?}");
        assert_eq!(buffer, before, "{part:?}");
    }
}

/// #107, "Additions follow": sections added to T, at 80.
#[test]
fn places_in_sections_added() {
    let rule = |rule_id: &[u8; 8], flags, values: [u8; 4]| Part::Rule {
        rule_id: rule_id.to_vec(),
        flags,
        generated_length: values[0],
        key_check: values[1],
        symmetric_format: values[2],
        asymmetric_format: values[3],
    };
    let key = |modulus_bits, exponent: &[u8], modulus: [u8; 64], flags| Part::PublicKey {
        modulus_bits,
        exponent: exponent.to_vec(),
        modulus: modulus.to_vec(),
        flags,
    };
    let (odd, even) = ([0x81; 64], [0x82; 64]);
    for (part, number, place) in [
        (rule(b"9 A     ", 2, [8, 0, 0, 0]), 17, 86),
        (rule(b"A       ", 2, [9, 0, 0, 0]), 11, 92),
        (rule(b"A       ", 0, [9, 3, 0, 0]), 11, 96),
        (rule(b"A       ", 1, [9, 3, 0, 0]), 11, 97),
        (rule(b"A       ", 1, [9, 2, 0, 3]), 11, 98),
        (rule(b"A       ", 1, [9, 2, 1, 3]), 11, 99),
        (key(512, &[], odd, 0), 16, 86),
        (key(511, &[2], odd, 0), 16, 88),
        (key(513, &[2], odd, 0), 16, 90),
        (key(512, &[0, 0, 2], even, 0), 16, 95),
        (key(512, &[0, 0, 2], odd, 1), 16, 92),
        (key(512, &odd, odd, 1), 16, 92),
        (key(512, &[0, 0, 3], odd, 1), 11, 159),
        (Part::Information { flags: 2 }, 9, 80),
    ] {
        assert_refused(&smallest_token(), &part, number, place);
    }
    let header = [0x1E, 0, 0, 8, 0, 0, 0, 0];
    assert_refused(&header, &Part::Information { flags: 2 }, 11, 14);
}

/// Subsections added to a rule, at 100.
#[test]
fn places_in_subsections_of_a_rule_added() {
    let export = |minimum, maximum, variant, cv| Part::ExportParameters {
        minimum,
        maximum,
        variant: vec![1; variant],
        cv: vec![2; cv],
    };
    let limits = |mask, label: &[u8]| Part::TokenParameters {
        mask: vec![1; mask],
        template: vec![2; mask],
        label_template: label.to_vec(),
    };
    let reference = |rule_id: &[u8; 8]| Part::SourceRule {
        rule_id: rule_id.to_vec(),
    };
    let mut label = [b' '; 64];
    label[..3].copy_from_slice(b"A*B");
    let with_rule = smallest_with(&[rule(RULE_ID, &[])]);
    for (part, number, place) in [
        (reference(b"A B     "), 17, 108),
        (export(9, 9, 1, 1), 18, 108),
        (export(8, 9, 1, 1), 18, 109),
        (export(16, 8, 1, 1), 18, 109),
        (export(8, 16, 15, 1), 18, 110),
        (export(8, 16, 16, 1), 18, 127),
        (limits(9, b"A"), 18, 108),
        (limits(8, b"A"), 18, 125),
        (limits(8, &label), 17, 128),
    ] {
        assert_refused(&with_rule, &part, number, place);
    }
}

/// Subsections added to a section 14, at 18.
#[test]
fn places_in_subsections_of_section_14_added() {
    let dates = |flags, activation: [u8; 4], expiration: [u8; 4]| Part::Dates {
        flags,
        activation: activation.to_vec(),
        expiration: expiration.to_vec(),
    };
    let protection = Part::Protection {
        mac_key: vec![1; 32],
        mac: vec![2; 8],
        mkvp: [[0; 15].to_vec(), vec![1]].concat(),
    };
    let (day, none) = ([7, 0xD0, 2, 29], [7, 0xD0, 2, 30]);
    let with_information = token_of(&[information(&[])]);
    for (part, number, place) in [
        (protection, 21, 64),
        (dates(2, none, none), 11, 24),
        (dates(1, none, none), 19, 26),
        (dates(1, day, none), 19, 30),
        (dates(1, day, [0, 0, 1, 1]), 19, 30),
    ] {
        assert_refused(&with_information, &part, number, place);
    }
}
