//! Tokens with counted fields of many lengths, repeated and missing parts, and
//! parts that do not fit each other.

use crate::cases::Cases;
use crate::kinds::SHORTEST;
use crate::samples::{
    application_data, dates, export_parameters, export_rule, in_line, information, name,
    protection, public_key, rule, section, smallest_token, smallest_with, subsection, token_of,
    token_parameters, RULE_ID,
};
use crate::tokens::{export, key, limits, modulus, spaced, variant};

pub fn ask(cases: &mut Cases) {
    export_lengths(cases);
    mask_lengths(cases);
    keys(cases);
    big_keys(cases);
    inner_lengths(cases);
    repeated_sections(cases);
    repeated_rules(cases);
    repeated_tags(cases);
    unknown(cases);
    mask_against_minimum(cases);
    missing(cases);
    whole_lengths(cases);
}

/// A draft of a rule that has these subsections.
fn with_rule(subsections: &[Vec<u8>]) -> Vec<u8> {
    token_of(&[rule(RULE_ID, subsections)])
}

fn export_lengths(cases: &mut Cases) {
    for minimum in [0, 7, 8, 9, 16, 17, 24, 25] {
        for maximum in [7, 8, 16, 24, 32] {
            cases.draft(&with_rule(&[export(minimum, maximum, 0, 0)]));
        }
    }
    for (maximum, length) in [
        (8, 1),
        (8, 7),
        (8, 8),
        (8, 9),
        (8, 255),
        (16, 8),
        (16, 15),
        (16, 16),
        (24, 16),
        (24, 23),
        (24, 24),
        (24, 255),
    ] {
        cases.draft(&with_rule(&[export(8, maximum, length, 0)]));
    }
    for cv in [1, 7, 8, 9, 15, 16, 17, 24, 255] {
        cases.draft(&with_rule(&[export(8, 8, 0, cv)]));
        cases.draft(&with_rule(&[export(8, 8, 9, cv)]));
    }
    for length in [0, 1, 2, 254, 255] {
        cases.draft(&with_rule(&[variant(length)]));
    }
}

fn mask_lengths(cases: &mut Cases) {
    for mask in [1, 7, 8, 9, 15, 16, 17, 24, 100] {
        cases.draft(&with_rule(&[limits(mask, &[])]));
        cases.draft(&with_rule(&[limits(mask, &spaced(b"A", 64))]));
    }
    for label in [1, 8, 63, 64, 65, 128] {
        cases.draft(&with_rule(&[limits(0, &spaced(b"A", label))]));
        cases.draft(&with_rule(&[limits(9, &spaced(b"1", label))]));
    }
    for label in [&b"9"[..], b"", b"*", b"A*B", b"**"] {
        cases.draft(&with_rule(&[limits(8, &spaced(label, 64))]));
    }
}

fn keys(cases: &mut Cases) {
    let own = modulus(512);
    let mut less = own.clone();
    less[63] = 0x0F;
    let mut more = own.clone();
    more[63] = 0x13;
    let (wide, wider) = ([&[0], &own[..]].concat(), [&[0, 0], &less[..]].concat());
    for exponent in [
        &[][..],
        &[0],
        &[1],
        &[2],
        &[3],
        &[0, 0, 3],
        &[1, 0],
        &own,
        &less,
        &more,
        &wide,
        &wider,
        &[0xFF; 63],
        &[0xFF; 64],
    ] {
        cases.draft(&token_of(&[key(512, exponent, &own)]));
    }
    for bits in [504, 505, 511, 512, 513, 519, 520, 521, 528, 1024] {
        for stated in [bits - 1, bits, bits + 1] {
            cases.draft(&token_of(&[key(stated, &[3], &modulus(bits))]));
        }
    }
    let mut even = own.clone();
    even[63] = 0x10;
    cases.draft(&token_of(&[key(512, &[3], &even)]));
    cases.draft(&token_of(&[key(512, &[3], &wide)]));
    cases.draft(&token_of(&[key(520, &[3], &wide)]));
    cases.draft(&token_of(&[key(512, &[3], &own[1..])]));
    cases.draft(&token_of(&[key(512, &[3], &[])]));
}

/// The longest exponent and the longest modulus, and one more.
fn big_keys(cases: &mut Cases) {
    for exponent in [511, 512, 513] {
        let mut bytes = vec![0; exponent];
        bytes[exponent - 1] = 3;
        cases.draft(&token_of(&[key(512, &bytes, &modulus(512))]));
    }
    for bits in [4095, 4096, 4097] {
        cases.draft(&token_of(&[key(bits, &[3], &modulus(bits))]));
    }
}

/// The same bytes under a length that is a byte more or less, with the bytes
/// for it.
fn restated(part: &[u8], more: bool) -> Vec<u8> {
    let mut bytes = part.to_vec();
    if more {
        bytes.push(0);
    } else {
        bytes.pop();
    }
    let length = (bytes.len() as u16).to_be_bytes();
    bytes[2..4].copy_from_slice(&length);
    bytes
}

fn inner_lengths(cases: &mut Cases) {
    let day = [7, 0xD0, 2, 29];
    for part in [
        variant(1),
        subsection(0x0002, &[&[0], RULE_ID]),
        export(8, 8, 8, 8),
        export(8, 8, 0, 0),
        subsection(0x0004, &[&[0], RULE_ID]),
        limits(8, &spaced(b"A", 64)),
        limits(0, &[]),
    ] {
        for more in [false, true] {
            cases.draft(&with_rule(&[restated(&part, more)]));
            cases.draft(&with_rule(&[restated(&part, more), variant(0)]));
        }
    }
    for part in [protection(), dates(day, day)] {
        for more in [false, true] {
            cases.draft(&token_of(&[information(&[restated(&part, more)])]));
        }
    }
    for part in [
        public_key(),
        name(),
        application_data(3),
        application_data(0),
    ] {
        for more in [false, true] {
            cases.draft(&token_of(&[restated(&part, more)]));
            cases.draft(&token_of(&[restated(&part, more), name()]));
        }
    }
}

fn repeated_sections(cases: &mut Cases) {
    let parts = [
        public_key(),
        name(),
        application_data(0),
        information(&[protection()]),
        key(512, &[2], &modulus(512)),
        vec![0x13, 0, 0, 69],
    ];
    for part in parts {
        let own_rule = rule(RULE_ID, &[]);
        cases.draft(&token_of(&[part.clone(), part.clone()]));
        cases.draft(&token_of(&[name(), part.clone(), own_rule, part]));
    }
}

fn repeated_rules(cases: &mut Cases) {
    for at in 0..8 {
        let mut other = *b"ABCDEFGH";
        other[at] = b'x';
        cases.draft(&token_of(&[rule(b"ABCDEFGH", &[]), rule(&other, &[])]));
    }
    let [a, b] = [rule(b"ABCDEFGH", &[]), rule(b"B       ", &[])];
    cases.draft(&token_of(&[a.clone(), a.clone()]));
    cases.draft(&token_of(&[a.clone(), b.clone(), a.clone()]));
    cases.draft(&token_of(&[a.clone(), name(), b.clone(), b]));
    let others = [
        section(0x12, &[b"ABCDEFGH", &[0, 0, 0, 0, 9, 0, 0, 0]]),
        rule(b"ABCDEFGH", &[vec![0x00, 0x09, 0, 4]]),
        export_rule(b"ABCDEFGH", 0, &[]),
    ];
    for other in others {
        cases.draft(&token_of(&[a.clone(), other]));
    }
}

fn repeated_tags(cases: &mut Cases) {
    let other = subsection(0x0004, &[&[0], b"B       "]);
    for part in rule_parts() {
        let mut wrong = part.clone();
        wrong[4] = 1;
        cases.draft(&with_rule(&[part.clone(), part.clone()]));
        cases.draft(&with_rule(&[part.clone(), other.clone(), part.clone()]));
        cases.draft(&with_rule(&[part.clone(), wrong]));
        let one = [part];
        let [a, b] = [rule(RULE_ID, &one), rule(b"B       ", &one)];
        cases.draft(&token_of(&[a, b]));
    }
    let day = [7, 0xD0, 2, 29];
    for part in [protection(), dates(day, day)] {
        let section = information(&[part.clone(), protection(), part]);
        cases.draft(&token_of(&[section]));
    }
}

/// A subsection of each tag of a rule.
fn rule_parts() -> [Vec<u8>; 5] {
    [
        variant(1),
        subsection(0x0002, &[&[0], RULE_ID]),
        export(8, 8, 0, 0),
        subsection(0x0004, &[&[0], RULE_ID]),
        limits(0, &[]),
    ]
}

/// Ids and tags beside the known ones, with lengths that would do.
fn unknown(cases: &mut Cases) {
    for id in [0x00, 0x10, 0x16, 0x1E, 0xFF] {
        cases.draft(&token_of(&[section(id, &[&[0; 70]])]));
    }
    for tag in [
        0x0000, 0x0003, 0x0004, 0x0005, 0x0006, 0x0101, 0x0100, 0x1001, 0xFFFF,
    ] {
        cases.draft(&with_rule(&[subsection(tag, &[&[0; 9]])]));
        cases.draft(&token_of(&[information(&[
            protection(),
            subsection(tag, &[&[0; 57]]),
        ])]));
        cases.draft(&token_of(&[information(&[
            protection(),
            subsection(tag, &[&[0; 2]]),
        ])]));
    }
    cases.draft(&token_of(&[section(0x13, &[&[0; 64], &variant(0)])]));
    cases.draft(&token_of(&[section(0x15, &[&[0, 0], &variant(0)])]));
}

fn mask_against_minimum(cases: &mut Cases) {
    for minimum in [8, 16, 24] {
        for mask in [0, 8, 16] {
            let [a, b] = [export_parameters(minimum, 24), token_parameters(mask)];
            cases.draft(&with_rule(&[a.clone(), b.clone()]));
            cases.draft(&with_rule(&[
                variant(3),
                b.clone(),
                subsection(0x0002, &[&[0], RULE_ID]),
                a.clone(),
            ]));
            cases.draft(&token_of(&[rule(RULE_ID, &[a]), rule(b"B       ", &[b])]));
        }
    }
    let bad = [export_parameters(16, 24), token_parameters(8)];
    cases.draft(&token_of(&[rule(RULE_ID, &bad), name(), name()]));
    cases.draft(&token_of(&[rule(
        RULE_ID,
        &[&bad[..], &[vec![0x00, 0x09, 0, 4]]].concat(),
    )]));
    cases.draft(&token_of(&[
        export_rule(RULE_ID, 0, &bad),
        export_rule(b"B       ", 0, &[]),
    ]));
    cases.draft(&token_of(&[rule(RULE_ID, &bad), information(&[])]));
}

/// 20 of both kinds, alone and with other faults.
fn missing(cases: &mut Cases) {
    let day = [7, 0xD0, 2, 29];
    let export_only = export_rule(RULE_ID, 0, &[export_parameters(8, 8)]);
    let without = export_rule(RULE_ID, 0, &[variant(0), limits(8, &[])]);
    let dated = information(&[dates(day, day)]);
    let whole = information(&[protection()]);
    for sections in [
        vec![],
        vec![export_only.clone()],
        vec![without.clone()],
        vec![information(&[])],
        vec![dated.clone()],
        vec![whole.clone(), without.clone()],
        vec![without.clone(), whole.clone()],
        vec![without.clone(), dated.clone()],
        vec![dated.clone(), without.clone()],
        vec![whole.clone(), export_only.clone()],
        vec![name()],
        vec![application_data(60)],
        vec![dated, vec![0x16, 0, 0, 4]],
        vec![without, vec![0x16, 0, 0, 4]],
        vec![name(), vec![0x16, 0, 0, 4]],
        vec![rule(RULE_ID, &[export_parameters(8, 8)])],
        vec![whole, rule(RULE_ID, &[])],
    ] {
        cases.read(&token_of(&sections));
        cases.draft(&token_of(&sections));
        cases.finish(&token_of(&sections));
    }
}

/// The longest tokens, and one byte more.
fn whole_lengths(cases: &mut Cases) {
    for data in [1, 255, 256, 257, 3413, 3414, 3415] {
        cases.read(&smallest_with(&[application_data(data)]));
    }
    for data in [3414, 3415] {
        cases.draft(&smallest_with(&[application_data(data)]));
    }
    let mut longest = smallest_with(&[application_data(3414)]);
    longest[0] = 0;
    cases.read(&longest);
    let mut wrong = smallest_with(&[application_data(3415)]);
    wrong[4] = 1;
    cases.read(&wrong);
    cases.read(&in_line(smallest_token()[..SHORTEST - 1].to_vec()));
}
