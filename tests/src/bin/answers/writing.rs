//! Starts, additions of the twelve kinds, finishes: accepted, and each refusal
//! alone and before others.

use crate::cases::Cases;
use crate::parts::{written, Part};
use crate::samples::{application_data, in_line, rule, smallest_token, smallest_with, RULE_ID};
use crate::tokens::{modulus, spaced};

pub fn ask(cases: &mut Cases) {
    starts(cases);
    for (draft, part) in additions() {
        accepted_or_no_room(cases, &draft, &part);
        lengths_of_runs(cases, &draft, &part);
        owners(cases, &part);
    }
    counted_runs(cases);
    faults(cases);
    orders(cases);
    longest(cases);
}

fn starts(cases: &mut Cases) {
    for id in [0x00, 0x1D, 0x1E, 0x1F, 0x20, 0xFF] {
        for room in [0, 7, 8, 9] {
            cases.start(id, &vec![0xEE; room]);
        }
    }
}

/// The draft with some bytes after it.
fn roomy(draft: &[u8], room: usize) -> Vec<u8> {
    [draft, &vec![0xEE; room]].concat()
}

fn header() -> Vec<u8> {
    vec![0x1E, 0, 0, 8, 0, 0, 0, 0]
}

/// Drafts that end with a rule, and with a section 14.
fn with_rule() -> Vec<u8> {
    in_line([header(), rule(RULE_ID, &[])].concat())
}

fn with_information() -> Vec<u8> {
    let sections = [
        &header()[..],
        &rule(RULE_ID, &[]),
        &[0x14, 0, 0, 10, 0, 0, 0, 0, 0, 0],
    ];
    in_line(sections.concat())
}

/// A part of each kind with a draft that takes it.
fn additions() -> Vec<(Vec<u8>, Part)> {
    let mut found: Vec<(Vec<u8>, Part)> = sections().into_iter().map(|p| (header(), p)).collect();
    found.extend(rule_parts().into_iter().map(|p| (with_rule(), p)));
    found.extend(
        information_parts()
            .into_iter()
            .map(|p| (with_information(), p)),
    );
    found
}

fn a_rule(rule_id: &[u8], flags: u32) -> Part {
    Part::Rule {
        rule_id: rule_id.to_vec(),
        flags,
        generated_length: 16,
        key_check: 1,
        symmetric_format: flags as u8,
        asymmetric_format: 2,
    }
}

fn a_key(exponent: &[u8], modulus: Vec<u8>, flags: u32) -> Part {
    Part::PublicKey {
        modulus_bits: 513,
        exponent: exponent.to_vec(),
        modulus,
        flags,
    }
}

fn sections() -> [Part; 5] {
    [
        a_key(&[1, 0, 1], modulus(513), 0xC000_0000),
        a_rule(b"RULE-1  ", 1),
        Part::Name {
            name: spaced(b"Some name", 64),
        },
        Part::Information { flags: 1 },
        Part::ApplicationData {
            data: vec![1, 2, 3],
        },
    ]
}

fn export(minimum: u8, variant: usize, cv: usize) -> Part {
    Part::ExportParameters {
        minimum,
        maximum: 16,
        variant: vec![0x31; variant],
        cv: vec![0x32; cv],
    }
}

fn limits(mask: usize, template: usize, label: usize) -> Part {
    Part::TokenParameters {
        mask: vec![0x41; mask],
        template: vec![0x42; template],
        label_template: spaced(b"L*", label),
    }
}

fn rule_parts() -> [Part; 5] {
    [
        Part::TransportVariant {
            variant: vec![9, 8],
        },
        Part::TransportRule {
            rule_id: b"B-2     ".to_vec(),
        },
        export(8, 16, 8),
        Part::SourceRule {
            rule_id: b"c_3     ".to_vec(),
        },
        limits(8, 8, 64),
    ]
}

fn protection(last: u8) -> Part {
    let mut mkvp = vec![0; 16];
    mkvp[15] = last;
    Part::Protection {
        mac_key: vec![0x51; 32],
        mac: vec![0x52; 8],
        mkvp,
    }
}

fn dates(activation: [u8; 4], expiration: [u8; 4], flags: u16) -> Part {
    Part::Dates {
        flags,
        activation: activation.to_vec(),
        expiration: expiration.to_vec(),
    }
}

/// Dates that are judged, and some that are not.
fn information_parts() -> [Part; 4] {
    let (day, later) = ([7, 0xD0, 2, 29], [7, 0xD1, 3, 1]);
    [
        protection(0),
        dates(day, later, 1),
        dates([0; 4], [0xFF; 4], 0),
        dates(later, day, 0),
    ]
}

/// Exactly enough room, a byte less, some more.
fn accepted_or_no_room(cases: &mut Cases, draft: &[u8], part: &Part) {
    for room in [part.size() - 1, part.size(), part.size() + 2] {
        cases.add(part, &roomy(draft, room));
    }
    cases.add(part, draft);
}

/// Each run of bytes one shorter and one longer.
fn lengths_of_runs(cases: &mut Cases, draft: &[u8], part: &Part) {
    let runs = part.clone().runs_mut().len();
    for (index, longer) in (0..runs).flat_map(|index| [(index, false), (index, true)]) {
        let mut changed = part.clone();
        let run = &mut changed.runs_mut()[index];
        if longer {
            run.push(b' ');
        } else {
            run.pop();
        }
        cases.add(&changed, &roomy(draft, part.size() + 2));
    }
}

/// The part after no section, after each other kind, and after a section with
/// a subsection.
fn owners(cases: &mut Cases, part: &Part) {
    let protected = smallest_token();
    for draft in [
        header(),
        with_rule(),
        with_information(),
        protected,
        smallest_with(&[application_data(0)]),
    ] {
        cases.add(part, &roomy(&draft, part.size()));
    }
}

/// Runs whose length a byte can just state, and one more.
fn counted_runs(cases: &mut Cases) {
    for length in [0, 255, 256] {
        cases.add(
            &Part::TransportVariant {
                variant: vec![7; length],
            },
            &roomy(&with_rule(), 300),
        );
        cases.add(&export(8, length, 8), &roomy(&with_rule(), 300));
        cases.add(&export(8, 16, length), &roomy(&with_rule(), 300));
        cases.add(&limits(length, length, 0), &roomy(&with_rule(), 600));
        cases.add(&limits(8, 8, length), &roomy(&with_rule(), 300));
        cases.add(&limits(8, length, 0), &roomy(&with_rule(), 300));
        cases.add(
            &Part::ApplicationData {
                data: vec![6; length],
            },
            &roomy(&header(), 300),
        );
    }
}

/// Parts whose fields break a rule, with the drafts that would take them.
fn faulty_parts() -> Vec<(Vec<u8>, Part)> {
    let day = [7, 0xD0, 2, 29];
    let run = |text: &[u8]| text.to_vec();
    let on_rule = [
        Part::TransportRule {
            rule_id: run(b"        "),
        },
        Part::SourceRule {
            rule_id: run(b" A      "),
        },
        export(9, 16, 8),
        export(24, 16, 8),
        limits(9, 9, 0),
        limits(8, 8, 63),
    ];
    let on_information = [
        protection(1),
        dates([7, 0xD1, 2, 29], day, 1),
        dates(day, [7, 0xCF, 1, 1], 1),
        dates([0; 4], [0; 4], 1),
        dates(day, day, 2),
        dates([0; 4], [0xFF; 4], 2),
    ];
    let on_header = [
        a_key(&[2], modulus(513), 0),
        a_key(&[3], modulus(513), 1),
        a_key(&[], modulus(512), 0),
        a_rule(b"a b     ", 0),
        a_rule(b"A       ", 2),
        a_rule(b"A       ", 0x0100_0001),
        Part::Information { flags: 2 },
        Part::Information { flags: 0x0101_0101 },
    ];
    let all = on_rule.map(|p| (with_rule(), p)).into_iter();
    let all = all.chain(on_information.map(|p| (with_information(), p)));
    all.chain(on_header.map(|p| (header(), p))).collect()
}

/// Additions that the reading of the longer draft refuses, some only outside.
fn faults(cases: &mut Cases) {
    for (draft, part) in faulty_parts() {
        cases.add(&part, &roomy(&draft, part.size()));
        let mut inside = roomy(&draft, part.size());
        inside[0] = 0x1F;
        cases.add(&part, &inside);
    }
    cases.add(&a_rule(RULE_ID, 0), &roomy(&with_rule(), 20));
    cases.add(&sections()[2], &roomy(&with_rule(), 68));
    let parts = [a_rule(b"R       ", 1), export(16, 16, 0)];
    let with_export = written(0x1E, &parts).expect("it has a written form");
    for mask in [0, 8, 16] {
        cases.add(&limits(mask, mask, 0), &roomy(&with_export, 42));
    }
    cases.add(&export(8, 16, 0), &roomy(&with_export, 42));
}

/// The draft's own fault, 24, 25, 23 and a fault of the part, each against the
/// others.
fn orders(cases: &mut Cases) {
    let mut wrong = with_rule();
    wrong[9] = 1;
    for draft in [with_rule(), smallest_token(), wrong] {
        for rule_id in [&b"B       "[..], b"B      ", b" B      "] {
            for room in [13, 14] {
                let part = Part::TransportRule {
                    rule_id: rule_id.to_vec(),
                };
                cases.add(&part, &roomy(&draft, room));
            }
        }
    }
    for length in [0, 7, 8, 9] {
        cases.add(&sections()[3], &vec![0x1E; length]);
    }
}

/// Up to the longest in a longer buffer, and one byte more.
fn longest(cases: &mut Cases) {
    for data in [3394, 3395] {
        let draft = roomy(&smallest_with(&[application_data(data)]), 30);
        cases.add(&Part::TransportVariant { variant: vec![] }, &draft);
        cases.add(&a_rule(RULE_ID, 0), &draft);
    }
    let draft = roomy(&smallest_token(), 3425);
    for data in [3414, 3415] {
        cases.add(
            &Part::ApplicationData {
                data: vec![0; data],
            },
            &draft,
        );
    }
}
