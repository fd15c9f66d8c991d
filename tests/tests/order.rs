//! Tokens with two faults or more: the earlier in the order of document 01
//! is the answer. Each next token in a list has one fault fewer. The places are
//! those of request 107, worked out by hand.

mod common;

use common::*;
use trusted_block_tests::reader::read_draft;

fn assert_refused(token: &[u8], number: u32, place: u32) {
    assert_eq!(read_every_way(token), answer(number, place), "{token:02X?}");
    if number != 20 && number != 4 {
        let refusal = read_draft(token).expect_err("drafts have all rules but 20");
        assert_eq!(refusal, answer(number, place), "{token:02X?}");
    }
}

fn assert_accepted(token: &[u8]) {
    assert_eq!(read_every_way(token).number, 0, "{token:02X?}");
}

/// Sets bytes, expecting a refusal at each stage; mends them one by one. A
/// fault is an offset, the byte set there, and the number and place it gives.
fn mend_in_order(token: Vec<u8>, faults: &[(usize, u8, u32, u32)]) {
    let mut damaged = token.clone();
    for (offset, value, _, _) in faults {
        damaged[*offset] = *value;
    }
    for (offset, _, number, place) in faults {
        assert_refused(&damaged, *number, *place);
        damaged[*offset] = token[*offset];
    }
    assert_eq!(damaged, token);
    assert_accepted(&token);
}

#[test]
fn header() {
    // Id, version, length, reserved.
    let faults = [(0, 0x1D, 2, 0), (1, 1, 3, 1), (3, 0x4F, 4, 2), (7, 1, 5, 4)];
    mend_in_order(smallest_token(), &faults);
    assert_refused(&[0xFF; 7], 1, 0);
    // The order holds for buffers over 3,500 bytes too.
    let mut long = smallest_with(&[application_data(3415)]);
    long[7] = 1;
    assert_refused(&long, 4, 2);
    long[1] = 1;
    assert_refused(&long, 3, 1);
    long[0] = 0;
    assert_refused(&long, 2, 0);
    // The header comes before the sections.
    let mut token = smallest_token();
    token[7] = 1;
    token[8] = 0;
    assert_refused(&token, 5, 4);
}

#[test]
fn section_id_version_length() {
    let token = smallest_with(&[name()]);
    // Unknown id, version, length below 68.
    let faults = [(80, 0x16, 7, 80), (81, 1, 8, 81), (83, 67, 6, 82)];
    mend_in_order(token, &faults);
    // At the start where under four bytes are left, else at the length.
    for count in 1..4 {
        let stray = vec![0xFF; count];
        assert_refused(&smallest_with(&[stray]), 6, 80);
    }
    assert_refused(&smallest_with(&[vec![0xFF; 4]]), 7, 80);
    assert_refused(&smallest_with(&[vec![0x15, 1, 0, 6]]), 8, 81);
    assert_refused(&smallest_with(&[vec![0x15, 0, 0, 6]]), 6, 82);
    assert_refused(&smallest_with(&[vec![0x15, 0, 0, 4]]), 6, 82);
}

#[test]
fn section_repeated_after_its_length_and_before_its_inner_length() {
    let mut short = name();
    short[3] = 67;
    assert_refused(&smallest_with(&[name(), short]), 6, 150);
    let mut long = name();
    long[3] = 69;
    long.push(0);
    assert_refused(&smallest_with(&[long.clone()]), 15, 82);
    assert_refused(&smallest_with(&[name(), long.clone()]), 9, 148);
    assert_refused(&smallest_with(&[long, name()]), 15, 82);
    for section in [public_key(), name(), application_data(9)] {
        let second = 80 + section.len() as u32;
        assert_accepted(&smallest_with(std::slice::from_ref(&section)));
        assert_refused(&smallest_with(&[section.clone(), section]), 9, second);
    }
    assert_refused(&smallest_with(&[information(&[protection()])]), 9, 80);
}

#[test]
fn public_key_fields() {
    // x at 86, bits at 88, y at 90, exponent at 92, modulus from 93 to 156,
    // flags at 157.
    let token = smallest_with(&[public_key()]);
    // Inner length, reserved, an even exponent, flags.
    let faults = [
        (87, 2, 15, 82),
        (85, 1, 10, 84),
        (92, 2, 16, 92),
        (160, 1, 11, 157),
    ];
    mend_in_order(token.clone(), &faults);
    // Bits for which y is too small; a modulus with a bit too few, and even; an
    // exponent of 0.
    let faults = [
        (89, 1, 16, 90),
        (93, 0x40, 16, 93),
        (156, 0x10, 16, 93),
        (92, 0, 16, 92),
    ];
    mend_in_order(token, &faults);
}

/// In the order x, bits, y, modulus, exponent: each key has one fault fewer.
#[test]
fn public_key_rules() {
    let key = |exponent: &[u8], bits: u16, modulus: &[u8]| {
        let [x, y] = [exponent, modulus].map(|field| (field.len() as u16).to_be_bytes());
        let counts = [x, bits.to_be_bytes(), y].concat();
        let section = section(0x11, &[&[0, 0], &counts, exponent, modulus, &[0; 4]]);
        smallest_with(&[section])
    };
    let numbers = |length: usize, first, last| {
        let mut bytes = vec![0; length];
        (bytes[0], bytes[length - 1]) = (first, last);
        bytes
    };
    let (even, wide) = (numbers(512, 1, 2), numbers(65, 0x40, 2));
    assert_refused(&key(&[], 511, &wide), 16, 86);
    assert_refused(&key(&numbers(513, 0, 2), 511, &wide), 16, 86);
    assert_refused(&key(&even, 511, &wide), 16, 88);
    assert_refused(&key(&even, 512, &wide), 16, 90);
    assert_refused(&key(&even, 512, &numbers(64, 0x40, 2)), 16, 92 + 512);
    assert_refused(&key(&even, 512, &numbers(64, 0x80, 2)), 16, 92 + 512);
    let modulus = numbers(64, 0x80, 3);
    assert_refused(&key(&even, 512, &modulus), 16, 92);
    // Equal to the modulus, the same with zeros in front, and greater.
    assert_refused(&key(&modulus, 512, &modulus), 16, 92);
    let with_zeros = [&[0; 9], &modulus[..]].concat();
    assert_refused(&key(&with_zeros, 512, &modulus), 16, 92);
    assert_refused(&key(&numbers(64, 0x80, 5), 512, &modulus), 16, 92);
    assert_accepted(&key(&numbers(64, 0x80, 1), 512, &modulus));
}

#[test]
fn rule_fields() {
    let token = smallest_with(&[rule(RULE_ID, &[])]);
    // Rule ID, flags, generated length, key check and both formats.
    let faults = [
        (84, b' ', 17, 84),
        (95, 2, 11, 92),
        (96, 9, 11, 96),
        (97, 3, 11, 97),
        (98, 1, 11, 98),
        (99, 3, 11, 99),
    ];
    mend_in_order(token.clone(), &faults);
    // A sign after a space; after it is mended the next.
    let faults = [(86, b'B', 17, 86), (90, b'-', 17, 90), (91, 0, 17, 91)];
    mend_in_order(token, &faults);
}

#[test]
fn rule_id_repeated_after_the_fields_and_before_the_subsections() {
    let mut wrong_field = rule(RULE_ID, &[]);
    wrong_field[17] = 3;
    let first = rule(RULE_ID, &[]);
    assert_refused(&smallest_with(&[first.clone(), wrong_field]), 11, 117);
    let wrong_subsection = rule(RULE_ID, &[vec![0; 3]]);
    let both = [first.clone(), wrong_subsection.clone()];
    assert_refused(&smallest_with(&both), 9, 100);
    assert_refused(&smallest_with(&[wrong_subsection]), 12, 100);
    assert_refused(&smallest_with(&[first.clone(), first]), 9, 100);
}

#[test]
fn subsection_frame() {
    let twice = |second: Vec<u8>| {
        let first = subsection(0x0001, &[&[0, 0, 0]]);
        smallest_with(&[rule(RULE_ID, &[first, second])])
    };
    // Under four bytes; then tag, length, repeat, version, inner, reserved.
    for count in 1..4 {
        assert_refused(&twice(vec![0xFF; count]), 12, 108);
    }
    let mut second = vec![0xFF, 0xFF, 0, 0, 1, 1, 1, 1];
    assert_refused(&twice(second.clone()), 13, 108);
    second[..2].copy_from_slice(&[0x00, 0x01]);
    assert_refused(&twice(second.clone()), 12, 110);
    second[3] = 9;
    assert_refused(&twice(second.clone()), 12, 110);
    second[3] = 8;
    assert_refused(&twice(second.clone()), 14, 108);
    let once = |only: &[u8]| smallest_with(&[rule(RULE_ID, &[only.to_vec()])]);
    assert_refused(&once(&second), 8, 104);
    second[4] = 0;
    assert_refused(&once(&second), 12, 102);
    second[7] = 0;
    assert_refused(&once(&second), 10, 105);
    second[5..7].fill(0);
    assert_accepted(&once(&second));
}

#[test]
fn tags_known_in_the_other_section_only() {
    for tag in [0x0000, 0x0003, 0x0004, 0x0005, 0x0006, 0x0100] {
        let unknown = subsection(tag, &[&[0; 57]]);
        let token = token_of(&[information(&[protection(), unknown])]);
        assert_refused(&token, 13, 80);
    }
    for tag in [0x0000, 0x0006, 0x0100, 0x0101] {
        let token = smallest_with(&[rule(RULE_ID, &[subsection(tag, &[&[0; 9]])])]);
        assert_refused(&token, 13, 100);
    }
}

#[test]
fn fixed_subsections_have_their_length() {
    for tag in [0x0002, 0x0004] {
        let exact = subsection(tag, &[&[0], RULE_ID]);
        let in_rule = |part: Vec<u8>| smallest_with(&[rule(RULE_ID, &[part])]);
        assert_accepted(&in_rule(exact.clone()));
        // Longer: the version comes first, then the length.
        let mut longer = subsection(tag, &[&[1], RULE_ID, &[0]]);
        longer[4] = 1;
        assert_refused(&in_rule(longer.clone()), 8, 104);
        longer[4] = 0;
        assert_refused(&in_rule(longer), 12, 102);
        // Shorter: the length comes before the repeat and the version.
        let mut shorter = subsection(tag, &[&[0], &RULE_ID[..7]]);
        shorter[4] = 1;
        let token = smallest_with(&[rule(RULE_ID, &[exact, shorter])]);
        assert_refused(&token, 12, 116);
    }
    let longer = subsection(0x0001, &[&[0; 58]]);
    assert_refused(&token_of(&[information(&[longer])]), 12, 20);
    let longer = subsection(0x0002, &[&[0; 12]]);
    assert_refused(&token_of(&[information(&[longer])]), 12, 20);
}

#[test]
fn export_parameter_fields() {
    // Minimum at 108, maximum at 109, x at 110, c at 127.
    let parameters = subsection(0x0003, &[&[0, 0, 0, 8, 16, 16], &[9; 16], &[8], &[7; 8]]);
    let token = smallest_with(&[rule(RULE_ID, &[parameters])]);
    // Inner length by c, reserved, flags, minimum, maximum.
    let faults = [
        (127, 7, 12, 102),
        (106, 1, 10, 105),
        (107, 1, 11, 107),
        (108, 9, 18, 108),
        (109, 17, 18, 109),
    ];
    mend_in_order(token.clone(), &faults);
    // Minimum above maximum at the maximum; x below the maximum at x.
    mend_in_order(token.clone(), &[(108, 24, 18, 109)]);
    mend_in_order(token.clone(), &[(109, 24, 18, 110)]);
    // The c that x points to lies outside: nothing else is looked at.
    mend_in_order(token.clone(), &[(110, 255, 12, 102), (105, 1, 10, 105)]);
    // Just inside by x, but c is then a byte of the CV.
    mend_in_order(token, &[(110, 24, 12, 102)]);
    for (x, c, wrong) in [
        (0, 8, None),
        (7, 9, Some(110)),
        (8, 9, Some(110)),
        (15, 9, Some(110)),
        (16, 9, Some(127)),
        (255, 24, Some(366)),
        (0, 1, Some(111)),
        (255, 16, None),
    ] {
        let [variant, cv] = [x, c].map(|count| vec![1; usize::from(count)]);
        let parameters = subsection(0x0003, &[&[0, 0, 0, 8, 16, x], &variant, &[c], &cv]);
        let token = smallest_with(&[rule(RULE_ID, &[parameters])]);
        match wrong {
            None => assert_accepted(&token),
            Some(place) => assert_refused(&token, 18, place),
        }
    }
}

#[test]
fn token_parameter_fields() {
    // m at 108, z at 125, the label template at 126.
    let mut label = [b' '; 64];
    label[..2].copy_from_slice(b"A*");
    let parameters = subsection(0x0005, &[&[0, 0, 0, 8], &[5; 16], &[64], &label]);
    let token = smallest_with(&[rule(RULE_ID, &[parameters])]);
    // Inner length by z, reserved, flags, label.
    let faults = [
        (125, 63, 12, 102),
        (105, 1, 10, 105),
        (107, 1, 11, 107),
        (126, b'1', 17, 126),
    ];
    mend_in_order(token.clone(), &faults);
    mend_in_order(token.clone(), &[(108, 255, 12, 102), (106, 1, 10, 105)]);
    // `A*B*1`: no template goes on with the B. Then `A* *1` and `A*  1`.
    let faults = [
        (128, b'B', 17, 128),
        (129, b'*', 17, 129),
        (130, b'1', 17, 130),
    ];
    mend_in_order(token, &faults);
    // Lengths come before the form of the label.
    let parameters = subsection(0x0005, &[&[0, 0, 0, 7], &[5; 14], &[63], &[b'1'; 63]]);
    assert_refused(&smallest_with(&[rule(RULE_ID, &[parameters])]), 18, 108);
    let parameters = subsection(0x0005, &[&[0, 0, 0, 8], &[5; 16], &[63], &[b'1'; 63]]);
    assert_refused(&smallest_with(&[rule(RULE_ID, &[parameters])]), 18, 125);
}

#[test]
fn mask_against_minimum_after_all_subsections_and_before_what_follows() {
    let (mask, limits) = (token_parameters(8), export_parameters(16, 24));
    // At m of the 0005, which stands eight bytes into it.
    let pairs = [(&mask, &limits, 108), (&limits, &mask, 120)];
    for (first, second, place) in pairs {
        let parts = [first.clone(), second.clone()];
        assert_refused(&smallest_with(&[rule(RULE_ID, &parts)]), 18, place);
        assert_refused(
            &smallest_with(&[export_rule(RULE_ID, 0, &parts)]),
            18,
            place,
        );
        // A later subsection's fault comes first, a later section's does not.
        let with_stray = [&parts[..], &[vec![0; 2]]].concat();
        assert_refused(&smallest_with(&[rule(RULE_ID, &with_stray)]), 12, 138);
        let token = smallest_with(&[rule(RULE_ID, &parts), vec![0]]);
        assert_refused(&token, 18, place);
    }
    // Without a 0003 any mask is long enough; a mask of 0 always is.
    assert_accepted(&smallest_with(&[rule(RULE_ID, &[mask])]));
    let parts = [token_parameters(0), limits];
    assert_accepted(&smallest_with(&[rule(RULE_ID, &parts)]));
}

#[test]
fn protection_and_dates_fields() {
    let day = [7, 0xD0, 2, 29];
    let token = token_of(&[information(&[protection(), dates(day, day)])]);
    let faults = [(22, 1, 8, 22), (23, 1, 10, 23), (79, 1, 21, 64)];
    mend_in_order(token.clone(), &faults);
    // Version, reserved, flags; no activation, no expiration, out of order.
    let faults = [
        (84, 1, 8, 84),
        (85, 1, 10, 85),
        (87, 2, 11, 86),
        (91, 32, 19, 88),
        (94, 13, 19, 92),
        (90, 3, 19, 92),
    ];
    mend_in_order(token.clone(), &faults);
    // With flags 0 dates are no fault: what comes after them is told.
    let kept = dates_with_flags(0, [0xFF; 4], [0; 4]);
    let judged = dates_with_flags(1, [0xFF; 4], [0; 4]);
    let twice = [kept.clone(), protection(), judged.clone()];
    assert_refused(&token_of(&[information(&twice)]), 14, 96);
    let before = [kept.clone(), vec![0; 3]];
    assert_refused(&token_of(&[information(&before)]), 12, 34);
    assert_refused(&token_of(&[information(&[judged, vec![0; 3]])]), 19, 26);
    assert_refused(&token_of(&[information(&[kept])]), 20, 8);
    // Section 14's own fields come before its subsections.
    let faults = [(9, 1, 8, 9), (13, 1, 10, 12), (17, 2, 11, 14)];
    mend_in_order(token, &faults);
}

#[test]
fn missing_parts() {
    let export = || export_rule(RULE_ID, 0, &[]);
    // The rule's own 20 comes before the next section.
    assert_refused(&smallest_with(&[export(), vec![0; 3]]), 20, 80);
    assert_refused(&smallest_with(&[vec![0; 3], export()]), 7, 80);
    // A missing section 14 comes last, at the token's length.
    assert_refused(&token_of(&[name(), export()]), 20, 76);
    assert_refused(&token_of(&[name(), rule(RULE_ID, &[])]), 20, 96);
    // Section 14's own 20 comes before the next section.
    assert_refused(&token_of(&[information(&[]), export()]), 20, 8);
    assert_refused(&token_of(&[export(), information(&[])]), 20, 8);
    let day = [7, 0xD0, 2, 29];
    assert_refused(
        &token_of(&[name(), information(&[dates(day, day)])]),
        20,
        76,
    );
    assert_accepted(&smallest_with(&[export_rule(
        RULE_ID,
        0,
        &[export_parameters(8, 24)],
    )]));
    for token in [
        token_of(&[]),
        token_of(&[export()]),
        token_of(&[information(&[])]),
    ] {
        assert!(read_draft(&token).is_ok(), "a draft may lack parts");
    }
}
