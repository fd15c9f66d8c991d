//! Every example of document 01 and of requests 102 and 107, and those of the
//! readings taken, against the proved library, the reader, the quick reader, the
//! table, the listing and the writer. Every place is worked out by hand.

mod common;

use common::*;
use trusted_block_tests::fast::fast_fill;
use trusted_block_tests::forms;
use trusted_block_tests::kinds::{LONGEST, SHORTEST};
use trusted_block_tests::library;
use trusted_block_tests::listing::{listing, program_output};
use trusted_block_tests::parts::Part;
use trusted_block_tests::reader::{read_table, COLUMNS};
use trusted_block_tests::views::{taken_apart, view};
use trusted_block_tests::writer;

fn assert_refused(token: &[u8], number: u32, place: u32) {
    assert_eq!(read_every_way(token), answer(number, place));
    assert_eq!(listing(token), format!("refused {number} at {place}\n"));
}

/// Builds the token anew by the writer and compares all bytes.
fn assert_rebuilt(token: &[u8]) {
    let (id, parts) = taken_apart(token).expect("a legal token");
    let mut draft = vec![0x77; token.len()];
    assert_eq!(writer::start(&mut draft, id), answer(0, 8));
    for part in &parts {
        assert_eq!(writer::add(&mut draft, part).number, 0, "{part:?}");
    }
    assert_eq!(writer::finish(&draft), answer(0, token.len() as u32));
    assert_eq!(draft, token);
}

fn assert_accepted(token: &[u8], rows: u32) {
    assert_eq!(read_every_way(token), answer(0, rows));
    assert_rebuilt(token);
}

#[test]
fn smallest_token_is_accepted_with_two_rows() {
    let token = smallest_token();
    assert_eq!(token.len(), 80);
    assert_accepted(&token, 2);
    let mut table = [7; 2 * COLUMNS + 2];
    read_table(&token, &mut table);
    assert_eq!(
        table,
        [0x14_0000, 8, 72, 0, 0, 0x14_0001, 18, 62, 0, 0, 7, 7],
        "kind, offset, length, owner, rule; nothing past the rows"
    );
    let lines = "token external 80 bytes 2 rows\n0 14 - 8 72 0 0\n1 14 0001 18 62 0 0\n";
    assert_eq!(listing(&token), lines);
    assert_eq!(program_output(&token), lines);
}

#[test]
fn table_without_room_is_23_with_the_rows_needed() {
    let token = smallest_token();
    for length in 0..2 * COLUMNS {
        let mut table = vec![7; length];
        assert_eq!(read_table(&token, &mut table), answer(23, 2));
        assert_eq!(fast_fill(&token, &mut table), answer(23, 2));
        assert_eq!(library::read_table(&token, &mut table), answer(23, 2));
        assert_eq!(table, vec![7; length]);
    }
    let mut table = [7; 2 * COLUMNS];
    assert_eq!(read_table(&token, &mut table), answer(0, 2));
    let mut other = [7; 2 * COLUMNS];
    assert_eq!(library::read_table(&token, &mut other), answer(0, 2));
    assert_eq!(other, table);
}

#[test]
fn empty_input_is_1_and_header_alone_is_20() {
    assert_refused(&[], 1, 0);
    assert_refused(&smallest_token()[..7], 1, 0);
    assert_refused(&[0x1E, 0, 0, 8, 0, 0, 0, 0], 20, 8);
    assert_refused(&[0x1F, 0, 0, 8, 0, 0, 0, 0], 20, 8);
}

#[test]
fn mkvp_is_zero_in_an_external_token() {
    let mut token = smallest_token();
    token[79] = 1;
    // #107: the MKVP's first byte, not the wrong one.
    assert_refused(&token, 21, 64);
    token[0] = 0x1F;
    assert_accepted(&token, 2);
    assert!(listing(&token).starts_with("token internal 80 bytes 2 rows\n"));
    // Only the MKVP need be zero: the encrypted MAC key and the MAC are free.
    let mut token = smallest_token();
    token[24..64].fill(0xFF);
    assert_accepted(&token, 2);
    token[64] = 1;
    assert_refused(&token, 21, 64);
}

/// #107, one byte of T changed: the field's first byte, the part's length, or
/// the start of the part, whichever byte of the field is wrong.
#[test]
fn places_in_the_smallest_token() {
    for (byte, value, number, place) in [
        (0, 0x1D, 2, 0),
        (1, 1, 3, 1),
        (2, 1, 4, 2),
        (3, 0x51, 4, 2),
        (4, 1, 5, 4),
        (7, 1, 5, 4),
        (8, 0x16, 7, 8),
        (9, 1, 8, 9),
        (10, 1, 6, 10),
        (11, 9, 6, 10),
        (11, 0x49, 6, 10),
        (11, 0x47, 12, 20),
        (11, 0x0D, 12, 18),
        (13, 1, 10, 12),
        (17, 2, 11, 14),
        (14, 1, 11, 14),
        (18, 0x01, 13, 18),
        (19, 0x03, 13, 18),
        (20, 1, 12, 20),
        (21, 0x3D, 12, 20),
        (21, 0x3F, 12, 20),
        (22, 1, 8, 22),
        (23, 1, 10, 23),
        (64, 1, 21, 64),
        (71, 0xFF, 21, 64),
    ] {
        let mut token = smallest_token();
        token[byte] = value;
        assert_refused(&token, number, place);
    }
}

#[test]
fn a_byte_after_the_token_is_4() {
    let mut token = smallest_token();
    token.push(0);
    // #107: the header's length.
    assert_refused(&token, 4, 2);
    assert_refused(&in_line(token), 6, 80);
    assert_refused(&smallest_token()[..SHORTEST - 1], 4, 2);
}

#[test]
fn input_of_the_program_is_cut_at_3501_bytes() {
    let mut input = smallest_with(&[application_data(3414)]);
    assert!(program_output(&input).starts_with("token external 3500 bytes 3 rows\n"));
    input.resize(5000, 0);
    assert_eq!(program_output(&input), "refused 4 at 2\n");
    assert_eq!(program_output(&[]), "refused 1 at 0\n");
}

#[test]
fn dates_exist_or_not() {
    let examples: [([u8; 4], bool); 16] = [
        ([0x07, 0xD0, 0x02, 0x1D], true),
        ([0x07, 0x6C, 0x02, 0x1D], false),
        ([0x27, 0x0F, 0x0C, 0x1F], true),
        ([0x27, 0x10, 0x01, 0x01], false),
        ([0xFF, 0xFF, 0x01, 0x01], false),
        ([0x00, 0x00, 0x02, 0x1D], true),
        ([0x00, 0x00, 0x01, 0x01], true),
        ([0x00, 0x00, 0x00, 0x00], false),
        ([0x00, 0x64, 0x02, 0x1D], false),
        ([0x07, 0xE8, 0x02, 0x1D], true),
        ([0x07, 0xE7, 0x02, 0x1D], false),
        ([0x07, 0xE7, 0x0D, 0x01], false),
        ([0x07, 0xE7, 0x04, 0x1F], false),
        ([0x07, 0xE7, 0x04, 0x1E], true),
        ([0x07, 0xE7, 0x01, 0x20], false),
        ([0x07, 0xE7, 0x01, 0x00], false),
    ];
    for (date, exists) in examples {
        assert_eq!(forms::date_exists(&date), exists, "{date:?}");
        let token = token_of(&[information(&[protection(), dates(date, date)])]);
        if exists {
            assert_accepted(&token, 3);
        } else {
            assert_refused(&token, 19, 88);
        }
    }
}

#[test]
fn activation_is_not_after_expiration() {
    let (early, late) = ([7, 0xD0, 2, 29], [7, 0xD0, 3, 1]);
    let both = |first, second| token_of(&[information(&[dates(first, second), protection()])]);
    assert_accepted(&both(early, late), 3);
    // At the later of the two.
    assert_refused(&both(late, early), 19, 18 + 12);
}

/// #102: with flags 0 the dates are any bytes, and the views give them.
#[test]
fn dates_are_judged_only_with_flags_1() {
    let (none, all, day) = ([0; 4], [0xFF; 4], [7, 0xD0, 2, 29]);
    let later = [7, 0xD0, 3, 1];
    for (activation, expiration, place) in [
        (none, none, 88),
        (all, all, 88),
        (later, day, 92),
        (none, day, 88),
        (day, none, 92),
        (all, day, 88),
        (day, all, 92),
    ] {
        let with = |flags| {
            let dates = dates_with_flags(flags, activation, expiration);
            token_of(&[information(&[protection(), dates])])
        };
        let token = with(0);
        assert_accepted(&token, 3);
        for (field, offset, bytes) in [(5, 88, activation), (6, 92, expiration)] {
            assert_eq!(view(&token, 2, field), Ok((offset, 4)));
            assert_eq!(library::view(&token, 2, field), Ok((offset, 4)));
            assert_eq!(token[offset as usize..][..4], bytes);
        }
        assert_refused(&with(1), 19, place);
        // The flags are judged as before, and before the dates.
        assert_refused(&with(2), 11, 86);
    }
}

#[test]
fn rule_ids_have_their_form() {
    assert_refused(&smallest_with(&[rule(b"        ", &[])]), 17, 84);
    assert_accepted(&smallest_with(&[rule(b"A       ", &[])]), 3);
    for right in [
        b"A-_z0Z9a",
        b"0       ",
        b"-       ",
        b"_       ",
        b"ABCDEFG ",
    ] {
        assert_accepted(&smallest_with(&[rule(right, &[])]), 3);
    }
    // With the byte at which no Rule ID can go on.
    for (wrong, byte) in [
        (b" A      ", 0),
        (b"A B     ", 2),
        (b"A     - ", 6),
        (b"A    B C", 5),
        (b"A*      ", 1),
        (b"A *     ", 2),
        (b"*A B    ", 0),
        (b"ABCDEFG\0", 7),
        (b"A\xC1      ", 1),
    ] {
        assert_refused(&smallest_with(&[rule(wrong, &[])]), 17, 84 + byte);
        for tag in [0x0002, 0x0004] {
            let reference = subsection(tag, &[&[0], wrong]);
            let token = smallest_with(&[rule(b"A       ", &[reference])]);
            assert_refused(&token, 17, 106 + byte);
        }
    }
    // The reserved byte of a reference comes before its Rule ID.
    for tag in [0x0002, 0x0004] {
        let reference = subsection(tag, &[&[1], b" A      "]);
        let token = smallest_with(&[rule(RULE_ID, &[reference])]);
        assert_refused(&token, 10, 105);
    }
}

/// Label templates, and the byte at which none can go on.
const LABELS: &[(&[u8], Option<u32>)] = &[
    (b"*", None),
    (b"*1", None),
    (b"A*", None),
    (b"A", None),
    (b"#$@a9Z", None),
    (&[b'A'; 64], None),
    (b"1*", Some(0)),
    (b"1", Some(0)),
    (b"", Some(0)),
    (b" A", Some(0)),
    (b"-A*B", Some(0)),
    (b"**", Some(1)),
    (b"A-", Some(1)),
    (b"A_", Some(1)),
    (b"A\0", Some(1)),
    (b"*A*", Some(2)),
    (b"A*B", Some(2)),
    (b"A**", Some(2)),
    (b"A *", Some(2)),
    (b"A B", Some(2)),
    (b"* A", Some(2)),
    (b"A* *", Some(3)),
    (b"AB*1", Some(3)),
    (b"*A  -", Some(4)),
];

#[test]
fn label_templates_have_their_form() {
    let with = |label: &[u8]| {
        let parameters = subsection(0x0005, &[&[0, 0, 0, 0, 64], label]);
        smallest_with(&[rule(RULE_ID, &[parameters])])
    };
    for (signs, wrong) in LABELS {
        let mut label = [b' '; 64];
        label[..signs.len()].copy_from_slice(signs);
        match wrong {
            None => assert_accepted(&with(&label), 4),
            Some(byte) => assert_refused(&with(&label), 17, 110 + byte),
        }
    }
    // A star as the last of 64, and a second one.
    let mut label = [b'A'; 64];
    label[63] = b'*';
    assert_accepted(&with(&label), 4);
    label[0] = b'*';
    assert_refused(&with(&label), 17, 110 + 63);
}

#[test]
fn token_with_171_bare_rules() {
    let ids: Vec<[u8; 8]> = (0..171)
        .map(|i| {
            format!("{:<8}", format!("R{i}"))
                .into_bytes()
                .try_into()
                .unwrap()
        })
        .collect();
    let rules: Vec<Vec<u8>> = ids.iter().map(|id| rule(id, &[])).collect();
    let token = smallest_with(&rules);
    assert_eq!(token.len(), LONGEST);
    assert_accepted(&token, 173);
    let one_more = smallest_with(&[rules, vec![rule(b"one-more", &[])]].concat());
    assert_refused(&one_more, 4, 2);
}

#[test]
fn application_data_up_to_3414_bytes() {
    assert_accepted(&smallest_with(&[application_data(3414)]), 3);
    assert_accepted(&smallest_with(&[application_data(0)]), 3);
    let mut miscounted = application_data(9);
    miscounted[5] = 8;
    assert_refused(&smallest_with(&[miscounted]), 15, 82);
    assert_refused(&smallest_with(&[application_data(3415)]), 4, 2);
    let mut draft = smallest_token();
    draft.resize(4000, 0x77);
    let before = draft.clone();
    let data = vec![1; 3415];
    let added = writer::add(&mut draft, &Part::ApplicationData { data });
    assert_eq!(added, answer(23, 80));
    assert_eq!(draft, before);
    let data = vec![0xDA; 3414];
    let added = writer::add(&mut draft, &Part::ApplicationData { data });
    assert_eq!(added, answer(0, LONGEST as u32));
    assert_eq!(draft[..LONGEST], smallest_with(&[application_data(3414)]));
    assert_eq!(draft[LONGEST..], [0x77; 500]);
}

#[test]
fn subsections_past_the_stated_length_are_refused() {
    // The variant holds what would read as rules; the rule states a length
    // that ends before it.
    let hidden = rule(b"B       ", &[]);
    let variant = subsection(0x0001, &[&[0, 0, 40], &hidden, &hidden]);
    let honest = rule(RULE_ID, &[variant]);
    assert_accepted(&smallest_with(std::slice::from_ref(&honest)), 4);
    let mut shorter = honest.clone();
    shorter[3] = 28;
    assert_refused(&smallest_with(&[shorter]), 12, 102);
    let mut bare = honest;
    bare[3] = 20;
    assert_refused(&smallest_with(&[bare]), 7, 100);
}

#[test]
fn export_rule_keeps_any_generated_length() {
    for generated in [0, 1, 8, 255] {
        let rule = export_rule(RULE_ID, generated, &[export_parameters(8, 8)]);
        let token = smallest_with(&[rule]);
        assert_accepted(&token, 4);
        assert_eq!(view(&token, 2, 5), Ok((96, 1)));
        assert_eq!(token[96], generated);
    }
    let mut generate = rule(RULE_ID, &[]);
    generate[16] = 9;
    assert_refused(&smallest_with(&[generate]), 11, 96);
}
