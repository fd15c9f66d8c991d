//! The lengths of fields lent to the library's writer, on each side of 24,
//! and the order of an addition's refusals: the draft's own fault, 24, 25, 23.

mod common;

use common::twins::{added, at_the_end};
use common::*;
use std::alloc::{alloc_zeroed, Layout};
use trusted_block_tests::kinds::*;
use trusted_block_tests::library_writer::{add, add_lending, finish, lent_fields, start};
use trusted_block_tests::parts::Part;
use trusted_block_tests::views::taken_apart;
use trusted_block_tests::writer;

/// Which lengths a field may be lent with.
#[derive(Clone, Copy, Debug)]
enum Width {
    Exactly(usize),
    AtMost(usize),
}
use Width::{AtMost, Exactly};

impl Width {
    fn holds(self, length: usize) -> bool {
        match self {
            Exactly(width) => length == width,
            AtMost(width) => length <= width,
        }
    }

    /// Lengths around the width, around the limits of one and two bytes, and
    /// some that are the width's but for such a limit.
    fn lengths(self) -> Vec<usize> {
        let (Exactly(width) | AtMost(width)) = self;
        let around = [0, 1, width - 1, width, width + 1, width + 256];
        let limits = [255, 256, 257, 65_535, 65_536, 65_537, width + 65_536];
        [&around[..], &limits[..]].concat()
    }
}

/// The fields that are runs of bytes: the kind, which of its runs, and the
/// width. Mask and template are tested together, below.
const FIELDS: [(u32, usize, Width); 16] = [
    (PUBLIC_KEY, 0, AtMost(65_535)),
    (PUBLIC_KEY, 1, AtMost(65_535)),
    (RULE, 0, Exactly(8)),
    (TRANSPORT_VARIANT, 0, AtMost(255)),
    (TRANSPORT_RULE, 0, Exactly(8)),
    (EXPORT_PARAMETERS, 0, AtMost(255)),
    (EXPORT_PARAMETERS, 1, AtMost(255)),
    (SOURCE_RULE, 0, Exactly(8)),
    (TOKEN_PARAMETERS, 2, AtMost(255)),
    (NAME, 0, Exactly(64)),
    (PROTECTION, 0, Exactly(32)),
    (PROTECTION, 1, Exactly(8)),
    (PROTECTION, 2, Exactly(16)),
    (DATES, 0, Exactly(4)),
    (DATES, 1, Exactly(4)),
    (APPLICATION_DATA, 0, AtMost(65_535)),
];

/// A legal part of this kind.
fn part_of_kind(kind: u32) -> Part {
    let (_, parts) = taken_apart(&token_of_all_kinds()).expect("legal");
    let part = parts.into_iter().find(|part| part.kind() == kind);
    part.expect("all kinds are there")
}

/// A legal part of this kind with other bytes for one of its runs.
fn part_with(kind: u32, run: usize, bytes: Vec<u8>) -> Part {
    let mut part = part_of_kind(kind);
    *part.runs_mut()[run] = bytes;
    part
}

/// A draft to which a legal part of this kind can be added.
fn draft_for(kind: u32) -> Vec<u8> {
    match kind {
        INFORMATION => token_of(&[]),
        PROTECTION | DATES => token_of(&[information(&[])]),
        _ if is_section(kind) => smallest_token(),
        _ => smallest_with(&[rule(RULE_ID, &[])]),
    }
}

/// A draft whose last section is none that a part of this kind could join.
fn wrong_draft_for(kind: u32) -> Vec<u8> {
    match owner_of(kind) {
        RULE => smallest_token(),
        _ => smallest_with(&[rule(RULE_ID, &[])]),
    }
}

/// A part, whose fields have the lengths they may have or not, added to
/// drafts of all sorts. Numbers and places are told here, and the second
/// writer has the same and the same bytes.
fn try_part(part: &Part, fits: bool) -> u32 {
    let kind = part.kind();
    let what = (kind, lent_fields(part).map(<[u8]>::len));
    let right = draft_for(kind);
    for more in [LONGEST, 70_000] {
        let given = added(&right, more, part);
        assert_eq!(given.number == 24, !fits, "{what:?}");
        assert!(fits || given == at_the_end(24, &right), "{what:?}");
    }
    let no_room = added(&right, 0, part);
    let refusal = if fits { 23 } else { 24 };
    assert_eq!(no_room, at_the_end(refusal, &right), "{what:?}");
    let mut damaged = smallest_token();
    damaged[8] = 0x16;
    assert_eq!(added(&damaged, 0, part), answer(7, 8), "{what:?}");
    assert_eq!(added(&damaged[..7], 0, part), answer(1, 0), "{what:?}");
    if !is_section(kind) {
        let refusal = if fits { 25 } else { 24 };
        for wrong in [wrong_draft_for(kind), token_of(&[])] {
            for more in [0, LONGEST] {
                let given = added(&wrong, more, part);
                assert_eq!(given, at_the_end(refusal, &wrong), "{what:?}");
            }
        }
    }
    added(&right, LONGEST, part).number
}

#[test]
fn every_field_on_each_side_of_24() {
    let mut tally = Tally::default();
    for (kind, run, width) in FIELDS {
        for length in width.lengths() {
            let part = part_with(kind, run, vec![b'A'; length]);
            let number = try_part(&part, width.holds(length));
            tally.add(answer(number, 0));
        }
        let part = part_of_kind(kind);
        assert_eq!(try_part(&part, true), 0, "{part:?}");
    }
    println!("{:?}", tally.numbers);
    tally.assert_reached([0, 16, 18, 19, 21, 23, 24].into_iter(), 1);
}

#[test]
fn mask_and_template_of_like_length() {
    let lengths = [0, 1, 7, 8, 9, 16, 255, 256, 257, 264, 65_536, 65_544];
    let mut tally = Tally::default();
    for mask in lengths {
        for template in lengths {
            let part = Part::TokenParameters {
                mask: vec![0x55; mask],
                template: vec![0xAA; template],
                label_template: vec![],
            };
            let number = try_part(&part, mask == template && mask <= 255);
            tally.add(answer(number, 0));
        }
    }
    assert_eq!(tally.numbers[0], 3, "0, 8 and 16");
    assert_eq!(tally.numbers[18], 4, "1, 7, 9 and 255");
    assert_eq!(tally.numbers[24], 144 - 7);
}

/// A draft to which a part of this kind can be added, filled up to a length
/// by application data in front.
fn filled_draft_for(kind: u32, length: usize) -> Vec<u8> {
    let sections = draft_for(kind)[HEADER..].to_vec();
    let data = length - HEADER - 6 - sections.len();
    token_of(&[application_data(data), sections])
}

#[test]
fn parts_of_each_kind_to_the_last_byte() {
    for kind in ALL {
        let part = part_of_kind(kind);
        let size = part.size();
        let draft = draft_for(kind);
        let longer = (draft.len() + size) as u32;
        assert_eq!(added(&draft, size, &part), answer(0, longer));
        assert_eq!(added(&draft, size + 1, &part), answer(0, longer));
        assert_eq!(added(&draft, size - 1, &part), at_the_end(23, &draft));
        if kind == APPLICATION_DATA {
            continue;
        }
        let draft = filled_draft_for(kind, LONGEST - size);
        for more in [size, size + 1, 70_000] {
            assert_eq!(
                added(&draft, more, &part),
                answer(0, LONGEST as u32),
                "{part:?}"
            );
        }
        assert_eq!(added(&draft, size - 1, &part), at_the_end(23, &draft));
        let draft = filled_draft_for(kind, LONGEST - size + 1);
        for more in [size - 1, size, 70_000] {
            assert_eq!(added(&draft, more, &part), at_the_end(23, &draft));
        }
    }
}

#[test]
fn long_data() {
    let (header, smallest) = (token_of(&[]), smallest_token());
    for (draft, length, number) in [
        (&smallest, 3414, 0),
        (&smallest, 3415, 23),
        (&header, 3486, 0),
        (&header, 3487, 23),
        (&smallest, 65_529, 23),
        (&smallest, 65_530, 23),
        (&smallest, 65_535, 23),
        (&smallest, 65_536, 24),
        (&smallest, 131_072, 24),
    ] {
        let data = vec![0xDA; length];
        let part = Part::ApplicationData { data };
        for more in [LONGEST, 70_000, 200_000] {
            let expected = match number {
                0 => answer(0, LONGEST as u32),
                _ => at_the_end(number, draft),
            };
            assert_eq!(added(draft, more, &part), expected, "{length}");
        }
    }
}

/// 24 goes by x and y alone: a key whose section's length can't be stated is
/// 23, as is any other that passes 3,500 bytes. 16 is told at x or at y.
#[test]
fn long_keys() {
    let draft = token_of(&[]);
    for (exponent, modulus, number, place) in [
        (1, 3475, 16, 18),
        (1, 3476, 23, 8),
        (3475, 1, 16, 14),
        (3476, 1, 23, 8),
        (32_760, 32_759, 23, 8),
        (32_760, 32_760, 23, 8),
        (65_535, 64, 23, 8),
        (1, 65_535, 23, 8),
        (65_535, 65_535, 23, 8),
        (65_536, 64, 24, 8),
        (1, 65_536, 24, 8),
        (65_536, 65_535, 24, 8),
        (65_537, 65_536, 24, 8),
    ] {
        let part = Part::PublicKey {
            modulus_bits: 512,
            exponent: vec![1; exponent],
            modulus: vec![0x81; modulus],
            flags: 0,
        };
        for more in [LONGEST - HEADER, 200_000] {
            let given = added(&draft, more, &part);
            assert_eq!(given, answer(number, place), "{exponent} {modulus}");
        }
    }
}

/// Adds a part whose fields lie in the bytes right after the draft, which has
/// so many bytes more than the part takes; all is as the second writer has it.
fn added_from_beside(kind: u32, part: &Part, more: usize) {
    let runs = lent_fields(part);
    let mut expected = draft_for(kind);
    expected.resize(expected.len() + part.size() + more, 0x77);
    let mut bytes = [&expected[..], &runs.concat()].concat();
    let answer = writer::add(&mut expected, part);
    let (draft, fields) = bytes.split_at_mut(expected.len());
    let (first, rest) = fields.split_at(runs[0].len());
    let (second, third) = rest.split_at(runs[1].len());
    let given = add_lending(draft, part, [first, second, third]);
    assert_eq!(given, answer, "{kind:X} {more}");
    assert_eq!(draft, expected, "{kind:X} {more}");
    assert_eq!(fields, runs.concat(), "{kind:X} {more}");
}

/// A copy over a short way may be made in another manner than one over a long.
#[test]
fn fields_may_lie_right_after_the_draft() {
    for more in [0, 1, 2, 7, 15, 16, 31, 32] {
        for (kind, ..) in FIELDS {
            added_from_beside(kind, &part_of_kind(kind), more);
        }
        for length in 0..100 {
            let data = (1..=length).collect();
            added_from_beside(APPLICATION_DATA, &Part::ApplicationData { data }, more);
        }
        for length in (0..40).chain(64..70) {
            let part = Part::PublicKey {
                modulus_bits: 512,
                exponent: [&vec![0; length], &[3][..]].concat(),
                modulus: vec![0x81; 64],
                flags: 0,
            };
            added_from_beside(PUBLIC_KEY, &part, more);
        }
    }
}

/// One more than the most that 32 bits state.
const FAR: usize = 1 << 32;

/// This many bytes of 0, kept to the end. They take no memory as long as
/// nobody touches them; None where the machine does not lend so many.
fn untouched(length: usize) -> Option<&'static mut [u8]> {
    let layout = Layout::array::<u8>(length).expect("a size that can be stated");
    // SAFETY: the length is not 0, and the bytes are never given back.
    unsafe {
        let bytes = alloc_zeroed(layout);
        (!bytes.is_null()).then(|| std::slice::from_raw_parts_mut(bytes, length))
    }
}

#[test]
fn fields_whose_lengths_pass_32_bits_are_24() {
    let Some(zeros) = untouched(FAR + 65_536) else {
        return println!("not tried: no room for 4 GiB");
    };
    for (kind, run, _) in FIELDS {
        let part = part_of_kind(kind);
        let mut fields = lent_fields(&part);
        fields[run] = &zeros[..FAR + fields[run].len()];
        let draft = draft_for(kind);
        let mut buffer = draft.clone();
        buffer.resize(LONGEST, 0x77);
        let before = buffer.clone();
        let given = add_lending(&mut buffer, &part, fields);
        assert_eq!(given, at_the_end(24, &draft), "{kind:X} {run}");
        assert_eq!(buffer, before);
    }
    let part = part_of_kind(TOKEN_PARAMETERS);
    let mut draft = draft_for(TOKEN_PARAMETERS);
    let long = &zeros[..FAR + 8];
    for fields in [[long, long, &[]], [long, &[0; 8], &[]]] {
        let given = add_lending(&mut draft, &part, fields);
        assert_eq!(given, answer(24, draft.len() as u32));
    }
}

#[test]
fn drafts_whose_lengths_pass_32_bits_have_room() {
    let Some(buffer) = untouched(FAR + 4) else {
        return println!("not tried: no room for 4 GiB");
    };
    assert_eq!(start(buffer, 0x1F), answer(0, 8));
    let name = part_of_kind(NAME);
    assert_eq!(add(buffer, &part_of_kind(INFORMATION)), answer(0, 18));
    assert_eq!(add(buffer, &part_of_kind(PROTECTION)), answer(0, 80));
    assert_eq!(add(buffer, &name), answer(0, 148));
    assert_eq!(finish(buffer), answer(0, 148));
    assert_eq!(add(buffer, &name), answer(9, 148));
    let data = vec![0; LONGEST - 148 - 5];
    assert_eq!(
        add(buffer, &Part::ApplicationData { data }),
        answer(23, 148)
    );
}
