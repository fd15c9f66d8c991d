//! Views, the walk and the listing over generated tokens.

mod common;

use common::*;
use trusted_block_tests::generate::{damage, legal};
use trusted_block_tests::kinds;
use trusted_block_tests::listing::listing;
use trusted_block_tests::random::Random;
use trusted_block_tests::reader::{read, read_answer, Row};
use trusted_block_tests::views::{step, taken_apart, view, HoldingReader, Step};

/// The fields of each kind, counted in document 01.
fn count_of_fields(kind: u32) -> u32 {
    match kind {
        kinds::PUBLIC_KEY => 10,
        kinds::RULE => 9,
        kinds::TRANSPORT_VARIANT => 6,
        kinds::TRANSPORT_RULE | kinds::SOURCE_RULE => 5,
        kinds::EXPORT_PARAMETERS => 11,
        kinds::TOKEN_PARAMETERS => 10,
        kinds::NAME => 4,
        kinds::INFORMATION => 5,
        kinds::PROTECTION | kinds::DATES => 7,
        kinds::APPLICATION_DATA => 5,
        _ => 0,
    }
}

#[test]
fn views_are_the_fields_of_the_parts() {
    let mut random = Random::new(0x7669_6577);
    let mut met = [0; 12];
    for _ in 0..1500 {
        let token = legal::ordinary(&mut random);
        let rows = read(&token.bytes).expect("legal");
        assert_eq!(rows.len(), token.parts.len());
        for (index, (row, part)) in rows.iter().zip(&token.parts).enumerate() {
            assert_eq!(row.kind, part.kind());
            met[kinds::ALL
                .iter()
                .position(|kind| *kind == row.kind)
                .unwrap()] += 1;
            let fields = part.fields(row.length as u16);
            assert_eq!(fields.len() as u32, count_of_fields(row.kind));
            let mut place = row.offset;
            for (number, field) in fields.iter().enumerate() {
                let length = field.len() as u32;
                let asked = view(&token.bytes, index as u32, number as u32);
                assert_eq!(asked, Ok((place, length)));
                assert_eq!(token.bytes[place as usize..][..field.len()], field[..]);
                place += length;
            }
            let no_such = Err(answer(22, 0));
            for number in [fields.len() as u32, 255, u32::MAX] {
                assert_eq!(view(&token.bytes, index as u32, number), no_such);
            }
        }
        for row in [rows.len() as u32, u32::MAX] {
            assert_eq!(view(&token.bytes, row, 0), Err(answer(22, 0)));
        }
        let apart = taken_apart(&token.bytes);
        assert_eq!(apart, Ok((token.id, token.parts)));
    }
    assert!(met.iter().all(|count| *count > 100), "{met:?}");
}

#[test]
fn views_and_steps_of_an_illegal_token_give_its_own_refusal() {
    let mut random = Random::new(0x696C_6C65);
    let mut refused = 0;
    for _ in 0..3000 {
        let token = damage::damaged(&mut random).bytes;
        let refusal = read_answer(&token);
        if refusal.number == 0 {
            continue;
        }
        refused += 1;
        assert_eq!(view(&token, 0, 0), Err(refusal));
        assert_eq!(view(&token, u32::MAX, u32::MAX), Err(refusal));
        for place in [0, 8, token.len(), usize::MAX] {
            assert_eq!(step(&token, place), Step::Refused(refusal));
        }
        let mut reader = HoldingReader::new(&token);
        assert_eq!(reader.next_step(), Step::Refused(refusal));
        assert_eq!(reader.next_step(), Step::Refused(refusal));
    }
    assert!(refused > 2000, "{refused}");
}

#[test]
fn walk_gives_the_rows_and_22_elsewhere() {
    let mut random = Random::new(0x7761_6C6B);
    for _ in 0..60 {
        let token = legal::ordinary(&mut random).bytes;
        let rows = read(&token).expect("legal");
        let mut reader = HoldingReader::new(&token);
        let mut found: Vec<Row> = Vec::new();
        while let Step::Row(row, _) = reader.next_step() {
            found.push(row);
        }
        assert_eq!(found, rows);
        assert_eq!(reader.next_step(), Step::End);
        assert_eq!(reader.next_step(), Step::End);
        for place in 0..token.len() + 10 {
            let index = rows.iter().position(|row| row.offset as usize == place);
            let expected = match index {
                Some(last) if last + 1 == rows.len() => Step::Row(rows[last], token.len() as u32),
                Some(index) => Step::Row(rows[index], rows[index + 1].offset),
                None if place == token.len() => Step::End,
                None => Step::Refused(answer(22, 0)),
            };
            assert_eq!(step(&token, place), expected);
        }
    }
}

#[test]
fn owners_are_the_rows_of_the_sections() {
    let mut random = Random::new(0x6F77_6E65);
    for _ in 0..500 {
        let token = legal::legal(&mut random);
        let rows = read(&token.bytes).expect("legal");
        let mut section = 0;
        for (index, row) in rows.iter().enumerate() {
            if kinds::is_section(row.kind) {
                section = index;
            }
            assert_eq!(row.owner as usize, section);
            assert_eq!(rows[section].kind, kinds::owner_of(row.kind));
        }
    }
}

#[test]
fn listing_of_all_kinds() {
    let lines = "token external 362 bytes 12 rows\n\
        0 15 - 8 6 0 0\n\
        1 12 - 14 111 1 1\n\
        2 12 0001 34 9 1 1\n\
        3 12 0002 43 14 1 1\n\
        4 12 0003 57 12 1 1\n\
        5 12 0004 69 14 1 1\n\
        6 12 0005 83 42 1 1\n\
        7 11 - 125 81 7 0\n\
        8 14 - 206 88 8 0\n\
        9 14 0002 216 16 8 0\n\
        10 14 0001 232 62 8 0\n\
        11 13 - 294 68 11 0\n";
    assert_eq!(listing(&token_of_all_kinds()), lines);
}
