//! The files of samples/ are what the maker builds, and what is said of them.

mod common;

use common::{answer, project};
use std::fs::{read, read_dir, read_to_string};
use trusted_block_tests::kinds::LONGEST;
use trusted_block_tests::library;
use trusted_block_tests::listing::listing;
use trusted_block_tests::reader::number;
use trusted_block_tests::sample_files::samples;

fn token(name: &str) -> Vec<u8> {
    let file = project().join("samples").join(format!("{name}.token"));
    read(&file).unwrap_or_else(|error| panic!("{}: {error}", file.display()))
}

#[test]
fn the_files_are_those_of_the_maker() {
    let folder = project().join("samples");
    let mut expected = vec!["README.md".to_string()];
    for sample in samples() {
        assert_eq!(token(sample.name), sample.token, "{}", sample.name);
        let lines = read_to_string(folder.join(format!("{}.listing", sample.name)));
        let lines = lines.expect("a listing beside each token");
        assert_eq!(lines, listing(&sample.token), "{}", sample.name);
        expected.push(format!("{}.listing", sample.name));
        expected.push(format!("{}.token", sample.name));
    }
    let entries = read_dir(&folder).expect("the folder is there");
    let names = entries.map(|entry| entry.expect("an entry").file_name());
    let mut found: Vec<String> = names
        .map(|name| name.into_string().expect("plain"))
        .collect();
    found.sort();
    expected.sort();
    assert_eq!(found, expected);
}

#[test]
fn their_answers() {
    let answers = [
        ("smallest", 0, 2),
        ("all_kinds", 0, 13),
        ("rules_171", 0, 173),
        ("four_rules", 0, 7),
        ("zero_dates", 0, 5),
        ("spring", 12, 122),
        ("rule_id_twice", 9, 100),
    ];
    for (name, number, second) in answers {
        let given = library::read(&token(name));
        assert_eq!(given, answer(number, second), "{name}");
    }
    assert_eq!(token("rules_171").len(), LONGEST);
}

#[test]
fn their_readme_names_each() {
    let text = read_to_string(project().join("samples/README.md")).expect("it is there");
    for sample in samples() {
        assert!(
            text.contains(&format!("`{}`", sample.name)),
            "{}",
            sample.name
        );
    }
}

/// As two customers send them: both dates zero, the flags 0. With flags 1 the
/// block would be refused, at the activation.
#[test]
fn zero_dates_are_kept() {
    let mut block = token("zero_dates");
    for field in [5, 6] {
        let (offset, length) = library::view(&block, 2, field).expect("a date");
        let date = &block[offset as usize..(offset + length) as usize];
        assert_eq!(date, [0; 4]);
    }
    let (flags, length) = library::view(&block, 2, 4).expect("flags");
    assert_eq!(length, 2);
    block[flags as usize + 1] = 1;
    assert_eq!(library::read(&block), answer(19, 88));
}

/// The count of rules by a checker that reads a rule's subsections past the
/// length that the rule states, and goes on from the stated end.
fn old_count(token: &[u8]) -> usize {
    let (mut place, mut rules) = (8, 0);
    while place < token.len() {
        let end = place + number(&token[place + 2..place + 4]);
        if token[place] == 0x12 {
            rules += 1;
            let mut subsection = place + 20;
            while subsection < end {
                subsection += number(&token[subsection + 2..subsection + 4]);
            }
        }
        place = end;
    }
    rules
}

/// Four rules became eleven: the token of the spring is refused.
#[test]
fn the_spring_token_counted_eleven() {
    assert_eq!(old_count(&token("four_rules")), 4);
    assert_eq!(old_count(&token("spring")), 11);
    assert_eq!(library::read(&token("spring")), answer(12, 122));
    let (legal, changed) = (token("four_rules"), token("spring"));
    let differ = |place: &usize| legal[*place] != changed[*place];
    let places: Vec<usize> = (0..legal.len()).filter(differ).collect();
    assert_eq!(places, [103]);
}
