//! The fifth number of each row, which rule it belongs to (02, #108): by the
//! request's words over generated tokens, by hand for made ones. It is taken
//! from tables, walks, rows by number and the program's listing.

mod common;

use common::program::run;
use common::*;
use std::time::Duration;
use trusted_block_tests::fast::fast_fill;
use trusted_block_tests::generate::legal::{legal, with_bare_rules, with_most_rows, Token};
use trusted_block_tests::kinds::{owner_of, HEADER, INFORMATION, NAME, RULE};
use trusted_block_tests::library;
use trusted_block_tests::parts::Part;
use trusted_block_tests::random::Random;
use trusted_block_tests::reader::{read_table, Answer, COLUMNS, TABLE};
use trusted_block_tests::sample_files::samples;
use trusted_block_tests::views::{HoldingReader, Step};

/// The numbers of a row as given: kind, offset, length, owner, rule.
type Numbers = [u32; COLUMNS];

/// A call that reads a token into a table.
type Fill = fn(&[u8], &mut [u32]) -> Answer;

/// The library's, the second reader's, the optimised reader's.
const FILLS: [Fill; 3] = [library::read_table, read_table, fast_fill];

/// The rows that a call puts into a table.
fn by_table(fill: Fill, token: &[u8]) -> Vec<Numbers> {
    let mut table = [0; TABLE];
    let Answer { number, second } = fill(token, &mut table);
    assert_eq!(number, 0, "{token:02X?}");
    let (rows, _) = table.as_chunks();
    rows[..second as usize].to_vec()
}

/// The rows that steps give, to the first that gives none.
fn walked(mut step: impl FnMut() -> Step) -> Vec<Numbers> {
    let mut rows = Vec::new();
    while let Step::Row(row, _) = step() {
        rows.push(row.numbers());
    }
    rows
}

/// The rows by `tb_step`, from place to place.
fn by_steps(token: &[u8]) -> Vec<Numbers> {
    let mut place = HEADER as u32;
    walked(|| {
        let step = library::step(token, place);
        if let Step::Row(_, next) = step {
            place = next;
        }
        step
    })
}

/// The rows by `tb_row`.
fn by_row_numbers(token: &[u8]) -> Vec<Numbers> {
    let mut asked = 0..;
    walked(|| library::row(token, asked.next().expect("there are more numbers")))
}

/// The rows of the program's listing, each line's last number being the rule.
fn by_listing(token: &[u8]) -> Vec<Numbers> {
    let output = run(&list_token(), token, token.len(), Duration::ZERO);
    let lines = String::from_utf8(output.stdout).expect("plain text");
    let numbers = |(place, line): (usize, &str)| {
        let words: Vec<&str> = line.split(' ').collect();
        let [index, id, tag, offset, length, owner, rule] = words[..] else {
            panic!("{line}");
        };
        assert_eq!(index, place.to_string(), "{line}");
        let kind = format!("{id}{}", if tag == "-" { "0000" } else { tag });
        let kind = u32::from_str_radix(&kind, 16).expect("a kind");
        let [offset, length, owner, rule] =
            [offset, length, owner, rule].map(|word| word.parse().expect("a number"));
        [kind, offset, length, owner, rule]
    };
    lines.lines().skip(1).enumerate().map(numbers).collect()
}

/// The rows of a token, the same by every table and by `tb_step`.
fn rows_of(token: &[u8]) -> Vec<Numbers> {
    let rows = by_table(library::read_table, token);
    for fill in FILLS {
        assert_eq!(by_table(fill, token), rows, "{token:02X?}");
    }
    assert_eq!(by_steps(token), rows, "{token:02X?}");
    rows
}

/// The same by every other way too.
fn rows_by_every_way(token: &[u8]) -> Vec<Numbers> {
    let rows = rows_of(token);
    let mut reader = HoldingReader::new(token);
    assert_eq!(walked(|| reader.next_step()), rows, "{token:02X?}");
    assert_eq!(by_row_numbers(token), rows, "{token:02X?}");
    assert_eq!(by_listing(token), rows, "{token:02X?}");
    rows
}

/// The request's words, of rows with this many rules among them: the rules
/// have 1, 2 and so on in their order, a rule's subsection has the number of
/// its owner, every other row 0.
fn assert_numbered(rows: &[Numbers], rules: usize) {
    let of_rules = rows.iter().filter(|row| row[0] == RULE);
    assert!(
        of_rules.map(|row| row[4]).eq(1..=rules as u32),
        "{rules} rules: {rows:X?}"
    );
    for [kind, _, _, owner, rule] in rows {
        let expected = match owner_of(*kind) {
            RULE => rows[*owner as usize][4],
            _ => 0,
        };
        assert_eq!(*rule, expected, "{kind:X} of row {owner} in {rows:X?}");
    }
}

/// What is to be met among the generated tokens, each often.
const SORTS: [&str; 6] = [
    "no rule",
    "a name between two rules",
    "section 14 between two rules",
    "section 14 behind the last rule",
    "a rule with its five subsections",
    "100 rules",
];

/// Which of these a token is.
fn sorts(rows: &[Numbers]) -> [bool; 6] {
    let kinds: Vec<u32> = rows.iter().map(|row| row[0]).collect();
    let is_rule = |kind: &u32| *kind == RULE;
    let Some(first) = kinds.iter().position(is_rule) else {
        return [true, false, false, false, false, false];
    };
    let last = kinds.iter().rposition(is_rule).expect("there is a first");
    let is_subsection = |kind: &u32| owner_of(*kind) == RULE && *kind != RULE;
    let is_full = |six: &[u32]| six[0] == RULE && six[1..].iter().all(is_subsection);
    [
        false,
        kinds[first..last].contains(&NAME),
        kinds[first..last].contains(&INFORMATION),
        kinds[last..].contains(&INFORMATION),
        kinds.windows(6).any(is_full),
        kinds.iter().filter(|kind| is_rule(kind)).count() >= 100,
    ]
}

fn count_of_rules(token: &Token) -> usize {
    let is_rule = |part: &&Part| part.kind() == RULE;
    token.parts.iter().filter(is_rule).count()
}

#[test]
fn generated_tokens() {
    let mut random = Random::new(0x7275_6C65);
    let mut met = [0; SORTS.len()];
    for turn in 0..count_of_tokens() / 30 {
        let token = legal(&mut random);
        let rows = rows_of(&token.bytes);
        assert_numbered(&rows, count_of_rules(&token));
        // A row by its number costs as many readings as there are before it.
        if turn % 10 == 0 {
            assert_eq!(by_row_numbers(&token.bytes), rows);
        }
        for (count, is) in met.iter_mut().zip(sorts(&rows)) {
            *count += usize::from(is);
        }
    }
    for (sort, count) in SORTS.iter().zip(met) {
        println!("{sort}: {count}");
        assert!(count >= 10, "{sort}: {count}");
    }
}

#[test]
fn listings_of_generated_tokens() {
    let mut random = Random::new(0x7275_6C69);
    let mut tokens: Vec<Token> = (0..300).map(|_| legal(&mut random)).collect();
    tokens.push(with_bare_rules(&mut random, 171));
    tokens.push(with_most_rows(&mut random));
    for token in tokens {
        let rows = by_listing(&token.bytes);
        assert_eq!(rows.len(), token.parts.len());
        assert_numbered(&rows, count_of_rules(&token));
    }
}

/// The rule column by every way is the one worked out by hand.
fn assert_column(sections: &[Vec<u8>], column: &[u32]) {
    let rows = rows_by_every_way(&token_of(sections));
    let given: Vec<u32> = rows.iter().map(|row| row[4]).collect();
    assert_eq!(given, column, "{rows:X?}");
}

/// Section 14 with both its subsections, three rows.
fn three_rows() -> Vec<u8> {
    let day = [7, 0xD0, 2, 29];
    information(&[dates(day, day), protection()])
}

/// A rule with all five subsections, two of which name another rule.
fn full_rule(rule_id: &[u8; 8], other: &[u8; 8]) -> Vec<u8> {
    let subsections = [
        token_parameters(16),
        subsection(0x0002, &[&[0], other]),
        export_parameters(8, 24),
        subsection(0x0001, &[&[0, 0, 1, 9]]),
        subsection(0x0004, &[&[0], other]),
    ];
    export_rule(rule_id, 0, &subsections)
}

/// Before each stands which wrong programs it tells.
#[test]
fn made_tokens() {
    let [a, b, c] = [b"A       ", b"B       ", b"C       "].map(|id| rule(id, &[]));
    let (info, key) = (three_rows(), public_key());
    // 1 everywhere before the second rule.
    assert_column(&[info.clone(), name(), key.clone()], &[0, 0, 0, 0, 0]);
    // Counting from 0, so that a rule has the number of the rule before; the
    // number of its row.
    assert_column(&[info.clone(), a.clone()], &[0, 0, 0, 1]);
    // Not set back to 0 after a rule, in section 14 or in its subsections alone.
    assert_column(&[a.clone(), info.clone()], &[1, 0, 0, 0]);
    // A name between two rules that gets the number before it, the number
    // after it, or is counted as a rule.
    assert_column(
        &[info.clone(), a.clone(), name(), b.clone()],
        &[0, 0, 0, 1, 0, 2],
    );
    // The same of application data, the public key and section 14.
    assert_column(
        &[a.clone(), application_data(0), b.clone(), info.clone()],
        &[1, 0, 2, 0, 0, 0],
    );
    assert_column(
        &[a.clone(), key, b.clone(), info.clone(), c.clone(), name()],
        &[1, 0, 2, 0, 0, 0, 3, 0],
    );
    // Rules counted anew after section 14, or after any other section.
    assert_column(&[a, b, info, c], &[1, 2, 0, 0, 0, 3]);
}

#[test]
fn made_rules_with_subsections() {
    let [one, two] = [b"ONE     ", b"TWO     "];
    let (bare, info) = (rule(b"BARE    ", &[]), three_rows());
    let (first, second) = (full_rule(one, two), full_rule(two, one));
    // Subsections without the number, with that of the rule before or of the
    // rule that they name, or counted as rules.
    assert_column(
        &[first.clone(), second.clone(), info.clone()],
        &[1, 1, 1, 1, 1, 1, 2, 2, 2, 2, 2, 2, 0, 0, 0],
    );
    // A bare rule that is not counted; section 14 not set back to 0 after a
    // subsection.
    assert_column(
        &[first, info, bare.clone(), second.clone()],
        &[1, 1, 1, 1, 1, 1, 0, 0, 0, 2, 3, 3, 3, 3, 3, 3],
    );
    let last = [three_rows(), name(), bare, application_data(3), second];
    assert_column(&last, &[0, 0, 0, 0, 1, 0, 2, 2, 2, 2, 2, 2]);
    // The bytes of a variant that look like seven rules are none.
    let four = samples().into_iter().find(|one| one.name == "four_rules");
    let rows = rows_by_every_way(&four.expect("a sample").token);
    let column: Vec<u32> = rows.iter().map(|row| row[4]).collect();
    assert_eq!(column, [0, 0, 1, 2, 2, 3, 4]);
}

/// As many rules as a token holds, section 14 first, between and last.
#[test]
fn made_tokens_of_171_rules() {
    let id = |number: usize| format!("R{number:<7}").into_bytes().try_into();
    let rules: Vec<Vec<u8>> = (1..=171)
        .map(|number| rule(&id(number).expect("eight characters"), &[]))
        .collect();
    for before in [0, 1, 128, 171] {
        let mut sections = rules.clone();
        sections.insert(before, information(&[protection()]));
        let mut column: Vec<u32> = (1..=171).collect();
        column.splice(before..before, [0, 0]);
        assert_column(&sections, &column);
    }
}

/// All orders of what is left, each after what is chosen.
fn each_order<T: Clone>(chosen: &mut Vec<T>, left: &[T], visit: &mut impl FnMut(&[T])) {
    if left.is_empty() {
        return visit(chosen);
    }
    for index in 0..left.len() {
        let mut others = left.to_vec();
        chosen.push(others.remove(index));
        each_order(chosen, &others, visit);
        chosen.pop();
    }
}

/// Three rules and one of each other section in all 5,040 orders. A rule's
/// rows have one more than the rules put before it, all other rows 0.
#[test]
fn every_order_of_sections() {
    let (one, two) = (b"ONE     ", b"TWO     ");
    let short = rule(two, &[subsection(0x0001, &[&[0, 0, 0]])]);
    let sections = [
        (full_rule(one, two), 6, true),
        (short, 2, true),
        (rule(b"BARE    ", &[]), 1, true),
        (three_rows(), 3, false),
        (name(), 1, false),
        (public_key(), 1, false),
        (application_data(0), 1, false),
    ];
    let mut orders = 0;
    each_order(&mut Vec::new(), &sections, &mut |order| {
        let (mut bytes, mut column, mut rules) = (Vec::new(), Vec::new(), 0);
        for (section, rows, is_rule) in order {
            rules += u32::from(*is_rule);
            column.extend(vec![if *is_rule { rules } else { 0 }; *rows]);
            bytes.push(section.clone());
        }
        let rows = rows_of(&token_of(&bytes));
        assert!(rows.iter().map(|row| row[4]).eq(column), "{rows:X?}");
        orders += 1;
    });
    assert_eq!(orders, 5040);
}

/// "Room is then five times the rows": a table with a number less, or with the
/// four numbers to a row of before, is 23 with the rows needed, and stays as it
/// was; of a larger one nothing past the rows changes.
fn assert_room(fill: Fill, token: &[u8], rows: &[Numbers]) {
    const UNTOUCHED: u32 = 0xDEAD_BEEF;
    let enough = 5 * rows.len();
    for room in [0, 4 * rows.len(), enough - 1, enough, enough + 1, TABLE] {
        let mut table = [UNTOUCHED; TABLE + 100];
        let given = fill(token, &mut table[..room]);
        let mut wanted = [UNTOUCHED; TABLE + 100];
        let number = if room < enough {
            23
        } else {
            wanted[..enough].copy_from_slice(rows.as_flattened());
            0
        };
        assert_eq!(given, answer(number, rows.len() as u32), "{room} numbers");
        assert!(table == wanted, "{room} numbers: {token:02X?}");
    }
}

#[test]
fn room_is_five_times_the_rows() {
    assert_eq!(TABLE, 1500, "300 rows, as in the header");
    let mut random = Random::new(0x7275_726F);
    let mut tokens = vec![smallest_token(), token_of_all_kinds()];
    tokens.push(with_bare_rules(&mut random, 171).bytes);
    tokens.push(with_most_rows(&mut random).bytes);
    tokens.extend((0..500).map(|_| legal(&mut random).bytes));
    for token in tokens {
        let rows = rows_of(&token);
        for fill in FILLS {
            assert_room(fill, &token, &rows);
        }
    }
}
