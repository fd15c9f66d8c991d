//! Single fields, numbers given back, the paper's examples.

use crate::cases::{hex, row_word, Cases};
use crate::forms::{date_exists, first_wrong, is_label_template, is_rule_id};
use crate::reader::{Answer, Row};
use crate::samples::{
    dates_with_flags, information, protection, rule, smallest_token, smallest_with, token_of,
};
use crate::tokens::spaced;

pub fn ask(cases: &mut Cases) {
    dates(cases);
    dates_in_tokens(cases);
    characters(cases);
    labels(cases);
    given(cases);
    examples(cases);
    examples_of_dates(cases);
}

fn date(cases: &mut Cases, year: u16, month: u8, day: u8) {
    let [high, low] = year.to_be_bytes();
    let bytes = [high, low, month, day];
    let says = u8::from(date_exists(&bytes));
    cases.ask(&format!("date {}", hex(&bytes)), &says.to_string());
}

/// Each month's last days and those after, leap years and those beside.
fn dates(cases: &mut Cases) {
    for year in [
        0, 1, 4, 100, 200, 300, 400, 1900, 2000, 2023, 2024, 2400, 9996, 9999,
    ] {
        for day in [28, 29, 30] {
            date(cases, year, 2, day);
        }
    }
    for month in 0..=14 {
        for day in [0, 1, 30, 31, 32] {
            date(cases, 2025, month, day);
        }
    }
    for (year, month, day) in [
        (9999, 12, 31),
        (9999, 12, 32),
        (10000, 1, 1),
        (10000, 2, 29),
        (0x8000, 1, 1),
        (2024, 255, 1),
        (2024, 1, 255),
    ] {
        date(cases, year, month, day);
    }
}

/// Activation and expiration that differ in one byte, in both orders, and
/// bytes that are no date, with flags that ask for dates and that do not.
fn dates_in_tokens(cases: &mut Cases) {
    let day = [7, 0xD0, 2, 27];
    for other in [
        [8, 0xD0, 2, 27],
        [7, 0xD1, 2, 27],
        [7, 0xD0, 3, 27],
        [7, 0xD0, 2, 28],
        [8, 0xCF, 1, 1],
        [7, 0xD1, 1, 1],
        [7, 0xD0, 3, 1],
        [7, 0xD0, 2, 30],
        [0; 4],
        [0xFF; 4],
    ] {
        for (activation, expiration) in [(day, other), (other, day), (other, other)] {
            for flags in [0, 1, 2] {
                let dates = dates_with_flags(flags, activation, expiration);
                cases.read(&token_of(&[information(&[protection(), dates])]));
            }
        }
    }
    let kept = dates_with_flags(0, [0; 4], [0xFF; 4]);
    let token = token_of(&[information(&[protection(), kept])]);
    for field in [4, 5, 6, 7] {
        cases.view(&token, 2, field);
    }
}

/// The characters on each side of those that a Rule ID or a label allows.
const SIDES: &[u8] = b"\x00\x1F !\"#$%)*+,-./0189:;?@ABYZ[\\]^_`abyz{|\x7F\x80\xC1\xFF";

/// Whether the field has its form, and the first byte at which none can go on,
/// its length where it has.
fn form(cases: &mut Cases, sort: &str, bytes: &[u8], is_form: fn(&[u8]) -> bool) {
    let place = first_wrong(bytes, is_form).unwrap_or(bytes.len());
    let says = u8::from(is_form(bytes));
    cases.ask(
        &format!("{sort} {}", hex(bytes)),
        &format!("{says} {place}"),
    );
}

fn rule_id(cases: &mut Cases, bytes: &[u8]) {
    form(cases, "ruleid", bytes, is_rule_id);
}

fn label(cases: &mut Cases, text: &[u8]) {
    form(cases, "label", &spaced(text, 64), is_label_template);
}

fn characters(cases: &mut Cases) {
    for sign in SIDES {
        rule_id(cases, &spaced(&[*sign], 8));
        label(cases, &[*sign]);
        label(cases, &[b'A', *sign]);
        label(cases, &[b'A', *sign, b'B']);
        for at in [1, 3, 7] {
            let mut bytes = *b"ABCDEFGH";
            bytes[at] = *sign;
            rule_id(cases, &bytes);
        }
        rule_id(cases, &[b'A', b' ', *sign, b' ', b' ', b' ', b' ', b' ']);
    }
    for text in [
        &b""[..],
        b"A",
        b"AB",
        b"ABCDEFGH",
        b"A B",
        b" A",
        b"A      B",
        b"A B C",
        b"A  -_",
    ] {
        rule_id(cases, &spaced(text, 8));
    }
}

/// Stars and digits at the ends and within, 64 characters without a space.
fn labels(cases: &mut Cases) {
    for text in [
        &b""[..],
        b" A",
        b"*",
        b"**",
        b"*A",
        b"A*",
        b"*A*",
        b"A*B",
        b"AB*C",
        b"*1",
        b"1*",
        b"#*",
        b"*#",
        b"A**",
        b"**A",
        b"A *",
        b"A* B",
        b"A B*",
        b"* *",
        b"* A",
        b"A1",
        b"A1*",
        b"A* *",
        b"*A B*",
        b"AB-*",
    ] {
        label(cases, text);
    }
    for at in [0, 1, 62, 63] {
        for sign in [b'*', b'1', b' ', b'#', b'-'] {
            let mut bytes = [b'x'; 64];
            bytes[at] = sign;
            label(cases, &bytes);
        }
    }
}

/// The numbers that go to the caller: an answer's, a field's, a step's. The
/// last question is a step, asked by its row's number too.
fn given(cases: &mut Cases) {
    cases.ask("given answer 0 7", "0 7");
    cases.ask("given answer 20 8", "20 8");
    cases.ask("given where at 18 2", "18 2");
    cases.ask("given where missing 22 5", "0 0");
    let row = Row {
        kind: 0x12_0003,
        offset: 100,
        length: 12,
        owner: 3,
        rule: 2,
    };
    let numbers = format!("0 0 0 {} 100 12 3 2 112", row.kind);
    cases.ask(&format!("given step row {} 112", row_word(&row)), &numbers);
    cases.ask("given step end", "0 22 0 0 0 0 0 0 0");
    cases.ask("given step stopped 21 18", "21 21 18 0 0 0 0 0 0");
}

/// The starred examples of document 01, in its order.
fn examples(cases: &mut Cases) {
    let token = smallest_token();
    let last = crate::boundaries::with(&token, 79, 1);
    let with_rule = |id: &[u8; 8]| smallest_with(&[rule(id, &[])]);
    let tokens = [
        token.clone(),
        vec![],
        vec![0x1E, 0, 0, 8, 0, 0, 0, 0],
        last.clone(),
        crate::boundaries::with(&last, 0, 0x1F),
        [&token[..], &[0]].concat(),
        [&token[..], &[255]].concat(),
    ];
    let days = [
        [7, 0xD0, 2, 0x1D],
        [7, 0x6C, 2, 0x1D],
        [0x27, 0x0F, 0x0C, 0x1F],
    ];
    for (turn, bytes) in [
        (0, &tokens[0]),
        (1, &tokens[1]),
        (2, &tokens[2]),
        (3, &tokens[3]),
        (4, &tokens[4]),
        (5, &tokens[5]),
        (5, &tokens[6]),
    ] {
        example(cases, "starred", turn, bytes);
    }
    for (turn, day) in days.iter().enumerate() {
        let says = u8::from(date_exists(day));
        cases.ask(
            &format!("example starred {} date {}", turn + 6, hex(day)),
            &says.to_string(),
        );
    }
    example(cases, "starred", 9, &with_rule(b"        "));
    example(cases, "starred", 10, &with_rule(b"A       "));
}

/// The examples of request 102, in their order.
fn examples_of_dates(cases: &mut Cases) {
    let (none, all) = ([0; 4], [0xFF; 4]);
    let (day, after) = ([7, 0xD0, 2, 29], [7, 0xD0, 3, 1]);
    let tokens = [
        (0, none, none),
        (1, none, none),
        (0, all, all),
        (0, after, day),
        (1, after, day),
        (1, day, after),
        (1, day, none),
        (1, none, day),
        (2, none, none),
    ];
    for (turn, (flags, activation, expiration)) in tokens.into_iter().enumerate() {
        let dates = dates_with_flags(flags, activation, expiration);
        let token = token_of(&[information(&[protection(), dates])]);
        example(cases, "dates_read", turn, &token);
    }
}

fn example(cases: &mut Cases, list: &str, turn: usize, token: &[u8]) {
    let Answer { number, second } = crate::reader::read_answer(token);
    cases.ask(
        &format!("example {list} {turn} read {}", hex(token)),
        &format!("{number} {second}"),
    );
}
