//! Single faults in the forms of Rule IDs and label templates.

use super::cut::{At, CutToken, Expected};
use super::values;
use crate::kinds::{RULE, SOURCE_RULE, TOKEN_PARAMETERS, TRANSPORT_RULE};
use crate::random::Random;

/// How many bytes at the front pass a test.
fn run(bytes: &[u8], test: impl Fn(u8) -> bool) -> usize {
    bytes.iter().take_while(|byte| test(**byte)).count()
}

fn is_space(byte: u8) -> bool {
    byte == b' '
}

/// Where a Rule ID's form ends, by runs: characters, then spaces.
pub fn end_of_rule_id(field: &[u8]) -> usize {
    let signs = run(field, |b| b.is_ascii_alphanumeric() || b"-_".contains(&b));
    match signs {
        0 => 0,
        _ => signs + run(&field[signs..], is_space),
    }
}

/// Where a label template's form ends, by runs: a star and characters, or
/// characters and a star, each star left out or not, then spaces.
pub fn end_of_label(field: &[u8]) -> usize {
    let first = run(&field[..1], |b| b == b'*');
    let plain = |b: u8| b.is_ascii_alphanumeric() || b"#$@".contains(&b);
    let signs = first + run(&field[first..], plain);
    if signs == 0 || field[0].is_ascii_digit() {
        return 0;
    }
    let last = match field.get(signs) {
        Some(b'*') if first == 0 => signs + 1,
        _ => signs,
    };
    last + run(&field[last..], is_space)
}

/// 17 at a byte of a field.
fn at_byte(index: usize, field: usize, byte: usize) -> Option<Expected> {
    let (number, at) = (17, At::Field(index, field, byte));
    Some(Expected { number, at })
}

/// Eight bytes that are no Rule ID.
pub fn bad_rule_id(random: &mut Random) -> Vec<u8> {
    let mut field = values::rule_id(random);
    match random.below(5) {
        0 => field = vec![b' '; 8],
        1 => field[0] = b' ',
        2 => {
            let last = random.between(1, 7);
            field[last] = b'A';
            field[random.below(last)] = b' ';
        }
        3 => field[7] = random.pick(&[0, 0x1F, 0x21, b'.', 0xA0]),
        _ => field[random.below(8)] = random.pick(b"@[`{/:.,^*#$+\0\x7F\x80\xC1\xE1\xFF"),
    }
    field
}

pub fn rule_id_form(cut: &mut CutToken, random: &mut Random) -> Option<Expected> {
    let index = cut.any_of(random, &[RULE, TRANSPORT_RULE, SOURCE_RULE])?;
    let field = if cut.pieces[index].is_section() { 3 } else { 4 };
    let wrong = bad_rule_id(random);
    let byte = end_of_rule_id(&wrong);
    *cut.pieces[index].fields.get_mut(field)? = wrong;
    at_byte(index, field, byte)
}

/// Sixty-four bytes that are no label template.
pub fn bad_label(random: &mut Random) -> Vec<u8> {
    let mut field = values::label_template(random);
    let signs = field.iter().filter(|sign| **sign != b' ').count();
    match random.below(7) {
        0 => field = vec![b' '; 64],
        1 => field[0] = random.pick(b"059"),
        2 => field[0] = b' ',
        3 => {
            field[..3].copy_from_slice(random.pick(&[b"*A*", b"**A", b"A*B", b"A* "]));
            let last = random.between(3, 63);
            field[last] = b'B';
        }
        4 => field[..3].copy_from_slice(random.pick(&[b"A *", b"1* ", b" *A", b"A B"])),
        5 => {
            let place = random.below(signs);
            field[place] = random.pick(b"-_%&!\"'(+./:?[^`{\0\x1F\x7F\x80\xC1\xFF");
        }
        _ => field[63] = random.pick(&[0, b'-', 0xFF, b'_']),
    }
    field
}

pub fn label_form(cut: &mut CutToken, random: &mut Random) -> Option<Expected> {
    let index = cut.any_of(random, &[TOKEN_PARAMETERS])?;
    let fields = &mut cut.pieces[index].fields;
    let wrong = bad_label(random);
    let byte = end_of_label(&wrong);
    *fields.get_mut(8)? = vec![64];
    *fields.get_mut(9)? = wrong;
    cut.bring_lengths_in_line();
    at_byte(index, 9, byte)
}
