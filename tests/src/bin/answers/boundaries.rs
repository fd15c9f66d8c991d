//! Values of bytes on both sides of each change of the answer, pairs of faults
//! in one part and in two, cuts and tails.

use crate::cases::{draft_answer, Cases};
use crate::kinds::SHORTEST;
use crate::reader::{read, read_answer, read_draft, Answer};
use crate::samples::{in_line, information, protection, smallest_token, token_of};
use crate::tokens::{cut, every, full, inside, long, small_drafts};

type Ask = fn(&[u8]) -> Answer;

/// A place, the value of its byte that is refused, and the number.
type Fault = (usize, u8, u32);

/// A place of a token, and values of its byte with the answer each gives.
struct Place {
    at: usize,
    values: Vec<(u8, Answer)>,
}

pub fn ask(cases: &mut Cases) {
    for token in [smallest_token(), inside()] {
        cases.read(&token);
        for (at, value) in worth_asking(&token, read_answer) {
            cases.read(&with(&token, at, value));
        }
    }
    let mut kinds = Vec::new();
    for draft in small_drafts() {
        cases.draft(&draft);
        let (last, _) = *extents(&draft).last().expect("it has a header");
        for (at, value) in worth_asking(&draft, draft_answer) {
            if at >= last || at == 11 {
                cases.draft(&with(&draft, at, value));
            }
        }
        let rows = read_draft(&draft).expect("it has no fault");
        let kind = rows.last().map(|row| row.kind);
        if !kinds.contains(&kind) {
            kinds.push(kind);
            pairs_of_faults(cases, &draft);
        }
    }
    headers(cases);
    for token in [every(), full()] {
        cases.read(&token);
        faults_in_two_parts(cases, &token);
    }
    long_tokens(cases);
    drafts(cases);
    for token in [smallest_token(), full()] {
        cuts(cases, &token);
    }
    tails(cases);
}

/// The token with another byte at a place.
pub fn with(token: &[u8], at: usize, value: u8) -> Vec<u8> {
    let mut changed = token.to_vec();
    changed[at] = value;
    changed
}

/// More values than this of one byte are too many: the forms of characters and
/// odd numbers are asked on their own.
const MANY: usize = 10;

/// The values of a byte on both sides of each change of the answer, and the
/// last value; of many the first, the last and those beside the byte's own.
fn place(token: &[u8], at: usize, ask: Ask) -> Place {
    let answers: Vec<Answer> = (0..=255)
        .map(|value| ask(&with(token, at, value)))
        .collect();
    let changes = |v: usize| answers.get(v + 1).is_some_and(|next| *next != answers[v]);
    let mut values: Vec<(u8, Answer)> = (0..256)
        .filter(|v| *v == 255 || changes(*v) || (*v > 0 && changes(*v - 1)))
        .map(|v| (v as u8, answers[v]))
        .collect();
    if values.len() > MANY {
        let last = values.len() - 2;
        let near = |v: u8| v.abs_diff(token[at]) == 1;
        let mut turn = 0..;
        values.retain(|(v, _)| {
            let turn = turn.next().expect("it has no end");
            turn < 2 || turn >= last || near(*v)
        });
    }
    Place { at, values }
}

/// The places with their values, of places that behave as both neighbours do
/// none.
fn places(token: &[u8], ask: Ask) -> Vec<Place> {
    let all: Vec<Place> = (0..token.len()).map(|at| place(token, at, ask)).collect();
    let alike = |i: usize, j: Option<usize>| {
        j.and_then(|j| all.get(j))
            .is_some_and(|other| other.values == all[i].values)
    };
    let kept: Vec<bool> = (0..all.len())
        .map(|i| !(alike(i, i.checked_sub(1)) && alike(i, Some(i + 1))))
        .collect();
    let mut kept = kept.into_iter();
    all.into_iter()
        .filter(|_| kept.next() == Some(true))
        .collect()
}

fn worth_asking(token: &[u8], ask: Ask) -> Vec<(usize, u8)> {
    places(token, ask)
        .iter()
        .flat_map(|place| place.values.iter().map(|(value, _)| (place.at, *value)))
        .collect()
}

/// Lengths of more than 255 bytes: the bytes that state them, one more and one
/// less.
fn long_tokens(cases: &mut Cases) {
    let token = long();
    cases.read(&token);
    let rows = read(&token).expect("it is legal");
    let starts = rows.iter().map(|row| row.offset as usize);
    for at in starts.chain([0]).flat_map(|start| [start + 2, start + 3]) {
        cases.read(&with(&token, at, token[at].wrapping_add(1)));
        cases.read(&with(&token, at, token[at].wrapping_sub(1)));
    }
}

/// The header of a draft, in a buffer with some bytes after it and without.
fn drafts(cases: &mut Cases) {
    let mut roomy = smallest_token();
    roomy.extend([0xEE; 3]);
    for draft in [roomy, cut(&every(), 14)] {
        for (at, value) in worth_asking(&draft, draft_answer) {
            if at < 8 || draft.len() > SHORTEST {
                cases.draft(&with(&draft, at, value));
            }
        }
        for (at, value) in worth_asking(&draft[..8], crate::writer::finish) {
            cases.finish(&with(&draft, at, value));
        }
    }
    for length in [0, 1, 7, 8, 9, 12, 17, 18, 22, SHORTEST - 1] {
        cases.draft(&smallest_token()[..length]);
        cases.finish(&smallest_token()[..length]);
        cases.draft(&cut(&every(), length.max(8)));
        cases.finish(&cut(&smallest_token(), length.max(8)));
    }
    cases.draft(&long());
    cases.finish(&long());
}

/// Where the header and each part begin and end, subsections not counted.
fn extents(draft: &[u8]) -> Vec<(usize, usize)> {
    let rows = read_draft(draft).expect("it has no fault");
    let mut starts: Vec<usize> = rows.iter().map(|row| row.offset as usize).collect();
    starts.insert(0, 0);
    let ends = starts[1..].to_vec();
    starts
        .into_iter()
        .zip(ends.into_iter().chain([draft.len()]))
        .collect()
}

/// For each number that the part can be refused with the first and the last
/// byte that does it, each with a value that does.
fn faults(places: &[Place], from: usize, to: usize) -> Vec<Fault> {
    let mut all: Vec<Fault> = Vec::new();
    for place in places.iter().filter(|place| (from..to).contains(&place.at)) {
        for (value, answer) in &place.values {
            let new = |(at, _, number): &Fault| *at != place.at || *number != answer.number;
            if answer.number != 0 && all.iter().all(new) {
                all.push((place.at, *value, answer.number));
            }
        }
    }
    let same = |some: &[Fault], number: u32| some.iter().any(|fault| fault.2 == number);
    let outer = |i: usize| !same(&all[..i], all[i].2) || !same(&all[i + 1..], all[i].2);
    (0..all.len())
        .filter(|i| outer(*i))
        .map(|i| all[i])
        .collect()
}

/// The faults of the header and of each part.
fn faults_by_part(token: &[u8], ask: Ask) -> Vec<Vec<Fault>> {
    let places = places(token, ask);
    extents(token)
        .into_iter()
        .map(|(from, to)| faults(&places, from, to))
        .collect()
}

/// Any two faults of different numbers in the last part.
fn pairs_of_faults(cases: &mut Cases, draft: &[u8]) {
    let faults = faults_by_part(draft, draft_answer);
    for two in pairs(faults.last().expect("it has a header")) {
        cases.draft(&with_both(draft, two));
    }
}

/// Any two faults of the header.
fn headers(cases: &mut Cases) {
    let draft = cut(&smallest_token(), 8);
    for two in pairs(&faults_by_part(&draft, read_answer)[0]) {
        cases.read(&with_both(&draft, two));
    }
    for two in pairs(&faults_by_part(&draft, draft_answer)[0]) {
        cases.draft(&with_both(&draft, two));
    }
}

/// Faults in two parts that follow each other.
fn faults_in_two_parts(cases: &mut Cases, token: &[u8]) {
    for two in faults_by_part(token, read_answer).windows(2) {
        if let (Some(a), Some(b)) = (two[0].last(), two[1].first()) {
            cases.read(&with_both(token, (*a, *b)));
        }
    }
}

fn pairs(faults: &[Fault]) -> Vec<(Fault, Fault)> {
    let all = faults.iter().flat_map(|a| faults.iter().map(|b| (*a, *b)));
    all.filter(|(a, b)| a.0 < b.0 && a.2 != b.2).collect()
}

fn with_both(token: &[u8], (a, b): (Fault, Fault)) -> Vec<u8> {
    with(&with(token, a.0, a.1), b.0, b.1)
}

/// The token cut where the answer changes, its length as it was and in line.
fn cuts(cases: &mut Cases, token: &[u8]) {
    let whole = |length: usize| (length < 8).then(|| token[..length].to_vec());
    let at = |length: usize| whole(length).unwrap_or_else(|| cut(token, length));
    for length in 0..token.len() {
        if read_answer(&at(length)) != read_answer(&at(length + 1)) {
            cases.read(&at(length));
            cases.read(&at(length + 1));
        }
    }
    for length in [0, 7, 8, token.len() - 1] {
        cases.read(&token[..length]);
    }
    let longer = [token, &[0]].concat();
    cases.read(&longer);
    cases.read(&in_line(longer));
}

/// What is left after the last section or subsection is too short for one, and
/// would be refused otherwise if it were not.
fn tails(cases: &mut Cases) {
    for bytes in [
        [0x16, 1, 0, 2],
        [0x14, 1, 0, 2],
        [0x15, 0, 0, 3],
        [0x00, 0x09, 0, 3],
        [0x00, 0x01, 0, 2],
    ] {
        for length in 1..=4 {
            let rest = &bytes[..length];
            cases.read(&in_line([&smallest_token(), rest].concat()));
            cases.read(&token_of(&[information(&[protection(), rest.to_vec()])]));
            cases.draft(&token_of(&[information(&[rest.to_vec()])]));
            cases.draft(&token_of(&[rest.to_vec()]));
        }
    }
}
