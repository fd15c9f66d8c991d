//! The tokens that are measured.

use trusted_block_tests::generate::{legal, values};
use trusted_block_tests::random::Random;
use trusted_block_tests::samples::{
    rule, section, smallest_token, smallest_with, subsection, token_of_all_kinds,
};

pub struct Sample {
    pub name: &'static str,
    /// The number that its reading gives.
    pub number: u32,
    pub token: Vec<u8>,
}

pub fn samples() -> Vec<Sample> {
    let sample = |name, number, token| Sample {
        name,
        number,
        token,
    };
    vec![
        sample("T, the smallest token", 0, smallest_token()),
        sample("T with 171 bare rules", 0, smallest_with(&shuffled_rules())),
        sample(
            "171 bare rules, random IDs",
            0,
            smallest_with(&random_rules()),
        ),
        sample("all twelve kinds", 0, token_of_all_kinds()),
        sample("five label templates", 0, smallest_with(&labelled_rules())),
        sample("refused late", 9, refused_late()),
        sample("276 rows, the most", 0, most_rows()),
        sample(
            "a key of 4,096 bits, exponent 65,537",
            0,
            with_key(&[1, 0, 1]),
        ),
        sample("the same, exponent of 512 bytes", 0, with_key(&[0x91; 512])),
        sample("171 bare rules of one hash", 0, rules_of_one_hash()),
    ]
}

/// The token of 171 bare rules on which the library's set of Rule IDs is
/// slowest: by its hash all of them want the same place.
fn rules_of_one_hash() -> Vec<u8> {
    let same = |number: &usize| hash(&numbered_rule(*number)[4..12]) == 0;
    let numbers = (0..).filter(same).take(171);
    smallest_with(&numbers.map(numbered_rule).collect::<Vec<_>>())
}

/// The library's hash of a Rule ID.
fn hash(rule_id: &[u8]) -> u64 {
    let half = |bytes: &[u8]| {
        bytes
            .iter()
            .fold(0, |sum, byte| sum * 256 + u64::from(*byte))
    };
    let (high, low) = (half(&rule_id[..4]), half(&rule_id[4..]));
    (high * 1_640_531_527 + low * 2_135_587_861) / 8_388_608 % 512
}

/// 171 bare rules in an order that is not that of their Rule IDs.
pub fn shuffled_rules() -> Vec<Vec<u8>> {
    let mut numbers: Vec<usize> = (0..171).collect();
    Random::new(0x7368_7566).shuffle(&mut numbers);
    numbers.into_iter().map(numbered_rule).collect()
}

fn numbered_rule(number: usize) -> Vec<u8> {
    let text = format!("{:<8}", format!("R{number}"));
    let rule_id: [u8; 8] = text.into_bytes().try_into().expect("eight characters");
    rule(&rule_id, &[])
}

/// 171 bare rules whose Rule IDs have one to eight random characters each.
fn random_rules() -> Vec<Vec<u8>> {
    let mut random = Random::new(0x7261_6E64);
    let mut ids: Vec<Vec<u8>> = Vec::new();
    while ids.len() < 171 {
        let id = values::rule_id(&mut random);
        if !ids.contains(&id) {
            ids.push(id);
        }
    }
    let bare = |id: Vec<u8>| rule(&id.try_into().expect("eight characters"), &[]);
    ids.into_iter().map(bare).collect()
}

/// Five rules, each with its own label template.
fn labelled_rules() -> Vec<Vec<u8>> {
    let mut random = Random::new(0x6C61_6265);
    let labelled = |number| {
        let label = values::label_template(&mut random);
        let parameters = subsection(0x0005, &[&[0, 0, 0, 0, 64], &label]);
        let id = format!("LABEL{number}  ").into_bytes();
        rule(&id.try_into().expect("eight characters"), &[parameters])
    };
    (0..5).map(labelled).collect()
}

/// The token of 171 rules whose last Rule ID is that of the rule before.
fn refused_late() -> Vec<u8> {
    let mut rules = shuffled_rules();
    rules[170] = rules[169].clone();
    smallest_with(&rules)
}

/// Rules with the shortest subsections, four rows to a rule.
fn most_rows() -> Vec<u8> {
    legal::with_most_rows(&mut Random::new(0x726F_7773)).bytes
}

/// T with a section 11 of this exponent. The one of 512 bytes differs from
/// the modulus in the last byte only, the longest comparison there is.
pub fn with_key(exponent: &[u8]) -> Vec<u8> {
    let mut modulus = [0x91; 512];
    modulus[511] = 0x93;
    let length = (exponent.len() as u16).to_be_bytes();
    let lengths = [0, 0, length[0], length[1], 0x10, 0, 2, 0];
    let key = section(0x11, &[&lengths, exponent, &modulus, &[0; 4]]);
    smallest_with(&[key])
}
