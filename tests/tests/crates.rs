//! The crates by their names: each in crates.txt under its family, public or
//! internal as its name says, and in the README's list; ids and limits by name.

mod common;

use common::project;
use std::collections::BTreeSet;
use std::fs::{read_dir, read_to_string};
use std::path::{Path, PathBuf};

fn text(path: &str) -> String {
    read_to_string(project().join(path)).expect("a file of the project")
}

/// A crate of crates.txt: its family, where the comment above it names one, its
/// name and what it depends on.
struct Listed {
    family: Option<String>,
    name: String,
    needs: Vec<String>,
}

/// The crates of crates.txt in its order.
fn listed() -> Vec<Listed> {
    let (mut family, mut found) = (None, Vec::new());
    for line in text("crates.txt").lines() {
        if let Some(comment) = line.strip_prefix("# ") {
            let start = comment.split(':').next().unwrap_or_default();
            family = start.ends_with('_').then(|| start.to_string());
        } else if let Some((head, needs)) = line.split_once(':') {
            // After the name may stand that it is a static library.
            let name = head.split_whitespace().next().unwrap_or_default();
            found.push(Listed {
                family: family.clone(),
                name: name.to_string(),
                needs: needs.split_whitespace().map(str::to_string).collect(),
            });
        }
    }
    found
}

/// The first word of a crate's first line.
fn first_word(name: &str) -> String {
    let source = project().join("crates").join(name).join("src");
    let files = ["lib.rt", "main.rt"].map(|file| read_to_string(source.join(file)));
    let line = files.into_iter().flatten().next().expect("a source");
    let words = line.strip_prefix("// ").expect("a comment at the start");
    words.split(' ').next().unwrap_or_default().to_string()
}

#[test]
fn every_crate_stands_after_what_it_depends_on() {
    let crates = listed();
    let folders = read_dir(project().join("crates")).expect("the crates");
    let folders: BTreeSet<String> = folders
        .map(|folder| folder.expect("a crate").file_name().into_string().unwrap())
        .collect();
    let names: BTreeSet<String> = crates.iter().map(|listed| listed.name.clone()).collect();
    assert_eq!(names, folders);
    assert_eq!(names.len(), crates.len(), "a crate is listed twice");
    for (at, listed) in crates.iter().enumerate() {
        for need in listed.needs.iter().filter(|need| names.contains(*need)) {
            let before = crates[..at].iter().any(|earlier| earlier.name == *need);
            assert!(before, "{} stands before {need}", listed.name);
        }
    }
}

#[test]
fn a_name_tells_the_family_and_whether_it_is_internal() {
    let mut families = BTreeSet::new();
    for Listed { family, name, .. } in listed() {
        let first = first_word(&name);
        let begins = family.as_ref().is_some_and(|start| name.starts_with(start));
        let right = match first.as_str() {
            "Internal:" => begins,
            "Public:" => !begins || name.starts_with("add_") || name.starts_with("trusted_block_"),
            "Program:" => true,
            _ => false,
        };
        assert!(right, "{name} of {family:?}: {first}");
        families.extend(family);
    }
    let readme = text("README.md");
    for family in families {
        let named = readme.contains(&format!("`{family}`"));
        assert!(named, "README does not name the family {family}");
    }
}

#[test]
fn the_readme_lists_the_crates_in_the_same_order() {
    let readme = text("README.md");
    let names: Vec<String> = listed().into_iter().map(|listed| listed.name).collect();
    // A crate's name, and from the 33rd character on what it holds.
    let entry = |line: &str| {
        let (name, rest) = (line.get(4..32)?.trim_end(), line.get(32..)?);
        let described = line.starts_with("    ") && rest.starts_with(char::is_alphanumeric);
        (described && names.iter().any(|known| known == name)).then(|| name.to_string())
    };
    let described: Vec<String> = readme.lines().filter_map(entry).collect();
    assert_eq!(described, names);
}

/// The Rattle sources of a folder and of those in it, but for what the prover
/// keeps in `out`.
fn sources(folder: &Path, found: &mut Vec<PathBuf>) {
    for entry in read_dir(folder).expect("a folder").flatten() {
        let path = entry.path();
        if path.is_dir() && path.ends_with("out") {
            continue;
        } else if path.is_dir() {
            sources(&path, found);
        } else if path.extension().is_some_and(|e| e == "rt" || e == "antt") {
            found.push(path);
        }
    }
}

/// Where a number that has a name stands as a number: where it gets the name,
/// and in the theorems that say it.
const SAID: &[&str] = &[
    "format/src/lib.rt: pub const LONGEST: usize = 3500;",
    "format/src/lib.rt: pub const ROWS: usize = 300;",
    "format/specs/Rules.antt: longest = 3500",
    "read_rule_ids/src/lib.rt: pub const ID_PLACES: usize = 704;",
    "read_rule_ids/specs/Keys.antt: id_places = 704",
    "format/proofs/Main.antt: pub at_most_300_rows : (bs : List ℕ) (l : Legal bs) → length (rows l.parts) ≤ 300",
    "format/proofs/Main.antt: at_most_300_rows bs l = subst (λ (n : ℕ). n ≤ 300) (sym (Rows.row_count_is l.parts)) (Rows.few_rows bs l)",
    "format/proofs/Main.antt: pub table_of_1500 : (bs t : List ℕ) (l : Legal bs) → 1500 ≤ length t → table_answer bs t ≡ Accepted (length (rows l.parts))",
    "format/proofs/Tables.antt: pub room_for_any : (bs t : List ℕ) (l : Legal bs) → length (rows l.parts) ≤ 300 → 1500 ≤ length t",
    "format/proofs/Rows.antt: pub few_rows : (bs : List ℕ) (l : Legal bs) → length l.parts ≤ 300",
];

/// The numbers in a line of code, without its comment.
fn numbers(line: &str) -> impl Iterator<Item = &str> {
    let code = line.split("//").next().unwrap_or_default();
    let code = code.split("--").next().unwrap_or_default();
    let other = |c: char| !c.is_alphanumeric() && c != '_' && c != '-';
    code.split(other)
}

#[test]
fn limits_and_kinds_go_by_their_names() {
    let limits = ["3500", "3501", "1500", "704", "703", "300"];
    let kinds: Vec<String> = (0x11..=0x15u32)
        .flat_map(|id| (0..=5).map(move |tag| (id * 65_536 + tag).to_string()))
        .collect();
    let (crates, mut files, mut found) = (project().join("crates"), Vec::new(), Vec::new());
    sources(&crates, &mut files);
    for file in files {
        let name = file.strip_prefix(&crates).expect("a crate's file");
        for line in read_to_string(&file).expect("a source").lines() {
            let bare = |n: &str| limits.contains(&n) || kinds.iter().any(|kind| kind == n);
            if numbers(line).any(bare) {
                found.push(format!("{}: {}", name.display(), line.trim()));
            }
        }
    }
    found.sort();
    let mut said = SAID.to_vec();
    said.sort_unstable();
    assert_eq!(found, said);
}
