//! Every edit, theorem, definition, function, file and test that
//! docs/PROMISES.md and README.md name is there as named.

mod common;

use common::folder::Folder;
use common::project;
use std::fs::read_to_string;
use trusted_block_tests::names::missing;

#[test]
fn what_the_documents_name_is_there() {
    let mut lines = Vec::new();
    for document in ["docs/PROMISES.md", "README.md"] {
        let text = read_to_string(project().join(document)).expect("a document");
        lines.extend(missing(&project(), document, &text));
    }
    let lines = lines.join("\n");
    assert!(lines.is_empty(), "not there as named:\n{lines}");
}

/// A made repository with a few names of each sort.
fn repository(name: &str) -> Folder {
    let folder = Folder::new(name);
    let law = "pub a_law : T\nhidden_law : T\n-- pub said_law : T\n";
    let definitions = "pub record Legal (bs : T) : Type 0 where\n  pub form : T\n\
        unfoldable pub need : T\npub data Item : Type 0 where\n  code own : Item\n";
    let call = "pub extern \"C\" fn tb_read(token: &[u8]) -> u32\n";
    for (name, text) in [
        ("crates/format/proofs/Main.antt", law),
        ("crates/format/specs/Legal.antt", definitions),
        ("crates/format/must-fail/wrong_count.edit", ""),
        ("crates/reading/must-fail/row_too_many.edit", ""),
        (
            "crates/reading/src/lib.rt",
            "pub fn read() -> u32\n// fn said()\n",
        ),
        ("crates/reading/src/draft.rt", "fn read_draft() -> u32\n"),
        ("crates/trusted_block/src/lib.rt", call),
        (
            "include/trusted_block.h",
            "uint32_t tb_read(const uint8_t *token);\n",
        ),
        ("tests/tests/library.rs", "fn legal_tokens() {}\n"),
    ] {
        folder.file(name, text.as_bytes());
    }
    folder
}

/// A table whose second row has these words in its last column.
fn table(words: &str) -> String {
    format!("| Sentence | Where |\n|---|---|\n| No `name` | {words} |\n")
}

#[test]
fn right_names_are_found() {
    let folder = repository("right");
    for words in [
        "wrong_count; row_too_many (reading), wrong_count (format); crates/reading/must-fail",
        "Main `a_law`; Legal `Legal`, `form`, `need false`, `code`, `own`; specs/Legal",
        "`a_law`; `form` of `crates/format/specs/Legal.antt`; \"Any\" word",
        "crates/reading `read`, `draft::read_draft`; `reading::draft::read_draft`, `read`",
        "contracts of crates/reading, format, trusted_block; `tb_read`, `rt check reading`",
        "library.rs `legal_tokens`; tests/tests/library.rs; include/trusted_block.h",
        "no `requires` in `reading`; crates/*/must-fail; `./include/trusted_block.h`",
        "the family `trusted_`, trusted_..; 12/0001, 14/0002",
    ] {
        assert_eq!(
            missing(&folder.0, "made", &table(words)),
            [""; 0],
            "{words}"
        );
    }
}

/// Words with a wrong name, and what is told of it.
const WRONG: &str = "\
wrong_count (reading) => edit wrong_count: there is no crates/reading/must-fail/wrong_count.edit
wrong_count, row_too_many (reading) => edit wrong_count: there is no crates/reading/must-fail/wrong_count.edit
wrong_count (format, reading) => edit wrong_count: there is no crates/reading/must-fail/wrong_count.edit
row_too_many => edit row_too_many: there is no crates/format/must-fail/row_too_many.edit
reading/must-fail => reading/must-fail: there is no reading/must-fail
Main `b_law` => b_law: not declared in crates/format/proofs/Main.antt
Main `hidden_law` => hidden_law: not declared in crates/format/proofs/Main.antt
Main `form` => form: not declared in crates/format/proofs/Main.antt
`said_law` => said_law: not declared in crates/format/proofs/Main.antt
Legal `a_law` => a_law: not declared in crates/format/specs/Legal.antt
Legal `other false` => other: not declared in crates/format/specs/Legal.antt
Legal `form`; `need` => need: no file or crate is named before it
Legally => Legally: no file of crates/format has this name
proofs/Legal => proofs/Legal: there is no crates/format/proofs/Legal.antt
crates/reading `said` => said: not declared in crates/reading
`reading::write` => write: not declared in crates/reading
`reading::draft::read` => read: not declared in crates/reading/src/draft.rt
crates/reading, format, writer => crates/writer: there is no crates/writer
`rt check no_crate` => edit no_crate: there is no crates/format/must-fail/no_crate.edit
`tb_write` => tb_write: not declared in crates/trusted_block
`read_` => read_: no crate's name begins so
trust_.. => trust_: no crate's name begins so
12/0006 => 12/0006: no such kind
12/1 => 12/1: there is no 12/1
missing.rs => missing.rs: there is no tests/tests/missing.rs
tests/library.rs => tests/library.rs: there is no tests/library.rs
library.rs `no_test` => no_test: not declared in tests/tests/library.rs";

#[test]
fn wrong_names_are_told() {
    let folder = repository("wrong");
    for line in WRONG.lines() {
        let (words, told) = line.split_once(" => ").expect("two sides");
        let lines = missing(&folder.0, "made", &table(words));
        assert_eq!(lines.first(), Some(&format!("made:3: {told}")), "{words}");
    }
}

/// Outside tables: the first word of a sentence is no name, the others are.
#[test]
fn names_in_prose_and_code() {
    let folder = repository("prose");
    let text = "# Other\n\nAny of Legal. Any `form`\n- Each\n\n    crates/reading, other,\n    format    Any\n";
    let told = [
        "made:3: form: no file or crate is named before it",
        "made:6: crates/other: there is no crates/other",
    ];
    assert_eq!(missing(&folder.0, "made", text), told);
}
