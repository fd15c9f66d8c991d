//! `./page`, which prints the page of characters, run as it is: every mark on
//! it is what 01 says of that byte value.

mod common;

use common::folder::Folder;
use common::project;
use std::fs::{copy, create_dir_all, read_to_string, remove_file, write, OpenOptions};
use std::io::ErrorKind;
use std::path::Path;
use std::process::{Command, Output};
use std::thread::sleep;
use std::time::Duration;

const SOURCE: &str = "crates/read_characters/src/page.rt";

/// The script of this folder, started in another.
fn page(folder: &Path) -> Command {
    let mut command = Command::new(folder.join("page"));
    command.current_dir(std::env::temp_dir());
    command
}

/// What a script gives. One that was copied just now is busy for as long as a
/// process that another test has begun to start still holds it open.
fn given(command: &mut Command) -> Output {
    loop {
        match command.output() {
            Err(error) if error.kind() == ErrorKind::ExecutableFileBusy => {
                sleep(Duration::from_millis(1))
            }
            output => return output.expect("the script runs"),
        }
    }
}

fn printed(folder: &Path) -> Output {
    given(&mut page(folder))
}

/// What it prints where all is well.
fn text() -> String {
    let given = printed(&project());
    assert!(given.status.success() && given.stderr.is_empty());
    String::from_utf8(given.stdout).expect("plain text")
}

/// Nothing is printed, the status is 2, and the message says this.
fn refused(given: &Output, message: &str) {
    let told = String::from_utf8_lossy(&given.stderr);
    assert_eq!(given.status.code(), Some(2), "{message}");
    assert!(given.stdout.is_empty(), "{message}");
    assert!(told.contains(&format!("page: {message}")), "{told}");
}

/// The mark of a byte value, from the characters that 01 names.
fn mark(value: u8) -> &'static str {
    match value {
        b'A'..=b'Z' | b'a'..=b'z' => "a",
        b'0'..=b'9' => "d",
        b'-' | b'_' => "h",
        b'#' | b'$' | b'@' => "@",
        b'*' => "*",
        b' ' => "s",
        _ => ".",
    }
}

/// A character as it is printed, a space for one that cannot be.
fn shown(value: u8) -> String {
    let value = if value.is_ascii_graphic() {
        value
    } else {
        b' '
    };
    char::from(value).to_string()
}

/// The line of the sixteen values from `16 * row` on.
fn line(row: u8) -> String {
    let values = || (0..16).map(|place| 16 * row + place);
    let marks: Vec<_> = values().map(mark).collect();
    let characters: Vec<_> = values().map(shown).collect();
    let (marks, characters) = (marks.join(" "), characters.join(" "));
    let line = format!("0x{row:X}0 to 0x{row:X}F  {marks}   {characters}");
    line.trim_end().to_string()
}

#[test]
fn every_value_has_its_mark() {
    let text = text();
    let lines: Vec<_> = text.lines().filter(|line| line.starts_with("0x")).collect();
    let expected: Vec<_> = (0..16).map(line).collect();
    assert_eq!(lines, expected);
    assert_eq!(text.lines().last(), expected.last().map(String::as_str));
}

/// Above the rows, each mark once with its name.
#[test]
fn every_mark_is_named() {
    let names = "\
        a    a letter: A to Z, a to z\n\
        d    a digit: 0 to 9\n\
        h    a rule sign: hyphen, underscore\n\
        @    a label sign: # $ @\n\
        *    a star\n\
        s    a space\n\
        .    none of these\n";
    assert_eq!(text().split("\n\n").nth(1), Some(names.trim_end()));
}

/// 80 characters to a line and 60 lines go on any sheet.
#[test]
fn it_is_one_sheet() {
    let text = text();
    assert!(text.lines().count() <= 60);
    assert!(text.lines().all(|line| line.len() <= 80));
}

/// The script and its page in a folder of their own, the page changed.
fn changed(name: &str, change: impl Fn(&str) -> String) -> Folder {
    let folder = Folder::new(name);
    create_dir_all(folder.0.join("crates/read_characters/src")).expect("a folder can be made");
    copy(project().join("page"), folder.0.join("page")).expect("the script can be copied");
    let text = read_to_string(project().join(SOURCE)).expect("the page");
    write(folder.0.join(SOURCE), change(&text)).expect("a file can be written");
    folder
}

const DIGITS: &str = "    dddddddddd......\\\n";

/// A page that is not sixteen rows of sixteen is not printed at all.
#[test]
fn a_page_of_another_shape_is_refused() {
    let changes: [(&str, fn(&str) -> String); 7] = [
        ("row-gone", |text| text.replacen(DIGITS, "", 1)),
        ("row-twice", |text| {
            text.replacen(DIGITS, &DIGITS.repeat(2), 1)
        }),
        ("row-cut", |text| text.replacen(DIGITS, "    dddd\\\n", 1)),
        ("row-after", |text| {
            text.replacen("................\";", "................\\\n    ...\";", 1)
        }),
        ("mark-gone", |text| text.replacen("ddd.", "dd.", 1)),
        ("mark-twice", |text| text.replacen("ddd.", "dddd.", 1)),
        ("no-page", |_| String::new()),
    ];
    for (name, change) in changes {
        let folder = changed(name, change);
        let message = format!("{SOURCE} is not sixteen rows of sixteen");
        refused(&printed(&folder.0), &message);
    }
}

#[test]
fn a_missing_page_is_told() {
    let folder = changed("missing", |text| text.to_string());
    remove_file(folder.0.join(SOURCE)).expect("a file can be removed");
    refused(&printed(&folder.0), &format!("{SOURCE} cannot be read"));
}

/// A changed mark is printed as it stands: the page is read, not known.
#[test]
fn the_page_of_the_source_is_printed() {
    let folder = changed("read", |text| text.replacen("ddd.", "ddd*", 1));
    let text = String::from_utf8(printed(&folder.0).stdout).expect("plain text");
    assert!(text.contains("0x30 to 0x3F  d d d d d d d d d d * . . . . ."));
}

#[test]
fn a_page_that_cannot_be_written_is_told() {
    for words in [&[][..], &["--help"]] {
        let full = OpenOptions::new().write(true).open("/dev/full");
        let mut command = page(&project());
        command.args(words).stdout(full.expect("a full disk"));
        refused(
            &command.output().expect("it runs"),
            "the page cannot be written",
        );
    }
}

/// A relative call, from a folder with an odd name, with CDPATH set.
#[test]
fn from_anywhere() {
    for name in ["two words", "-dash", "plain"] {
        let folder = Folder::new("anywhere");
        let own = folder.0.join(name);
        create_dir_all(own.join("crates/read_characters/src")).expect("a folder can be made");
        for file in ["page", SOURCE] {
            copy(project().join(file), own.join(file)).expect("a file can be copied");
        }
        let mut command = Command::new(Path::new(name).join("page"));
        command.current_dir(&folder.0).env("CDPATH", &folder.0);
        let output = given(&mut command);
        assert!(
            output.status.success() && output.stderr.is_empty(),
            "{name}"
        );
        assert_eq!(String::from_utf8_lossy(&output.stdout), text(), "{name}");
    }
}

#[test]
fn options() {
    let help = page(&project()).arg("--help").output().expect("it runs");
    assert!(help.status.success() && help.stderr.is_empty());
    assert!(String::from_utf8_lossy(&help.stdout).starts_with("usage: ./page"));
    for words in [&["--page"][..], &["--help", "me"], &[""], &["samples"]] {
        let given = page(&project()).args(words).output().expect("it runs");
        refused(&given, "it takes no argument but --help");
    }
}
