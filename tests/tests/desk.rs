//! The desk's command, ./list: listings, counts, names, and exit statuses.

mod common;

use common::folder::Folder;
use common::{list_token, project};
use std::fs::{create_dir_all, read, read_to_string, File};
use std::process::{Command, Stdio};
use std::sync::Once;
use trusted_block_tests::sample_files::samples;

/// Runs ./list with these words; gives its status, output and messages.
fn list(words: &[&str]) -> (i32, String, String) {
    list_with(words, Stdio::null(), Stdio::piped())
}

/// A program older than the sources is built anew once, so that no test sees
/// what the build says.
static BUILT: Once = Once::new();

fn list_with(words: &[&str], input: Stdio, output: Stdio) -> (i32, String, String) {
    list_token();
    BUILT.call_once(|| {
        let mut first = Command::new(project().join("list"));
        first.stdin(Stdio::null()).output().expect("list runs");
    });
    let mut command = Command::new(project().join("list"));
    command.args(words).stdin(input).stdout(output);
    let child = command.stderr(Stdio::piped()).spawn().expect("list runs");
    let output = child.wait_with_output().expect("list ends");
    let text = |bytes| String::from_utf8(bytes).expect("plain text");
    let status = output.status.code().expect("no signal");
    (status, text(output.stdout), text(output.stderr))
}

fn sample(name: &str) -> String {
    let file = project().join("samples").join(name);
    file.into_os_string().into_string().expect("plain")
}

#[test]
fn each_sample_gives_its_listing() {
    for one in samples() {
        let lines = read_to_string(sample(&format!("{}.listing", one.name)));
        let lines = lines.expect("a listing beside each token");
        let refused = i32::from(lines.starts_with("refused"));
        let token = sample(&format!("{}.token", one.name));
        let expected = (refused, lines, String::new());
        assert_eq!(list(&[&token]), expected);
        let input = File::open(&token).expect("a sample");
        assert_eq!(list_with(&[], input.into(), Stdio::piped()), expected);
    }
}

#[test]
fn several_files_are_headed_by_their_names() {
    let (first, second) = (sample("smallest.token"), sample("spring.token"));
    let (status, lines, messages) = list(&[&first, &second]);
    let listing = read_to_string(sample("smallest.listing")).expect("a listing");
    let expected = format!("{first}:\n{listing}{second}:\nrefused 12 at 122\n");
    assert_eq!((status, lines), (1, expected));
    assert_eq!(messages, "");
}

#[test]
fn counts_and_their_sum() {
    let names = ["rules_171", "spring", "four_rules", "all_kinds", "smallest"];
    let files = names.map(|name| sample(&format!("{name}.token")));
    let [rules, spring, four, kinds, smallest] = &files;
    let words = ["--count", rules, spring, four, kinds, smallest];
    let expected = format!(
        "171 {rules}\n0 {spring} refused 12 at 122\n4 {four}\n2 {kinds}\n0 {smallest}\n177 in all\n"
    );
    assert_eq!(list(&words), (1, expected, String::new()));
    let expected = format!("4 {four}\n4 in all\n");
    assert_eq!(list(&["--count", four]), (0, expected, String::new()));
    // Dates that nobody judges: the block is billed.
    let dates = &sample("zero_dates.token");
    let expected = format!("2 {dates}\n2 in all\n");
    assert_eq!(list(&["--count", dates]), (0, expected, String::new()));
}

#[test]
fn counts_from_standard_input() {
    let input = File::open(sample("four_rules.token")).expect("a sample");
    let given = list_with(&["--count"], input.into(), Stdio::piped());
    let expected = "4 standard input\n4 in all\n";
    assert_eq!(given, (0, expected.to_string(), String::new()));
    let refused = "0 standard input refused 1 at 0\n0 in all\n";
    assert_eq!(list(&["--count"]), (1, refused.to_string(), String::new()));
}

/// The others are listed and counted; 2 stays whatever comes after.
#[test]
fn a_file_that_cannot_be_read() {
    let folder = Folder::new("missing");
    let missing = format!("{}/none.token", folder.0.display());
    let (four, spring) = (sample("four_rules.token"), sample("spring.token"));
    let a_folder = folder.0.display().to_string();
    for bad in [&missing, &a_folder] {
        let expected = format!("4 {four}\n0 {spring} refused 12 at 122\n4 in all\n");
        let message = format!("list: cannot read {bad}\n");
        let given = list(&["--count", bad, &four, &spring]);
        assert_eq!(given, (2, expected.clone(), message.clone()));
        let given = list(&["--count", &four, &spring, bad]);
        assert_eq!(given, (2, expected, message.clone()));
        assert_eq!(list(&[bad]), (2, String::new(), message));
    }
}

/// Names with spaces, with signs that a shell takes for its own, with a
/// hyphen in front.
#[test]
fn names_are_taken_as_they_are() {
    let folder = Folder::new("names");
    let token = read(sample("four_rules.token")).expect("a sample");
    for name in [
        "two  words.token",
        "a*?[b]$(x)%s\\n'\".token",
        "-x",
        "--count",
    ] {
        let file = folder.file(name, &token);
        let expected = format!("4 {file}\n4 in all\n");
        assert_eq!(list(&["--count", &file]), (0, expected, String::new()));
        let output = Command::new(project().join("list"))
            .args(["--count", "--", name])
            .current_dir(&folder.0)
            .output()
            .expect("list runs");
        assert_eq!(output.stdout, format!("4 {name}\n4 in all\n").into_bytes());
        assert_eq!(output.status.code(), Some(0));
    }
}

#[test]
fn empty_and_long_files() {
    let folder = Folder::new("long");
    let mut token = read(sample("rules_171.token")).expect("a sample");
    token.push(0);
    let long = folder.file("long.token", &token);
    let longer = folder.file("longer.token", &token.repeat(20));
    let empty = folder.file("empty.token", &[]);
    let expected = format!(
        "0 {long} refused 4 at 2\n0 {longer} refused 4 at 2\n0 {empty} refused 1 at 0\n0 in all\n"
    );
    let given = list(&["--count", &long, &longer, &empty]);
    assert_eq!(given, (1, expected, String::new()));
}

#[test]
fn help_and_unknown_options() {
    let (status, lines, messages) = list(&["--help"]);
    assert_eq!((status, messages), (0, String::new()));
    assert!(lines.starts_with("usage: ./list ") && lines.contains("--count"));
    assert!(lines.contains("'refused N at P'"));
    // Each number that a reading can give stands once in the table of places.
    let numbers = lines
        .lines()
        .filter(|line| line.starts_with("  ") && !line.starts_with("  -"));
    let numbers = numbers.filter_map(|line| line.trim_start().split("  ").next());
    let mut numbers: Vec<u32> = numbers
        .flat_map(|few| few.split(", ").filter_map(|n| n.parse().ok()))
        .collect();
    numbers.sort();
    assert_eq!(numbers, (1..=21).collect::<Vec<u32>>());
    let token = sample("smallest.token");
    for word in ["--sum", "-c", "--counts", "-h"] {
        let (status, lines, messages) = list(&[word, &token]);
        assert_eq!((status, lines), (2, String::new()));
        assert!(messages.ends_with(&format!("list: unknown option {word}\n")));
    }
}

/// A closed standard input is an empty one, and does not keep list waiting.
#[test]
fn closed_input() {
    let output = Command::new("sh")
        .args(["-c", "exec timeout 20 \"$0\" <&-"])
        .arg(project().join("list"))
        .output()
        .expect("sh runs");
    assert_eq!(output.stdout, b"refused 1 at 0\n");
    assert_eq!(output.status.code(), Some(1));
}

/// A listing that cannot be written is no success, nor is it of the program
/// alone.
#[test]
fn output_that_cannot_be_written() {
    let full = || File::create("/dev/full").expect("Linux has it");
    let token = sample("four_rules.token");
    for words in [vec![token.as_str()], vec!["--count", token.as_str()]] {
        let (status, _, messages) = list_with(&words, Stdio::null(), full().into());
        assert_eq!(status, 2);
        assert!(messages.contains("write error"), "{messages}");
    }
    let mut alone = Command::new(list_token());
    alone.stdin(File::open(&token).expect("a sample"));
    let output = alone.stdout(full()).stderr(Stdio::piped()).spawn();
    let output = output
        .expect("it runs")
        .wait_with_output()
        .expect("it ends");
    assert_eq!(output.status.code(), Some(1));
    let message = String::from_utf8(output.stderr).expect("plain text");
    assert!(message.contains("No space left on device"), "{message}");
}

/// A folder with what list needs: a source, and a stand-in for the toolchain
/// that copies the program.
fn folder_with_list() -> Folder {
    let folder = Folder::new("build");
    for name in ["bin", "crates/list_token/src", "crates/list_token/out"] {
        create_dir_all(folder.0.join(name)).expect("a folder can be made");
    }
    folder.file("crates.txt", b"");
    folder.file("crates/list_token/src/main.rt", b"");
    folder.file("list", &read(project().join("list")).expect("it is there"));
    let program = list_token().display().to_string();
    let script = format!(
        "#!/bin/sh\necho built \"$@\" >&2\ncp '{program}' out/list_token\nout/list_token\n"
    );
    folder.file("bin/rt", script.as_bytes());
    folder
}

#[test]
fn the_program_is_built_when_a_source_is_newer() {
    let folder = folder_with_list();
    let run = |before: &str| {
        let line = format!("{before}; PATH=$PWD/bin:$PATH ./list \"$0\"");
        let output = Command::new("sh")
            .args(["-c", &line, &sample("smallest.token")])
            .current_dir(&folder.0)
            .output()
            .expect("sh runs");
        let good = output.stdout.starts_with(b"token external 80");
        assert!(good, "{output:?}");
        String::from_utf8(output.stderr).expect("plain")
    };
    let built = "built run\n";
    let source = "crates/list_token/src/main.rt";
    let old = format!("touch -d 2020-01-01 crates/*/src {source} crates.txt");
    let touched = format!("touch -d '1 minute' {source}");
    assert_eq!(run(&format!("chmod +x list bin/rt; {old}")), built);
    assert_eq!(run("true"), "");
    assert_eq!(run(&touched), built);
    assert_eq!(run(&old), "");
    assert_eq!(run("touch -d '1 minute' crates.txt"), built);
    assert_eq!(
        run(&format!("{old}; rm crates/list_token/out/list_token")),
        built
    );
    // What rt makes is no source.
    let made =
        "touch -d '1 minute' crates/list_token/out/kept crates/list_token/out crates/list_token";
    assert_eq!(run(made), "");
}
