//! The names in a document, which must be there as named. The beginning of
//! docs/PROMISES.md has the rules.

mod declared;
mod words;

use crate::kinds::ALL;
use declared::declares;
use std::fs::read_dir;
use std::path::Path;
use words::{capitalised, is_path, split, words, Word};

/// Words that look like names and are none: of the language, of commands and
/// what they print, of the C calls' parameters, and words with a capital.
const NO_NAMES: &str = " requires ensures pub rt gcc cargo N rattle-kit-13f \
    second token_len table_len draft_len show_token Rattle Rust Rule ";

struct Check<'a> {
    root: &'a Path,
    line: usize,
    /// The file or crate named last, in which a name is looked for.
    place: Option<String>,
    /// Edits whose crate is not yet known, with their lines.
    edits: Vec<(usize, &'a str)>,
    missing: Vec<(usize, String)>,
}

/// What the document names and is not there, a line for each.
pub fn missing(root: &Path, document: &str, text: &str) -> Vec<String> {
    let mut check = Check {
        root,
        line: 0,
        place: None,
        edits: Vec::new(),
        missing: Vec::new(),
    };
    let words = words(text);
    for at in 0..words.len() {
        check.word(&words, at);
    }
    let shown = |(line, what)| format!("{document}:{line}: {what}");
    check.missing.into_iter().map(shown).collect()
}

/// Whether the word stands in a list such as crates/reading, views, walker.
fn in_list_of_crates(words: &[Word], at: usize) -> bool {
    if at < 2 || !words[at - 1].is(",") || words[at].ticked || is_path(words[at].text) {
        return false;
    }
    let name = words[at - 2].text.strip_prefix("crates/");
    name.is_some_and(|name| !name.contains('/')) || in_list_of_crates(words, at - 2)
}

/// The number of a kind, such as 12/0001: two digits of an id, four of a tag.
fn kind(text: &str) -> Option<u32> {
    let (id, tag) = text.split_once('/')?;
    let number = |digits: &str| u32::from_str_radix(digits, 16).ok();
    match (id.len(), tag.len()) {
        (2, 4) => Some(number(id)? * 0x1_0000 + number(tag)?),
        _ => None,
    }
}

impl<'a> Check<'a> {
    fn there(&self, path: &str) -> bool {
        self.root.join(path).exists()
    }

    fn is_crate(&self, name: &str) -> bool {
        self.there(&format!("crates/{name}"))
    }

    fn need(&mut self, good: bool, what: String) {
        if !good {
            self.missing.push((self.line, what));
        }
    }

    fn word(&mut self, words: &[Word<'a>], at: usize) {
        let word = &words[at];
        self.line = word.line;
        let edit = self.edits.last().map(|edit| edit.1);
        if word.ticked {
            self.ticked(words, at);
        } else if ["", ";", "."].contains(&word.text) {
            self.edits_of(&["format"]);
            self.place = None;
        } else if word.is("(") && edit.is_some_and(|edit| words[at - 1].is(edit)) {
            let inside = words[at + 1..].iter().take_while(|word| !word.is(")"));
            let crates: Vec<&str> = inside.map(|w| w.text).filter(|text| *text != ",").collect();
            self.edits_of(&crates);
        } else if in_list_of_crates(words, at) {
            self.path(&format!("crates/{}", word.text));
        } else {
            self.plain(word.text, word.within);
        }
    }

    /// The edits since the last bracket or semicolon are of these crates.
    fn edits_of(&mut self, crates: &[&str]) {
        for (line, name) in std::mem::take(&mut self.edits) {
            for of in crates {
                let path = format!("crates/{of}/must-fail/{name}.edit");
                if !self.there(&path) {
                    let what = format!("edit {name}: there is no {path}");
                    self.missing.push((line, what));
                }
            }
        }
    }

    /// A crate's name begins so.
    fn is_family(&self, start: &str) -> bool {
        let crates = read_dir(self.root.join("crates")).into_iter().flatten();
        let mut names = crates.flatten().map(|entry| entry.file_name());
        names.any(|name| name.to_string_lossy().starts_with(start))
    }

    /// No name, a kind such as 12/0001, a path, a family of crates or a call
    /// for C; false for anything else.
    fn known(&mut self, text: &str) -> bool {
        if let Some(kind) = kind(text) {
            self.need(ALL.contains(&kind), format!("{text}: no such kind"));
        } else if is_path(text) {
            self.path(text);
        } else if text.ends_with('_') {
            let good = self.is_family(text);
            self.need(good, format!("{text}: no crate's name begins so"));
        } else if text.starts_with("tb_") {
            self.declared("crates/trusted_block", text);
            self.declared("include/trusted_block.h", text);
        } else {
            return NO_NAMES.contains(&format!(" {text} "));
        }
        true
    }

    /// A word outside backticks: an edit, or a file of crates/format.
    fn plain(&mut self, text: &'a str, within: bool) {
        if self.known(text) || self.is_crate(text) {
            return;
        }
        if text.contains('_') {
            self.edits.push((self.line, text));
        } else if within && capitalised(text) {
            self.file_of_format(text, "no file of crates/format has this name");
        }
    }

    /// A command, a function, or a name, with the values that it is given.
    fn ticked(&mut self, words: &[Word<'a>], at: usize) {
        let text = words[at].text;
        let first = text.split(' ').next().unwrap_or_default();
        if self.known(first) {
            split(&text[first.len()..], &mut |text, _| self.plain(text, false));
        } else if first.contains("::") {
            self.function(first);
        } else {
            match &words[at + 1..] {
                [of, file, ..] if of.is("of") && is_path(file.text) => self.path(file.text),
                _ => {}
            }
            self.name(first);
        }
    }

    /// A name in backticks: of the file or crate named last; else a theorem of
    /// Main, a crate, or a file.
    fn name(&mut self, text: &str) {
        if let Some(place) = self.place.clone() {
            self.declared(&place, text);
        } else if self.is_crate(text) {
            // A crate's name stands for itself.
        } else if text.contains('_') {
            self.declared("crates/format/proofs/Main.antt", text);
        } else {
            self.file_of_format(text, "no file or crate is named before it");
        }
    }

    fn file_of_format(&mut self, name: &str, otherwise: &str) {
        let files = ["specs", "proofs"].map(|of| format!("crates/format/{of}/{name}.antt"));
        self.place = files.into_iter().find(|file| self.there(file));
        self.need(self.place.is_some(), format!("{name}: {otherwise}"));
    }

    /// A file or folder.
    fn path(&mut self, text: &str) {
        let text = text
            .trim_start_matches("./")
            .replace('*', "format")
            .replace("CRATE", "format");
        let (folder, last) = text.rsplit_once('/').unwrap_or(("", &text));
        let start = match folder.split('/').next() {
            Some("specs" | "proofs") => "crates/format/",
            Some("") if last.ends_with(".rs") => "tests/tests/",
            Some("") if last.ends_with(".md") => "docs/",
            _ => "",
        };
        let bare = capitalised(last) && !last.contains('.');
        let path = format!("{start}{text}{}", if bare { ".antt" } else { "" });
        self.need(self.there(&path), format!("{text}: there is no {path}"));
        self.place = Some(path);
    }

    /// The file, or a source of the crate or folder, declares the name.
    fn declared(&mut self, place: &str, name: &str) {
        let path = self.root.join(place);
        let source = path.join("src");
        let entries = read_dir(if source.is_dir() { &source } else { &path });
        let mut files = entries.into_iter().flatten().flatten();
        let good = declares(&path, name) || files.any(|file| declares(&file.path(), name));
        self.need(good, format!("{name}: not declared in {place}"));
    }

    /// `crate::name`, `crate::file::name`, or after a crate `file::name`; a
    /// type may stand before the name, which is then a method.
    fn function(&mut self, text: &str) {
        let mut parts: Vec<&str> = text.split("::").collect();
        let name = parts.pop().unwrap_or_default();
        if self.is_crate(parts[0]) {
            self.place = Some(format!("crates/{}", parts.remove(0)));
        }
        let of_type = parts.pop_if(|part| capitalised(part));
        let of = self.place.clone().unwrap_or_default();
        let file = format!("{of}/src/{}.rt", parts.join("/"));
        let place = if parts.is_empty() { &of } else { &file };
        for declared in of_type.into_iter().chain([name]) {
            self.declared(place, declared);
        }
    }
}
