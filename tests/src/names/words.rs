//! The words of a document in Markdown.

/// A word, what stands between backticks, or a mark; an empty mark begins a
/// line or a cell.
pub struct Word<'a> {
    pub line: usize,
    pub text: &'a str,
    pub ticked: bool,
    /// It begins no sentence, so that a capital makes it a name.
    pub within: bool,
}

impl Word<'_> {
    pub fn is(&self, text: &str) -> bool {
        !self.ticked && self.text == text
    }
}

/// All words but those of headings and of a table's first row and first
/// column, which has the papers' words.
pub fn words(text: &str) -> Vec<Word<'_>> {
    let lines: Vec<&str> = text.lines().chain([""]).collect();
    let mut words: Vec<Word> = Vec::new();
    for (at, text) in lines.iter().enumerate() {
        let (row, code) = (text.starts_with('|'), text.starts_with("    "));
        let first_row = lines[at..].iter().take(2).any(|l| l.starts_with("|-"));
        let passed = match row {
            true if first_row => usize::MAX,
            true => 2,
            false => usize::from(text.starts_with('#')),
        };
        let line = at + 1;
        for piece in text.split('|').skip(passed) {
            let mut push = |text, ticked| {
                let begins = |last: &Word| (last.is("") && !row) || last.is(".") || last.is("\"");
                let within = !code && words.last().is_some_and(|last| !begins(last));
                words.push(Word {
                    line,
                    text,
                    ticked,
                    within,
                });
            };
            if !code {
                push("", false);
            }
            split(piece, &mut push);
        }
    }
    words
}

/// Gives each word or mark, and whether it stands in backticks.
pub fn split<'a>(text: &'a str, push: &mut impl FnMut(&'a str, bool)) {
    let mark = |c: char| c.is_whitespace() || ",;()\"".contains(c);
    let other = |c: char| !c.is_alphanumeric() && !"_./".contains(c);
    for (number, piece) in text.split('`').enumerate() {
        if number % 2 == 1 {
            push(piece, true);
            continue;
        }
        for run in piece.split_inclusive(mark) {
            let body = run.trim_end_matches(mark);
            let word = body.trim_start_matches(other);
            let word = word.trim_end_matches(|c| c == '.' || other(c));
            let stop = body.ends_with('.') && !body.ends_with("..");
            for text in [word, if stop { "." } else { "" }, run[body.len()..].trim()] {
                if !text.is_empty() {
                    push(text, false);
                }
            }
        }
    }
}

pub fn is_path(text: &str) -> bool {
    let (stem, ending) = text.rsplit_once('.').unwrap_or((text, ""));
    let lower = ending.starts_with(|c: char| c.is_ascii_lowercase());
    text.contains('/') || (stem.len() > 1 && lower)
}

pub fn capitalised(text: &str) -> bool {
    let mut rest = text.chars();
    rest.next().is_some_and(char::is_uppercase) && rest.next().is_some_and(char::is_lowercase)
}
