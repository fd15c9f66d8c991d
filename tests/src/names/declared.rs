//! Whether a name is declared in a file.

use std::fs::read_to_string;
use std::path::Path;

/// In the language that the file's ending tells.
pub fn declares(file: &Path, name: &str) -> bool {
    let text = read_to_string(file).unwrap_or_default();
    let code = |line: &&str| !line.trim_start().starts_with("//");
    let mut lines = text.lines().filter(code);
    match file.extension().and_then(|ending| ending.to_str()) {
        Some("antt") => declares_law(&text, name),
        Some("h") => lines.any(|line| line.starts_with(&format!("uint32_t {name}("))),
        _ => lines.any(|line| declares_item(line, name)),
    }
}

/// A function or a type, in Rattle or Rust.
fn declares_item(line: &str, name: &str) -> bool {
    let other = |c: char| !c.is_alphanumeric() && c != '_';
    let mut words = line.split(other);
    let item = ["fn", "struct", "enum"];
    words.any(|word| item.contains(&word)) && words.next() == Some(name)
}

/// A law, a definition, a record or its field, which are `pub`, or a
/// constructor.
fn declares_law(text: &str, name: &str) -> bool {
    let mut data = false;
    text.lines().any(|line| {
        if line.starts_with(|c: char| !c.is_whitespace()) {
            data = line.starts_with("pub data ");
        }
        let (head, tail) = line.split_once(" :").unwrap_or((line, ""));
        let constructor = data && !tail.is_empty() && line.find(char::is_alphabetic) == Some(2);
        let mut words = head.split_whitespace();
        match words.find(|word| !["abbrev", "unfoldable"].contains(word)) {
            Some("pub") => words.find(|word| !["record", "data"].contains(word)) == Some(name),
            Some(first) => constructor && (first == name || words.any(|word| word == name)),
            None => false,
        }
    })
}
