//! docs/CONTRACTS.md as text: its sections, its tables, and the names in it.
use crate::there::{crates, root};
use std::collections::BTreeSet;
use std::fs;

/// An edit's name: small letters and digits, with an underscore between words. The code's names that look like it stand
/// in quotes; in a column of edits all of them are edits.
pub struct Edit {
    pub edit: String,
    /// The crate, where the page says which.
    pub owner: Option<String>,
    pub line: String,
}

#[derive(Default)]
pub struct Page {
    pub edits: Vec<Edit>,
    /// The crates that have a section with a table that has a column of edits.
    pub tables: BTreeSet<String>,
    /// What stands in quotes, each with its line; not in a column of edits.
    pub quoted: Vec<(String, String)>,
    /// Files of specs/ and proofs/, each with the word before it and a comma, and its line.
    pub paths: Vec<(Option<String>, String, String)>,
}

impl Page {
    pub fn new() -> Page {
        let (mut page, crates) = (Page::default(), crates());
        // the crate of the section, and the columns of the table that is being read
        let (mut section, mut columns): (Option<String>, Vec<String>) = (None, Vec::new());
        let text = fs::read_to_string(root().join("docs/CONTRACTS.md")).expect("docs/CONTRACTS.md");
        for line in text.lines() {
            if let Some(title) = line.strip_prefix("## ") {
                section = Some(title.trim().to_string()).filter(|title| crates.contains(title));
                // a crate's name may look like an edit's
                if section.is_some() {
                    columns.clear();
                    continue;
                }
            }
            page.take_paths(line);
            let row = match line.strip_prefix('|') {
                None => {
                    columns.clear();
                    page.take_text(line, line);
                    continue;
                }
                Some(row) => row.trim_end().trim_end_matches('|'),
            };
            let cells: Vec<&str> = row.split('|').map(str::trim).collect();
            if columns.is_empty() {
                columns = cells.iter().map(|cell| cell.to_lowercase()).collect();
                let has_edits = columns.iter().any(|column| column == "edits");
                page.tables.extend(section.clone().filter(|_| has_edits));
                continue;
            }
            for (cell, column) in cells.iter().zip(&columns) {
                match column.as_str() {
                    "edit" | "edits" => page.take_edits(cell, section.as_deref(), &crates, line),
                    _ => page.take_text(cell, line),
                }
            }
        }
        page
    }

    /// A cell of edits. `name of CRATE` and `CRATE, name` say whose it is; else it is the section's.
    fn take_edits(&mut self, cell: &str, section: Option<&str>, crates: &BTreeSet<String>, line: &str) {
        let words: Vec<&str> = words(cell).collect();
        for (at, word) in words.iter().enumerate().filter(|(_, word)| is_edit(word)) {
            let crate_at = |at: Option<usize>| at.and_then(|at| words.get(at)).filter(|word| crates.contains(**word));
            let after = crate_at(Some(at + 2)).filter(|_| words[at + 1] == "of");
            let before = if section.is_none() { crate_at(at.checked_sub(1)) } else { None };
            let owner = after.or(before).copied().or(section).map(String::from);
            self.edits.push(Edit { edit: word.to_string(), owner, line: line.to_string() });
        }
    }

    /// Any other text: bare names of edits, and what is quoted.
    fn take_text(&mut self, text: &str, line: &str) {
        for (at, part) in text.split('`').enumerate() {
            if at % 2 == 1 {
                self.quoted.push((part.to_string(), line.to_string()));
                continue;
            }
            for edit in words(part).filter(|word| is_edit(word)) {
                self.edits.push(Edit { edit: edit.to_string(), owner: None, line: line.to_string() });
            }
        }
    }

    fn take_paths(&mut self, line: &str) {
        let words: Vec<&str> = line.split(|c: char| c.is_whitespace() || "()`;|".contains(c)).collect();
        for (at, word) in words.iter().enumerate() {
            let path = word.trim_end_matches(|c| ".,:".contains(c));
            if (path.starts_with("specs/") || path.starts_with("proofs/")) && path.ends_with(".antt") {
                let before = at.checked_sub(1).and_then(|before| words[before].strip_suffix(','));
                self.paths.push((before.map(String::from), path.to_string(), line.to_string()));
            }
        }
    }
}

/// The words of a text, without quotes and signs.
fn words(text: &str) -> impl Iterator<Item = &str> {
    text.split(|c: char| !(c.is_ascii_alphanumeric() || c == '_')).filter(|word| !word.is_empty())
}

fn is_edit(word: &str) -> bool {
    let is_small = word.chars().all(|c| c.is_ascii_lowercase() || c.is_ascii_digit() || c == '_');
    is_small && word.trim_matches('_').contains('_')
}

/// The name in `octet(image, place)` or `marks::find`; None of what need be no code.
pub fn code_name(text: &str) -> Option<&str> {
    let name = text.split('(').next().unwrap_or("");
    let is_code = text.contains('(') || text.contains("::");
    name.rsplit("::").next().filter(|_| is_code)
}

/// Whether a word is a name as the logic and the code have them.
pub fn is_word(word: &str) -> bool {
    word.starts_with(char::is_alphabetic) && word.chars().all(|c| c.is_alphanumeric() || "-_".contains(c))
}
