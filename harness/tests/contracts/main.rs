//! docs/CONTRACTS.md names nothing that is not there, and every edit that must fail stands in it. What a name means, and
//! that an edit shows what is said of it, only a reader can tell.
mod page;
mod there;

use page::{code_name, is_word, Page};
use std::collections::BTreeSet;
use there::There;

/// Words of the language and of its checker.
const WORDS: [&str; 5] = ["requires", "ensures", "search", "close", "error"];

/// An edit that is named under a crate is one of its own, any other is some crate's.
#[test]
fn the_edits_that_are_named_are_there() {
    let (page, there) = (Page::new(), There::new());
    for named in &page.edits {
        let exists = |owner: &String| there.edits.contains(&(owner.clone(), named.edit.clone()));
        let is_there = match &named.owner {
            Some(owner) => exists(owner),
            None => there.crates.iter().any(exists),
        };
        let owner = named.owner.as_deref().unwrap_or("*");
        assert!(is_there, "there is no crates/{owner}/must-fail/{}.edit: {}", named.edit, named.line);
    }
    assert!(!page.edits.is_empty(), "no edit is named");
    println!("contracts: {} names of edits", page.edits.len());
}

/// An edit of a crate that has a table of functions stands in it; else it is named somewhere.
#[test]
fn the_edits_that_are_there_are_named() {
    let (page, there) = (Page::new(), There::new());
    let own: BTreeSet<(&str, &str)> =
        page.edits.iter().filter_map(|named| Some((named.owner.as_deref()?, named.edit.as_str()))).collect();
    for (owner, edit) in &there.edits {
        let has_table = page.tables.contains(owner);
        let is_named =
            own.contains(&(owner, edit)) || (!has_table && page.edits.iter().any(|named| named.edit == *edit));
        assert!(is_named, "docs/CONTRACTS.md does not name {edit} of {owner}");
    }
    assert!(!there.edits.is_empty(), "there is no edit");
    println!("contracts: {} edits named", there.edits.len());
}

#[test]
fn the_quoted_names_are_there() {
    let (page, there) = (Page::new(), There::new());
    for (text, line) in &page.quoted {
        let is_known = if text.contains('/') {
            there.has_file(text)
        } else if there.crates.contains(text) {
            true
        } else if let Some(name) = code_name(text) {
            there.functions.contains(name) || (!text.contains('(') && there.code.contains(name))
        } else if text.split(' ').all(is_word) {
            text.split(' ').all(|name| is_known_word(&there, name))
        } else {
            false
        };
        assert!(is_known, "`{text}` is nowhere in crates/: {line}");
    }
    println!("contracts: {} names in quotes", page.quoted.len());
}

/// What looks like a type is declared in the logic; a name in small letters, or with an underscore, may also be one of the code.
fn is_known_word(there: &There, name: &str) -> bool {
    let is_plain = name.contains('_') || name.chars().all(|c| c.is_ascii_lowercase() || c.is_ascii_digit());
    let in_code = is_plain && (there.code.contains(name) || there.crates.contains(name) || WORDS.contains(&name));
    there.declared.contains(name) || in_code
}

/// `promises, proofs/Unique.antt`: the file stands in that crate. A path alone is some crate's.
#[test]
fn the_files_are_there() {
    let (page, there) = (Page::new(), There::new());
    for (owner, path, line) in &page.paths {
        let is_there = match owner {
            Some(owner) if there.crates.contains(owner) => there.has_file(&format!("crates/{owner}/{path}")),
            _ => there.has_file(path),
        };
        assert!(is_there, "there is no {path} in {}: {line}", owner.as_deref().unwrap_or("any crate"));
    }
    println!("contracts: {} paths", page.paths.len());
}
