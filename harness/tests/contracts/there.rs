//! What there is in crates/: edits, names that the logic declares, names of the code.
use std::collections::BTreeSet;
use std::fs;
use std::path::{Path, PathBuf};

pub fn root() -> PathBuf {
    Path::new(env!("CARGO_MANIFEST_DIR")).join("..")
}

pub struct There {
    pub crates: BTreeSet<String>,
    /// Crate and name of each edit.
    pub edits: BTreeSet<(String, String)>,
    /// What specs/ and proofs/ declare: definitions, theorems, types with their cases and fields.
    pub declared: BTreeSet<String>,
    /// The functions of src/, and all its words.
    pub functions: BTreeSet<String>,
    pub code: BTreeSet<String>,
}

pub fn crates() -> BTreeSet<String> {
    let entries = fs::read_dir(root().join("crates")).expect("crates/");
    entries.map(|entry| entry.expect("a crate").file_name().into_string().expect("a plain name")).collect()
}

/// The files below a folder with an ending. There need not be such a folder.
fn files(folder: &Path, ending: &str) -> Vec<PathBuf> {
    let mut found = Vec::new();
    for entry in fs::read_dir(folder).into_iter().flatten() {
        let path = entry.expect("an entry").path();
        if path.is_dir() {
            found.extend(files(&path, ending));
        } else if path.extension().map_or(false, |its| its == ending) {
            found.push(path);
        }
    }
    found
}

impl There {
    pub fn new() -> There {
        let crates = crates();
        let (mut edits, mut declared) = (BTreeSet::new(), BTreeSet::new());
        let (mut functions, mut code) = (BTreeSet::new(), BTreeSet::new());
        for name in &crates {
            let folder = root().join("crates").join(name);
            for edit in files(&folder.join("must-fail"), "edit") {
                let edit = edit.file_stem().and_then(|stem| stem.to_str()).expect("a plain name");
                edits.insert((name.clone(), edit.to_string()));
            }
            for path in ["specs", "proofs"].iter().flat_map(|part| files(&folder.join(part), "antt")) {
                let text = fs::read_to_string(path).expect("a file of the logic");
                declared.extend(text.lines().filter_map(declared_by).map(String::from));
            }
            for path in files(&folder.join("src"), "rt") {
                let text = fs::read_to_string(path).expect("a source");
                let words = text.split(|c: char| !(c.is_alphanumeric() || c == '_'));
                let words: Vec<&str> = words.filter(|word| !word.is_empty()).collect();
                let named = words.windows(2).filter(|two| two[0] == "fn").map(|two| two[1].to_string());
                functions.extend(named);
                code.extend(words.into_iter().map(String::from));
            }
        }
        There { crates, edits, declared, functions, code }
    }

    /// Whether there is such a file or folder, in the repository or in a crate.
    pub fn has_file(&self, path: &str) -> bool {
        let in_crate = |name: &String| root().join("crates").join(name).join(path).exists();
        root().join(path).exists() || self.crates.iter().any(in_crate)
    }
}

/// The name that a line of the logic declares: `abbrev pub slot_of : ..`, `pub record Reads (..) : .. where`, a field.
fn declared_by(line: &str) -> Option<&str> {
    let (mut rest, mut is_type) = (line.trim_start(), false);
    while let Some((word, after)) = rest.split_once(' ') {
        match word {
            "pub" | "abbrev" | "unfoldable" => (),
            "data" | "record" => is_type = true,
            _ => break,
        }
        rest = after;
    }
    let (name, after) = rest.split_once(' ')?;
    let is_declared = (is_type || after.starts_with(": ")) && !name.starts_with("--");
    Some(name.trim_matches(|c| c == '«' || c == '»')).filter(|_| is_declared)
}
