//! The header for C and the declarations in Rust say what the Rattle crate exports: names, order, types, and the names of parameters. What it
//! exports is the library's, word for word. The header's numbers are those of the specifications.
mod declared;
mod signatures;

use declared::Header;
use harness::station::{LAYOUTS, LEAST_TICKS, LONGEST_FILE, LONGEST_HEAD, LONGEST_IMAGE, LONGEST_LABEL, MOST_ANSWERS};
use harness::station::{MOST_SECTORS, MOST_TICKS, MOST_TRACKS, NO_PLACE, TRACK_BYTES};
use std::fs;
use std::path::{Path, PathBuf};

fn file(path: &str) -> String {
    let path = Path::new(env!("CARGO_MANIFEST_DIR")).join("..").join(path);
    fs::read_to_string(&path).unwrap_or_else(|error| panic!("{}: {error}", path.display()))
}

/// The exported functions. All of them stand in one file.
fn exported() -> Vec<signatures::Function> {
    let folder = Path::new(env!("CARGO_MANIFEST_DIR")).join("../crates/station_c/src");
    for entry in fs::read_dir(folder).expect("the crate's sources") {
        let name = entry.expect("a source").file_name().into_string().expect("a plain name");
        let others = name != "lib.rt" && file(&format!("crates/station_c/src/{name}")).contains("no_mangle");
        assert!(!others, "{name} exports functions too: they are not compared");
    }
    signatures::exported(&file("crates/station_c/src/lib.rt"))
}

fn header() -> Header {
    Header::new(&file("include/station.h"))
}

/// A crate that others stand on can't export, so another does, with the same parameters and clauses.
#[test]
fn what_is_exported_is_the_library() {
    let [library, exports] =
        ["station", "station_c"].map(|name| signatures::heads(&file(&format!("crates/{name}/src/lib.rt"))));
    assert_eq!(exports.len(), exported().len(), "exported, or public alone: {exports:#?}");
    assert_eq!(library, exports, "left: crates/station, right: crates/station_c");
    println!("header: {} functions exported as they are", exports.len());
}

/// Where the crate exports so many numbers, C and Rust have structs, by the fields that each declares for them.
#[test]
fn the_header_declares_what_is_exported() {
    let Header { prototypes, structs, .. } = header();
    let expected: Vec<String> = exported().iter().map(|function| function.in_c(&structs)).collect();
    assert!(!expected.is_empty(), "nothing is exported");
    assert_eq!(prototypes, expected, "left: include/station.h, right: what crates/station_c exports");
    println!("header: {} prototypes as exported", prototypes.len());
}

#[test]
fn the_declarations_in_rust_are_what_is_exported() {
    let source = file("include/station.rs");
    let (declared, structs) = (declared::rust(&source), declared::structs_in_rust(&source));
    let expected: Vec<String> = exported().iter().map(|function| function.in_rust(&structs)).collect();
    assert_eq!(declared, expected, "left: include/station.rs, right: what crates/station_c exports");
    assert_eq!(structs, header().structs, "the structs' numbers, left: include/station.rs, right: include/station.h");
    println!("header: {} declarations in Rust as exported", declared.len());
}

/// The files below a folder with an ending, but for what a crate's out/ holds, which is made of the others.
fn below(folder: &Path, ending: &str) -> Vec<PathBuf> {
    let mut found = Vec::new();
    for entry in fs::read_dir(folder).expect("a folder of sources") {
        let path = entry.expect("an entry").path();
        if path.is_dir() && !path.ends_with("out") {
            found.extend(below(&path, ending));
        } else if path.extension().map_or(false, |its| its == ending) {
            found.push(path);
        }
    }
    found
}

/// There is one file with the declarations: who needs them names it as a module.
#[test]
fn nothing_else_declares_them() {
    let root = Path::new(env!("CARGO_MANIFEST_DIR")).join("..");
    let folders = ["harness/src", "harness/tests", "examples"].map(|folder| below(&root.join(folder), "rs"));
    for path in folders.iter().flatten() {
        let source = fs::read_to_string(path).expect("a source");
        let mut blocks = source.split("extern \"C\" {").skip(1).map(|block| block.split('}').next().unwrap_or(""));
        let declares = blocks.any(|block| block.contains("fn station_"));
        assert!(!declares, "{} declares functions of the library", path.display());
    }
    for path in ["harness/src/station.rs", "examples/rust/main.rs"] {
        assert!(file(path).contains("include/station.rs\"]"), "{path} does not name include/station.rs");
    }
    println!("header: {} other files declare nothing", folders.iter().flatten().count());
}

/// `NoIdentifier` as the constants have it: `NO_IDENTIFIER`.
fn constant(variant: &str) -> String {
    let mut name = String::new();
    for (i, c) in variant.char_indices() {
        if i > 0 && c.is_uppercase() {
            name.push('_');
        }
        name.push(c.to_ascii_uppercase());
    }
    name
}

/// A line `function Variant = number`, as variant and number. A variant that carries something has it behind its name, in
/// brackets: `(Variant carried)`.
fn equation(line: &str, function: &str) -> Option<(String, String)> {
    let (variant, number) = line.strip_prefix(function)?.strip_prefix(' ')?.split_once(" = ")?;
    let carrying = variant.strip_prefix('(').and_then(|inside| inside.strip_suffix(')'));
    let variant = carrying.and_then(|inside| inside.split(' ').next()).unwrap_or(variant);
    // what is another function of the carried has its number there
    let is_plain = variant.chars().all(char::is_alphanumeric) && number.chars().all(|c| c.is_ascii_digit());
    is_plain.then(|| (variant.to_string(), number.to_string()))
}

/// The specifications' equations of a function as constants. They stand in one file of each crate that is named with its
/// prefix, and in no other.
fn numbered(function: &str, prefixes: &[(&str, &str)]) -> Vec<String> {
    let crates = Path::new(env!("CARGO_MANIFEST_DIR")).join("../crates");
    let mut files = Vec::new();
    for path in below(&crates, "antt") {
        let text = fs::read_to_string(&path).expect("a specification");
        let equations: Vec<_> = text.lines().filter_map(|line| equation(line, function)).collect();
        files.extend(Some((path, equations)).filter(|(_, equations)| !equations.is_empty()));
    }
    assert_eq!(files.len(), prefixes.len(), "files with equations of {function}: {files:#?}");
    let of = |(name, prefix): &(&str, &str)| -> Vec<String> {
        let file = files.iter().find(|(path, _)| path.starts_with(crates.join(name)));
        let equations = &file.unwrap_or_else(|| panic!("no equations of {function} in crates/{name}")).1;
        equations.iter().map(|(variant, number)| format!("{prefix}{} = {number}", constant(variant))).collect()
    };
    prefixes.iter().flat_map(of).collect()
}

/// The sizes of include/station.rs as the header has them. That the library takes just these is a test in C.
fn sizes() -> Vec<String> {
    let mut sizes = vec![format!("STATION_LAYOUTS = {}", LAYOUTS.len())];
    for (number, layout) in LAYOUTS.iter().enumerate() {
        sizes.push(format!("STATION_SECTORS_{number} = {}", layout.sectors));
        sizes.push(format!("STATION_BYTES_{number} = {}", layout.bytes));
        sizes.push(format!("STATION_IMAGE_{number} = {}", layout.image));
    }
    let longest = LAYOUTS.iter().map(|layout| layout.area()).max();
    sizes.push(format!("STATION_MOST_SECTORS = {MOST_SECTORS}"));
    sizes.push(format!("STATION_LONGEST_AREA = {}", longest.expect("a layout")));
    sizes.push(format!("STATION_LONGEST_IMAGE = {LONGEST_IMAGE}"));
    sizes.extend(file_sizes());
    sizes.push(format!("STATION_LEAST_TICKS = {LEAST_TICKS}"));
    sizes.push(format!("STATION_MOST_TICKS = {MOST_TICKS}"));
    sizes
}

/// Those of a file, which are added up here once more.
fn file_sizes() -> [String; 6] {
    let counts_and_names = 4 * 4 + LONGEST_LABEL + MOST_TRACKS * TRACK_BYTES;
    let [first, second, ..] = LAYOUTS.map(|layout| layout.sectors + layout.area());
    let longest = LAYOUTS[1..].iter().map(|layout| layout.sectors + layout.area()).max();
    let in_all = counts_and_names + first + second + (MOST_TRACKS - 2) * longest.expect("a layout");
    assert_eq!(MOST_ANSWERS, MOST_TRACKS * MOST_SECTORS, "the most answers");
    assert_eq!(LONGEST_HEAD, counts_and_names + MOST_ANSWERS, "the most bytes before the data");
    assert_eq!(LONGEST_FILE, in_all, "the most bytes of a file");
    [
        format!("STATION_LONGEST_LABEL = {LONGEST_LABEL}"),
        format!("STATION_MOST_TRACKS = {MOST_TRACKS}"),
        format!("STATION_TRACK_BYTES = {TRACK_BYTES}"),
        format!("STATION_MOST_ANSWERS = {MOST_ANSWERS}"),
        format!("STATION_LONGEST_HEAD = {LONGEST_HEAD}"),
        format!("STATION_LONGEST_FILE = {LONGEST_FILE}"),
    ]
}

#[test]
fn the_constants_are_the_specifications_numbers() {
    let constants = header().constants;
    let of =
        |prefix: &str| -> Vec<String> { constants.iter().filter(|text| text.starts_with(prefix)).cloned().collect() };
    let crates = [("calls", "STATION_REFUSED_"), ("file", "STATION_REFUSED_FILE_"), ("flux", "STATION_REFUSED_FLUX_")];
    let refusals = numbered("refusal_number", &crates);
    let mut answers = numbered("answer_number", &[("answers", "STATION_ANSWER_")]);
    answers.extend(numbered("fault_number", &[("answers", "STATION_ANSWER_")]));
    assert_eq!(of("STATION_REFUSED_"), refusals, "left: include/station.h, right: refusal_number");
    assert_eq!(of("STATION_ANSWER_"), answers, "left: include/station.h, right: answer_number and fault_number");
    let mut others: Vec<String> =
        ["STATION_DONE = 0", "STATION_MARK_DATA = 0xFB", "STATION_MARK_CONTROL = 0xF8"].map(String::from).into();
    others.extend(sizes());
    // unsigned by itself, in C++ too
    others.push(format!("STATION_NO_PLACE = {NO_PLACE}u"));
    assert_eq!(constants.len(), refusals.len() + answers.len() + others.len(), "{constants:#?}");
    for other in &others {
        assert!(constants.contains(other), "the header has no {other}: {constants:#?}");
    }
    println!("header: {} constants as in the specifications", constants.len());
}
