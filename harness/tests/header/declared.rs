//! What the C header and the Rust file beside it declare, as text with single spaces.
use crate::signatures::{without_line_comments, Structs};

/// One space between words, none inside brackets' edges, and no comma before a closing one.
fn plain(text: &str) -> String {
    let text = text.split_whitespace().collect::<Vec<_>>().join(" ");
    text.replace("( ", "(").replace(" )", ")").replace(",)", ")").replace("* ", "*").replace(" ;", ";")
}

/// A C file without comments.
fn without_comments(header: &str) -> String {
    let mut rest = header;
    let mut text = String::new();
    while let Some((before, comment)) = rest.split_once("/*") {
        text += before;
        text.push(' ');
        rest = comment.split_once("*/").expect("a comment's end").1;
    }
    text + rest
}

/// What the header declares. There is nothing else in it, but for the brackets of C++.
pub struct Header {
    pub prototypes: Vec<String>,
    /// The constants of its enums and its macros, each as `NAME = value`.
    pub constants: Vec<String>,
    pub structs: Structs,
}

impl Header {
    pub fn new(text: &str) -> Header {
        let text = without_comments(text);
        let (directives, others): (Vec<&str>, Vec<&str>) =
            text.lines().map(str::trim).partition(|line| line.starts_with('#'));
        let others = plain(&others.join("\n"));
        let inside = others.strip_prefix("extern \"C\" {").and_then(|text| text.strip_suffix('}'));
        let items = items(inside.expect("one extern \"C\" round all"));
        let (prototypes, types): (Vec<String>, Vec<String>) = items.into_iter().partition(|item| item.ends_with(')'));
        let (declared, enums): (Vec<String>, Vec<String>) =
            types.into_iter().partition(|item| item.starts_with("struct "));

        assert!(enums.iter().all(|item| item.starts_with("enum ")), "neither type nor prototype: {enums:#?}");
        let mut constants: Vec<String> =
            enums.iter().flat_map(|text| braced(text, "{").split(',').map(plain).collect::<Vec<_>>()).collect();
        constants.extend(directives.iter().filter_map(|line| defined(line)));
        assert_eq!(declared.len(), 3, "record, sections and a flux's result are the only structs: {declared:#?}");
        let fields = |of: &str, name: &str, number: &str| {
            numbers(braced(of, &format!("struct {name} {{")), ';', &format!("{number} "), "")
        };
        let record = fields(&declared[0], "station_record", "uint32_t");
        let sections = fields(&declared[1], "station_sections", "uint32_t");
        let flux_result = fields(&declared[2], "station_flux_result", "uint64_t");
        Header { prototypes, constants, structs: Structs { record, sections, flux_result } }
    }
}

/// The parts of a text that a semicolon ends. Those in braces end none.
fn items(text: &str) -> Vec<String> {
    let mut depth = 0;
    let is_end = |c: char| {
        depth += i32::from(c == '{') - i32::from(c == '}');
        c == ';' && depth == 0
    };
    text.split_terminator(is_end).map(plain).filter(|item| !item.is_empty()).collect()
}

/// What stands in the braces that a text opens at the end of its beginning.
fn braced<'a>(text: &'a str, beginning: &str) -> &'a str {
    let (_, rest) = text.split_once(beginning).unwrap_or_else(|| panic!("no {beginning} in {text}"));
    rest.split_once('}').expect("a closing brace").0.trim()
}

/// The macro of a line as a constant, if it has a value: the guard has none.
fn defined(line: &str) -> Option<String> {
    let (name, value) = line.strip_prefix("#define ")?.split_once(' ')?;
    Some(format!("{name} = {}", plain(value)))
}

/// The names of a struct's fields, each of which has to be one number, of a type that stands before or after the name.
fn numbers(fields: &str, end: char, before: &str, after: &str) -> Vec<String> {
    let name = |field: &str| {
        let name = field.trim().strip_prefix(before).and_then(|rest| rest.strip_suffix(after));
        let name = name.filter(|name| name.chars().all(|c| c.is_ascii_lowercase() || c == '_'));
        name.unwrap_or_else(|| panic!("not one number, {before}..{after}: {field}")).to_string()
    };
    fields.split_terminator(end).map(name).collect()
}

/// The structs of a Rust file, which have to be laid out as in C.
pub fn structs_in_rust(source: &str) -> Structs {
    let source = plain(&without_line_comments(source));
    let fields = |name: &str, number: &str| {
        let beginning = format!("pub struct {name} {{");
        let before = source.split(&beginning).next().unwrap_or("");
        let attributes = before.rsplit(['}', ';']).next().unwrap_or("");
        assert!(attributes.contains("#[repr(C)]"), "{name} is not laid out as in C: {attributes}");
        numbers(braced(&source, &beginning), ',', "pub ", &format!(": {number}"))
    };
    Structs {
        record: fields("Record", "u32"),
        sections: fields("Sections", "u32"),
        flux_result: fields("FluxResult", "u64"),
    }
}

/// The declarations of a Rust file's one `extern "C"` block.
pub fn rust(source: &str) -> Vec<String> {
    let source = without_line_comments(source);
    let blocks: Vec<&str> = source.split("extern \"C\" {").skip(1).collect();
    assert_eq!(blocks.len(), 1, "one extern \"C\" block");
    let block = blocks[0].split_once('}').expect("the block's end").0;
    let declaration = |text: &str| {
        let text = plain(text);
        let text = text.strip_suffix("pub").unwrap_or(&text).trim_end();
        format!("fn {}", text.strip_suffix(';').expect("a declaration's end"))
    };
    block.split("fn ").skip(1).map(declaration).collect()
}
