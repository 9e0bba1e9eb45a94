//! The exported functions of the Rattle crate, and what each is in C and in Rust.

/// What a parameter is.
#[derive(Debug, PartialEq)]
enum Kind {
    /// A number by value: `u32`.
    Number(String),
    /// `&[u8]` or `&mut [u8]`: a pointer and a length.
    Slice { element: String, written: bool },
    /// `&[u32; 4]` or `&mut [u32; 4]`: a pointer.
    Array { element: String, count: String, written: bool },
}

/// The structs that C and Rust have where the crate has arrays, each by the names of its numbers.
#[derive(Debug, PartialEq)]
pub struct Structs {
    pub record: Vec<String>,
    pub sections: Vec<String>,
    pub flux_result: Vec<String>,
}

/// An array as the structs that it holds: their name in C and in Rust, and how many they are.
struct Held {
    in_c: &'static str,
    in_rust: &'static str,
    many: usize,
}

#[derive(Debug)]
pub struct Function {
    pub name: String,
    parameters: Vec<(String, Kind)>,
    result: String,
}

const BEGIN: &str = "pub extern \"C\" fn ";

const MARK: &str = "#[unsafe(no_mangle)]";

/// The exported functions, in order. Each item begins with the mark, and none is left out.
pub fn exported(source: &str) -> Vec<Function> {
    let source = without_line_comments(source);
    let items: Vec<&str> = source.split(MARK).skip(1).collect();
    assert_eq!(items.len(), source.matches("extern \"C\"").count(), "an extern \"C\" without {MARK}, or the reverse");
    items.iter().map(|item| function(item.trim_start())).collect()
}

/// The heads of the public functions, from their names to the ends of their clauses, with single spaces.
pub fn heads(source: &str) -> Vec<String> {
    let source = without_line_comments(source).replace(MARK, "").replace("extern \"C\" ", "");
    let head = |item: &str| item.split("\n{").next().unwrap_or("").split_whitespace().collect::<Vec<_>>().join(" ");
    let head = |item: &str| head(item).replace("( ", "(").replace(", )", ")");
    source.split("\npub fn ").skip(1).map(head).collect()
}

pub fn without_line_comments(source: &str) -> String {
    source.lines().map(|line| line.split("//").next().unwrap_or("")).collect::<Vec<_>>().join("\n")
}

fn function(item: &str) -> Function {
    let item = item.strip_prefix(BEGIN).unwrap_or_else(|| panic!("{MARK} before something else: {item:.60}"));
    let (name, rest) = item.split_once('(').expect("parameters");
    let (parameters, rest) = rest.split_once(')').expect("the parameters' end");
    let result = rest.trim_start().strip_prefix("->").expect("a result");
    let result = result.split_whitespace().next().expect("a result's type");
    let parameters = parameters.split(',').map(str::trim).filter(|text| !text.is_empty()).map(parameter);
    Function { name: name.trim().to_string(), parameters: parameters.collect(), result: result.to_string() }
}

fn parameter(text: &str) -> (String, Kind) {
    let (name, kind) = text.split_once(':').expect("a parameter's type");
    // in a clause `result` is what the function returns
    let name = if name.trim() == "res" { "result" } else { name.trim() };
    (name.to_string(), self::kind(kind.trim()))
}

fn kind(text: &str) -> Kind {
    let (lent, written) = match (text.strip_prefix("&mut "), text.strip_prefix('&')) {
        (Some(lent), _) => (lent, true),
        (None, Some(lent)) => (lent, false),
        (None, None) => return Kind::Number(text.to_string()),
    };
    let inner = lent.trim().strip_prefix('[').and_then(|inner| inner.strip_suffix(']'));
    let inner = inner.unwrap_or_else(|| panic!("neither a number nor a slice nor an array: {text}"));
    match inner.split_once(';') {
        Some((element, count)) => {
            Kind::Array { element: element.trim().to_string(), count: count.trim().to_string(), written }
        }
        None => Kind::Slice { element: inner.trim().to_string(), written },
    }
}

/// The C type of a number.
fn c_type(number: &str) -> &'static str {
    match number {
        "u8" => "uint8_t",
        "u16" => "uint16_t",
        "u32" => "uint32_t",
        "u64" => "uint64_t",
        "usize" => "size_t",
        _ => panic!("no C type is given for {number}"),
    }
}

/// What an array holds, if its name says that it holds records, the sections of one file or what came of one capture.
fn held(name: &str, element: &str, count: &str, structs: &Structs) -> Option<Held> {
    let (in_c, in_rust, number, fields) = match name {
        "sections" => ("struct station_sections", "Sections", "u32", structs.sections.len()),
        "result" => ("struct station_flux_result", "FluxResult", "u64", structs.flux_result.len()),
        _ if name == "record" || name.ends_with("records") => {
            ("struct station_record", "Record", "u32", structs.record.len())
        }
        _ => return None,
    };
    let numbers: usize = count.parse().expect("a count of numbers");
    let is_whole = element == number && fields > 0 && numbers % fields == 0;
    assert!(is_whole, "{name}: [{element}; {count}] is no whole number of {in_rust} with {fields} {number} each");
    let many = numbers / fields;
    assert!(name.ends_with("records") || many == 1, "{name}: [{element}; {count}] is more than one {in_rust}");
    Some(Held { in_c, in_rust, many })
}

impl Function {
    /// The prototype in C: a slice `image` is `image` and `image_length`, and records and sections are structs.
    pub fn in_c(&self, structs: &Structs) -> String {
        let constant = |written: &bool| if *written { "" } else { "const " };
        let parameter = |(name, kind): &(String, Kind)| match kind {
            Kind::Number(number) => format!("{} {name}", c_type(number)),
            Kind::Slice { element, written } => {
                format!("{}{} *{name}, size_t {name}_length", constant(written), c_type(element))
            }
            Kind::Array { element, count, written } => {
                let constant = constant(written);
                match held(name, element, count, structs) {
                    None => format!("{constant}{} {name}[{count}]", c_type(element)),
                    Some(Held { in_c, many: 1, .. }) => format!("{constant}{in_c} *{name}"),
                    Some(Held { in_c, many, .. }) => format!("{constant}{in_c} {name}[{many}]"),
                }
            }
        };
        let parameters: Vec<String> = self.parameters.iter().map(parameter).collect();
        format!("{} {}({})", c_type(&self.result), self.name, parameters.join(", "))
    }

    /// The declaration in Rust, by the same rule.
    pub fn in_rust(&self, structs: &Structs) -> String {
        let pointer = |written: &bool| if *written { "*mut" } else { "*const" };
        let parameter = |(name, kind): &(String, Kind)| match kind {
            Kind::Number(number) => format!("{name}: {number}"),
            Kind::Slice { element, written } => format!("{name}: {} {element}, {name}_length: usize", pointer(written)),
            Kind::Array { element, count, written } => {
                let pointer = pointer(written);
                match held(name, element, count, structs) {
                    None => format!("{name}: {pointer} [{element}; {count}]"),
                    Some(Held { in_rust, many: 1, .. }) => format!("{name}: {pointer} {in_rust}"),
                    Some(Held { in_rust, many, .. }) => format!("{name}: {pointer} [{in_rust}; {many}]"),
                }
            }
        };
        let parameters: Vec<String> = self.parameters.iter().map(parameter).collect();
        format!("fn {}({}) -> {}", self.name, parameters.join(", "), self.result)
    }
}
