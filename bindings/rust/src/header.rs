//! What the headers for C declare, for tests.

pub const GIX_DATE: &str = include_str!("../../../include/gix_date.h");
pub const GIT_DATE: &str = include_str!("../../../include/git_date.h");

/// The part of a text between two others.
fn between<'a>(text: &'a str, before: &str, after: &str) -> &'a str {
    let (_, rest) = text.split_once(before).unwrap();
    rest.split_once(after).unwrap().0
}

/// The constants of an enumeration and their numbers. Their names are without the prefix, in camel case.
pub fn numbers(header: &str, name: &str, prefix: &str) -> Vec<(String, u32)> {
    let body = between(header, &format!("enum {name} {{"), "};");
    let lines = body
        .lines()
        .filter_map(|line| line.trim().strip_prefix(prefix));
    lines
        .map(|line| {
            let (name, rest) = line.split_once(" = ").unwrap();
            let digits = rest.split(|c: char| !c.is_ascii_digit()).next().unwrap();
            (camel_case(name), digits.parse().unwrap())
        })
        .collect()
}

fn camel_case(name: &str) -> String {
    let words = name
        .split('_')
        .map(|word| word[..1].to_uppercase() + &word[1..].to_lowercase());
    words.collect()
}

/// The messages of the errors in a source of Rattle.
pub fn messages(source: &str) -> Vec<String> {
    let lines = source.lines().map(str::trim);
    lines
        .filter_map(|line| line.strip_prefix("#[error(\"")?.strip_suffix("\")]"))
        .map(|text| text.replace("\\\"", "\""))
        .collect()
}

/// A declaration of C: its type and its name.
struct Declared<'a> {
    of: &'a str,
    name: &'a str,
}

impl<'a> Declared<'a> {
    fn new(text: &'a str) -> Declared<'a> {
        let is_name = |c: char| c.is_alphanumeric() || c == '_';
        let name = text.rsplit(|c| !is_name(c)).next().unwrap();
        let of = text.strip_suffix(name).unwrap().trim();
        Declared { of, name }
    }
}

/// A header without its comments, and without lines for the preprocessor.
fn without_comments(header: &str) -> String {
    let parts = header.split("*/");
    let code: String = parts
        .map(|part| part.split_once("/*").map_or(part, |(code, _)| code))
        .collect();
    let lines = code
        .split_inclusive('\n')
        .filter(|line| !line.starts_with('#'));
    lines.collect()
}

/// The calls of a header, as Rust declares them without white space.
pub fn calls(header: &str) -> Vec<String> {
    let code = without_comments(header);
    let statements = code
        .split(';')
        .map(|text| text.trim_start_matches(|c: char| c == '}' || c.is_whitespace()))
        .map(|text| text.trim_start_matches("GIX_DATE_MUST_USE\n"))
        .map(|text| text.split("GIX_DATE_NONNULL").next().unwrap().trim_end());
    statements
        .filter(|text| {
            let results = ["int32_t ", "uint32_t ", "size_t ", "bool ", "void "];
            results.iter().any(|result| text.starts_with(result))
        })
        .filter_map(|text| text.strip_suffix(')')?.split_once('('))
        .map(|(head, parameters)| {
            let head = Declared::new(head);
            let words: Vec<_> = parameters.split_whitespace().collect();
            let words = words.join(" ");
            let parameters = words.split(", ").filter(|text| *text != "void");
            let parameters: Vec<_> = parameters
                .map(Declared::new)
                .map(|one| format!("{}:{}", one.name, rust_type(one.of)))
                .collect();
            let call = format!("fn{}({})", head.name, parameters.join(","));
            match head.of {
                "void" => call,
                of => format!("{call}->{}", rust_type(of)),
            }
        })
        .collect()
}

/// The type of Rust that stands for a type of C, without white space.
fn rust_type(of: &str) -> String {
    if let Some(of) = of.strip_suffix(" *") {
        return match of.strip_prefix("const ") {
            Some(of) => format!("*const{}", rust_type(of)),
            None => format!("*mut{}", rust_type(of)),
        };
    }
    let name = match of {
        "char" | "void" | "uint8_t" => "u8",
        "bool" => "bool",
        "int32_t" => "i32",
        "int64_t" => "i64",
        "uint32_t" => "u32",
        "size_t" => "usize",
        "gix_date_time" => "Time",
        "gix_date_instant" => "Instant",
        record => return format!("C{}", camel_case(&record["gix_date_".len()..])),
    };
    name.to_string()
}

/// Where the fields of a record lie: their names, places and sizes, and the record's size and alignment.
#[derive(Debug, PartialEq, Eq)]
pub struct Layout {
    pub fields: Vec<(String, usize, usize)>,
    pub size: usize,
    pub align: usize,
}

/// The records of the headers, as C lays them out on this machine.
pub fn layouts() -> Vec<(String, Layout)> {
    let code = without_comments(GIX_DATE) + &without_comments(GIT_DATE);
    let mut known = Vec::new();
    for text in code.split("typedef struct ").skip(1) {
        let (name, body) = text.split_once(" {").unwrap();
        let (body, _) = body.split_once('}').unwrap();
        let layout = layout(body, &known);
        known.push((name.to_string(), layout));
    }
    known
}

/// The layout of a record with these fields, each at the first place after the one before that its alignment allows.
fn layout(fields: &str, known: &[(String, Layout)]) -> Layout {
    let mut record = Layout {
        fields: Vec::new(),
        size: 0,
        align: 1,
    };
    for field in fields.trim().trim_end_matches(';').split(';') {
        let field = Declared::new(field.trim());
        let (size, align) = size_of(field.of, known);
        let place = record.size.next_multiple_of(align);
        record.fields.push((field.name.to_string(), place, size));
        record.size = place + size;
        record.align = record.align.max(align);
    }
    record.size = record.size.next_multiple_of(record.align);
    record
}

/// The size and the alignment of a type.
fn size_of(of: &str, known: &[(String, Layout)]) -> (usize, usize) {
    let size = match of {
        "bool" => 1,
        "int32_t" | "uint32_t" => 4,
        "int64_t" => 8,
        "size_t" | "void *" => std::mem::size_of::<usize>(),
        record => {
            let (_, found) = known.iter().find(|(name, _)| name == record).unwrap();
            return (found.size, found.align);
        }
    };
    (size, size)
}
