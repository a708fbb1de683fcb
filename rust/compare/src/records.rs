//! The records of a header and those of a Rust source: their names, and names and types of their fields in order.

use crate::format::MAX_UNITS;
use crate::names::{c_code, rust_type};

/// A name, and each field's name and type, as Rust writes them.
pub type Record = (String, Vec<(String, String)>);

/// Each piece of text after the mark: what stands before the brace, and what stands inside.
fn braced<'a>(text: &'a str, mark: &str) -> Vec<(&'a str, &'a str)> {
    let parts = text.split(mark).skip(1);
    let made = parts.filter_map(|part| {
        let (name, rest) = part.split_once('{')?;
        Some((name.trim(), rest.split_once('}')?.0))
    });
    made.collect()
}

/// `uint32_t marks` or `uint32_t estimates[16]`, without the type.
fn c_field(kind: &str, name: &str) -> (String, String) {
    let kind = rust_type(kind);
    match name.trim().trim_end_matches(']').split_once('[') {
        Some((name, len)) => (name.to_string(), format!("[{kind}; {len}]")),
        None => (name.trim().to_string(), kind.to_string()),
    }
}

/// `uint32_t engine, n` as two fields.
fn c_fields(text: &str) -> Vec<(String, String)> {
    let (kind, names) = text.trim().split_once(' ').unwrap_or((text, ""));
    names.split(',').map(|name| c_field(kind, name)).collect()
}

/// Every struct that a header declares.
pub fn header_records(header: &str) -> Vec<Record> {
    let code = c_code(header);
    let made = braced(&code, "typedef struct ")
        .into_iter()
        .map(|(name, inside)| {
            let lines = inside.split(';').filter(|line| !line.trim().is_empty());
            (
                rust_type(name).to_string(),
                lines.flat_map(c_fields).collect(),
            )
        });
    made.collect()
}

/// `pub marks: u32`. A length that is a constant is written as its number.
fn rust_field(text: &str) -> Option<(String, String)> {
    let (name, kind) = text.trim().strip_prefix("pub ")?.split_once(": ")?;
    let kind = kind.replace("MAX_UNITS", &MAX_UNITS.to_string());
    Some((name.to_string(), kind))
}

/// Every struct of a source that is laid out as C does.
pub fn rust_records(source: &str) -> Vec<Record> {
    let found = braced(source, "#[repr(C)]\npub struct ").into_iter();
    let made = found.map(|(name, inside)| {
        let lines = inside.split(",\n").filter_map(rust_field);
        (name.to_string(), lines.collect())
    });
    made.collect()
}
