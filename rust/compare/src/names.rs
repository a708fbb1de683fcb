//! The header's prototypes, constants and records, the `extern "C"` block of core.rs, the archive's exported names and its version, compared.

use crate::format::CONSTANTS;
use crate::records::{header_records, rust_records};
use crate::{core, places};
use std::process::Command;

/// A function: its name, its parameters' names and types, and what it returns; types as Rust writes them.
#[derive(Clone, PartialEq, Eq, Debug)]
pub struct Prototype {
    pub name: String,
    pub parameters: Vec<(String, String)>,
    pub returns: String,
}

fn without_comments(text: &str) -> String {
    let mut parts = text.split("/*");
    let first = parts.next().unwrap_or("").to_string();
    parts.fold(first, |before, part| {
        before + " " + part.split_once("*/").map_or("", |(_, rest)| rest)
    })
}

/// The declarations as C sees them: no comments, nothing that is only for C++, no lines of the preprocessor.
pub fn c_code(header: &str) -> String {
    let text = without_comments(header);
    let mut parts = text.split("#ifdef __cplusplus");
    let first = parts.next().unwrap_or("").to_string();
    let c = parts.fold(first, |before, part| {
        before + part.split_once("#endif").map_or("", |(_, rest)| rest)
    });
    let lines: Vec<&str> = c
        .lines()
        .filter(|line| !line.trim_start().starts_with('#'))
        .collect();
    lines.join(" ")
}

pub fn rust_type(c: &str) -> &str {
    match c {
        "uint8_t" => "u8",
        "uint32_t" => "u32",
        "size_t" => "usize",
        "mileage_contents" => "Contents",
        "mileage_marks" => "Marks",
        "mileage_row" => "Row",
        other => other,
    }
}

/// `const uint8_t *log` as the name `log` and the type `*const u8`.
fn c_parameter(text: &str) -> (String, String) {
    let spaced = text.replace('*', " * ");
    let words: Vec<&str> = spaced.split_whitespace().collect();
    match words[..] {
        ["const", kind, "*", name] => (name.to_string(), format!("*const {}", rust_type(kind))),
        [kind, "*", name] => (name.to_string(), format!("*mut {}", rust_type(kind))),
        [kind, name] => (name.to_string(), rust_type(kind).to_string()),
        _ => (String::new(), text.to_string()),
    }
}

fn rust_parameter(text: &str) -> (String, String) {
    let (name, kind) = text.split_once(':').unwrap_or(("", text));
    (name.trim().to_string(), kind.trim().to_string())
}

fn parameters(text: &str, one: fn(&str) -> (String, String)) -> Vec<(String, String)> {
    text.split(',')
        .map(str::trim)
        .filter(|part| !part.is_empty() && *part != "void")
        .map(one)
        .collect()
}

/// Every function that a header declares.
pub fn header_prototypes(header: &str) -> Vec<Prototype> {
    let code = c_code(header);
    let declared = code
        .split(';')
        .filter_map(|part| part.trim().strip_suffix(')')?.split_once('('));
    let made = declared.map(|(front, inside)| {
        let (returns, name) = front
            .trim()
            .rsplit_once(char::is_whitespace)
            .unwrap_or(("", front));
        Prototype {
            name: name.to_string(),
            parameters: parameters(inside, c_parameter),
            returns: rust_type(returns.trim()).to_string(),
        }
    });
    made.collect()
}

/// Every function of the `extern "C"` block.
pub fn extern_prototypes(source: &str) -> Vec<Prototype> {
    let block = source
        .split_once("extern \"C\" {")
        .and_then(|(_, rest)| rest.split_once('}'))
        .map_or("", |(block, _)| block);
    let declared = block
        .split(';')
        .filter_map(|part| part.trim().strip_prefix("fn ")?.split_once('('));
    let made = declared.map(|(name, rest)| {
        let (inside, returns) = rest.rsplit_once(')').unwrap_or((rest, ""));
        Prototype {
            name: name.to_string(),
            parameters: parameters(inside, rust_parameter),
            returns: returns.trim().trim_start_matches("->").trim().to_string(),
        }
    });
    made.collect()
}

/// The header's constants, by name without `MILEAGE_`.
pub fn header_constants(header: &str) -> Vec<(String, u64)> {
    let text = without_comments(header);
    let defined = text.lines().filter_map(|line| {
        line.trim()
            .strip_prefix("#define MILEAGE_")?
            .split_once(' ')
    });
    let made = defined.map(|(name, value)| {
        let digits = value
            .trim()
            .trim_start_matches("UINT32_C(")
            .trim_end_matches(')');
        (name.to_string(), digits.parse().unwrap_or(u64::MAX))
    });
    made.collect()
}

/// The names in what `nm -g --defined-only` prints.
pub fn exported_names(listing: &str) -> Vec<String> {
    let rows = listing
        .lines()
        .map(|line| line.split_whitespace().collect::<Vec<_>>());
    rows.filter(|words| words.len() == 3)
        .map(|words| words[2].to_string())
        .collect()
}

fn sorted<T: Ord>(mut items: Vec<T>) -> Vec<T> {
    items.sort();
    items
}

/// Where the rows that core.rs lends are declared.
const ROWS: &str = include_str!("../../independent/src/card.rs");

/// What is not the same, in words; empty if all agree.
pub fn differences(header: &str, source: &str, listing: &str) -> Vec<String> {
    let (c, rust) = (header_prototypes(header), extern_prototypes(source));
    let mut found = Vec::new();
    if c.is_empty() {
        found.push("the header declares nothing".to_string());
    }
    for one in c.iter().filter(|one| !rust.contains(one)) {
        let other = rust.iter().find(|other| other.name == one.name);
        found.push(format!("header: {one:?}; core.rs: {other:?}"));
    }
    for one in rust
        .iter()
        .filter(|one| c.iter().all(|other| other.name != one.name))
    {
        found.push(format!("only in core.rs: {one:?}"));
    }
    let (exports, declared) = (
        sorted(exported_names(listing)),
        sorted(c.into_iter().map(|one| one.name).collect()),
    );
    if exports != declared {
        found.push(format!(
            "the archive exports {exports:?}; the header declares {declared:?}"
        ));
    }
    let (records, rows) = (header_records(header), rust_records(ROWS));
    if records != rows {
        found.push(format!(
            "the header's records {records:?}; the rows lent {rows:?}"
        ));
    }
    let ours: Vec<(String, u64)> = CONSTANTS
        .iter()
        .map(|&(name, value)| (name.to_string(), value))
        .collect();
    let (versions, others): (Vec<_>, Vec<_>) = header_constants(header)
        .into_iter()
        .partition(|(name, _)| name == "VERSION");
    let version = core::version();
    if versions != [("VERSION".to_string(), u64::from(version))] {
        found.push(format!(
            "the header's version {versions:?}; the archive's {version}"
        ));
    }
    let (theirs, ours) = (sorted(others), sorted(ours));
    if theirs != ours {
        found.push(format!("the header's constants {theirs:?}; ours {ours:?}"));
    }
    found
}

/// All as they stand: a summary, or what differs.
pub fn check() -> Result<String, String> {
    let header = std::fs::read_to_string(places::header())
        .map_err(|error| format!("include/mileage.h: {error}"))?;
    let nm = Command::new("nm")
        .args(["-g", "--defined-only"])
        .arg(places::archive())
        .output();
    let listing = nm.map_err(|error| format!("nm: {error}"))?;
    if !listing.status.success() {
        return Err(format!("nm: {}", String::from_utf8_lossy(&listing.stderr)));
    }
    let found = differences(
        &header,
        include_str!("core.rs"),
        &String::from_utf8_lossy(&listing.stdout),
    );
    if found.is_empty() {
        let entries = header_prototypes(&header).len();
        Ok(format!(
            "{entries} entries, {} records and {} constants agree in header, core.rs and archive; version {}",
            header_records(&header).len(),
            CONSTANTS.len(),
            core::version()
        ))
    } else {
        Err(found.join("\n"))
    }
}
