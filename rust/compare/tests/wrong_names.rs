//! The comparison of header, `extern "C"` block and archive can fail.

use compare::names::{check, differences};
use compare::records::{header_records, rust_records};
use compare::{core, places};

const SOURCE: &str = include_str!("../src/core.rs");

fn header() -> String {
    std::fs::read_to_string(places::header()).expect("include/mileage.h")
}

/// What nm would print for these names.
fn listing(names: &[&str]) -> String {
    names
        .iter()
        .map(|name| format!("0000000000000000 T {name}\n"))
        .collect()
}

const NAMES: [&str; 13] = [
    "mileage_version",
    "mileage_start",
    "mileage_key_on",
    "mileage_propose",
    "mileage_deliver",
    "mileage_read_log",
    "mileage_write_log",
    "mileage_read_message",
    "mileage_write_message",
    "mileage_card_start",
    "mileage_card_key_on",
    "mileage_card_propose",
    "mileage_card_deliver",
];

/// The header with a text replaced, or the same in the source, differs.
fn assert_found(from: &str, to: &str) {
    let (header, names) = (header(), listing(&NAMES));
    assert!(
        header.contains(from) != SOURCE.contains(from),
        "{from}: in neither, or in both"
    );
    assert!(
        !differences(&header.replace(from, to), &SOURCE.replace(from, to), &names).is_empty(),
        "{from}"
    );
}

#[test]
fn all_agree_as_they_stand() {
    assert_eq!(
        differences(&header(), SOURCE, &listing(&NAMES)),
        Vec::<String>::new()
    );
    check().unwrap();
}

#[test]
fn another_prototype_is_found() {
    assert_found(
        "const uint8_t *message, size_t message_len, uint8_t *out",
        "uint8_t *message, size_t message_len, uint8_t *out",
    );
    assert_found(
        "uint32_t engine, uint32_t n,",
        "uint32_t n, uint32_t engine,",
    );
    assert_found("uint32_t mileage_read_log(", "size_t mileage_read_log(");
    assert_found("uint32_t *decision)", "uint8_t *decision)");
    assert_found(
        "fn mileage_key_on(log: *const u8,",
        "fn mileage_key_on(log: *mut u8,",
    );
    assert_found("        mileage: u32,\n", "");
    assert_found(
        "mileage_row *rows, size_t count, uint32_t row)",
        "mileage_row *rows, uint32_t count, uint32_t row)",
    );
    assert_found("rows: *mut Row,\n", "rows: *const Row,\n");
    assert_found(
        "decision: *mut u32,\n",
        "decision: *mut u32,\n more: u32,\n",
    );
}

#[test]
fn another_record_is_found() {
    assert_found("uint32_t engine, n, unit", "uint32_t engine, unit, n");
    assert_found("uint32_t marks;", "uint64_t marks;");
    assert_found("uint32_t estimates[16]", "uint32_t estimates[15]");
    assert_found(
        "mileage_contents log, image;",
        "mileage_contents image, log;",
    );
    assert_found("mileage_marks checks, seconds;", "mileage_marks checks;");
    assert_found(
        "mileage_marks checks, seconds;",
        "mileage_marks checks, seconds; uint32_t more;",
    );
    assert_found(
        "typedef struct mileage_marks",
        "typedef struct mileage_tally",
    );
}

/// The records lent are the independent card's, field by field.
#[test]
fn records_of_rust_are_read() {
    let source = "#[repr(C)]\npub struct Two {\n    pub one: u32,\n    pub two: [u32; MAX_UNITS],\n}\npub struct Other {\n    pub no: u8,\n}\n";
    let fields = [("one", "u32"), ("two", "[u32; 16]")];
    let fields = fields.map(|(name, kind)| (name.to_string(), kind.to_string()));
    assert_eq!(rust_records(source), [("Two".to_string(), fields.to_vec())]);
    assert_eq!(header_records(&header()).len(), 3);
}

#[test]
fn another_constant_is_found() {
    assert_found("MILEAGE_IMAGE_LENGTH 152", "MILEAGE_IMAGE_LENGTH 153");
    let version = |number: u32| format!("MILEAGE_VERSION UINT32_C({number})");
    assert_found(&version(core::version()), &version(core::version() + 1));
    assert_found(&format!("#define {}", version(core::version())), "");
    assert_found("#define MILEAGE_MAX_MILEAGE UINT32_C(99999999)", "");
    assert_found(
        "MILEAGE_MAX_MILEAGE UINT32_C(99999999)",
        "MILEAGE_MAX_MILEAGE UINT32_C(9999999)",
    );
    assert_found("UINT32_C(4294967294)", "UINT32_C(4294967293)");
    assert_found("#define MILEAGE_LAST_ROUND UINT32_C(7)", "");
    assert_found("#define MILEAGE_NO_ROW UINT32_C(12)", "");
    assert_found(
        "MILEAGE_MAX_ROWS UINT32_C(64)",
        "MILEAGE_MAX_ROWS UINT32_C(65)",
    );
    assert_found(
        "#define MILEAGE_LOG_FIELDS 8",
        "#define MILEAGE_LOG_FIELDS 8\n#define MILEAGE_MORE 1",
    );
}

#[test]
fn other_exports_are_found() {
    let found = |names: &[&str]| !differences(&header(), SOURCE, &listing(names)).is_empty();
    assert!(found(&NAMES[1..]));
    assert!(found(&[&NAMES[..], &["mileage_more"]].concat()));
    assert!(found(&[]));
}

#[test]
fn an_entry_of_one_side_is_found() {
    let more = header().replace("#endif", "uint32_t mileage_more(uint32_t n);\n#endif");
    assert!(!differences(&more, SOURCE, &listing(&NAMES)).is_empty());
    let other = SOURCE.replace("fn mileage_start(", "fn mileage_begin(");
    assert!(!differences(&header(), &other, &listing(&NAMES)).is_empty());
}
