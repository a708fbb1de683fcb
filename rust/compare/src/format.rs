//! The C header's constants but the version, under its names without `MILEAGE_`; and where each field of a log, an image or a message stands.

macro_rules! constants {
    ($($name:ident: $type:ty = $value:expr;)*) => {
        $(pub const $name: $type = $value;)*
        /// Each name and value, to be compared with the header's.
        pub const CONSTANTS: &[(&str, u64)] = &[$((stringify!($name), $name as u64)),*];
    };
}

constants! {
    LOG_LENGTH: usize = 20;
    LOG_FIELDS: usize = 8;
    IMAGE_LENGTH: usize = 152;
    MESSAGE_LENGTH: usize = 18;
    MESSAGE_FIELDS: usize = 9;
    ROW_NUMBERS: usize = 50;
    MIN_UNITS: u32 = 3;
    MAX_UNITS: u32 = 16;
    MIN_ENTRY: u32 = 1;
    MAX_ENTRY: u32 = 9_999;
    MAX_ROUND: u32 = 9_999;
    MAX_MILEAGE: u32 = 99_999_999;
    MIN_ROWS: u32 = 1;
    MAX_ROWS: u32 = 64;
    BLANK: u32 = 4_294_967_295;
    SPLIT: u32 = 4_294_967_294;
    EVERYONE: u32 = 255;
    ACCEPTED: u32 = 0;
    WRONG_LENGTH: u32 = 1;
    MALFORMED_LOG: u32 = 2;
    UNFIT_IMAGE: u32 = 3;
    MALFORMED_MESSAGE: u32 = 4;
    NOT_FOR_UNIT: u32 = 5;
    OUT_OF_RANGE: u32 = 6;
    LAST_ROUND: u32 = 7;
    NO_ROW: u32 = 12;
}

/// The greatest mileage before request 3, in hundred-metre steps.
pub const OLD_MAX_MILEAGE: u32 = 9_999_999;

/// Where a number stands: its first byte and how many there are, the highest first.
#[derive(Clone, Copy)]
pub struct Field {
    pub at: usize,
    pub width: usize,
}

const fn field(at: usize, width: usize) -> Field {
    Field { at, width }
}

pub type Layout = &'static [Field];

/// Engine, n, unit, entry, round, proposal, first and second estimate. An image begins with the same.
pub const LOG: Layout = &[
    field(0, 1),
    field(1, 1),
    field(2, 1),
    field(4, 2),
    field(6, 2),
    field(8, 4),
    field(12, 4),
    field(16, 4),
];
pub const ENTRY: Field = LOG[3];
pub const ROUND: Field = LOG[4];
pub const PROPOSAL: Field = LOG[5];
pub const FIRST_ESTIMATE: Field = LOG[6];
pub const SECOND_ESTIMATE: Field = LOG[7];

/// Kind, engine, n, sender, receiver, entry, round, estimate, proposal.
pub const MESSAGE: Layout = &[
    field(0, 1),
    field(1, 1),
    field(2, 1),
    field(3, 1),
    field(4, 1),
    field(6, 2),
    field(8, 2),
    field(10, 4),
    field(14, 4),
];
pub const SENDER: Field = MESSAGE[3];
pub const RECEIVER: Field = MESSAGE[4];
pub const MESSAGE_ENTRY: Field = MESSAGE[5];
pub const MESSAGE_ROUND: Field = MESSAGE[6];
pub const ESTIMATE: Field = MESSAGE[7];
pub const MESSAGE_PROPOSAL: Field = MESSAGE[8];

/// The marks of CHECKs and of SECONDs in an image.
pub const CHECK_MARKS: Field = field(20, 2);
pub const SECOND_MARKS: Field = field(86, 2);

/// The estimate of a sender under these marks.
pub const fn estimate(marks: Field, unit: u32) -> Field {
    field(marks.at + 2 + 4 * unit as usize, 4)
}

/// The marks that a message of this kind goes to.
pub fn marks_of(kind: u8) -> Field {
    if kind == b'C' {
        CHECK_MARKS
    } else {
        SECOND_MARKS
    }
}

pub fn get(bytes: &[u8], field: Field) -> u32 {
    bytes[field.at..][..field.width]
        .iter()
        .fold(0, |number, &byte| number << 8 | u32::from(byte))
}

/// A number too large for its bytes is cut.
pub fn put(bytes: &mut [u8], field: Field, number: u32) {
    let all = number.to_be_bytes();
    bytes[field.at..][..field.width].copy_from_slice(&all[4 - field.width..]);
}

pub fn is_marked(image: &[u8], marks: Field, unit: u32) -> bool {
    get(image, marks) >> unit & 1 == 1
}

pub fn put_mark(image: &mut [u8], marks: Field, unit: u32, number: u32) {
    let others = get(image, marks);
    put(image, marks, others | 1 << unit);
    put(image, estimate(marks, unit), number);
}

/// The numbers of a layout, and back.
pub fn fields(bytes: &[u8], layout: Layout) -> Vec<u32> {
    layout.iter().map(|&field| get(bytes, field)).collect()
}

fn pack<const N: usize>(numbers: &[u32], layout: Layout) -> [u8; N] {
    let mut bytes = [0; N];
    for (&field, &number) in layout.iter().zip(numbers) {
        put(&mut bytes, field, number);
    }
    bytes
}

pub fn log_of(numbers: [u32; LOG_FIELDS]) -> [u8; LOG_LENGTH] {
    pack(&numbers, LOG)
}

pub fn message_of(numbers: [u32; MESSAGE_FIELDS]) -> [u8; MESSAGE_LENGTH] {
    pack(&numbers, MESSAGE)
}

/// An image without marks.
pub fn image_of(numbers: [u32; LOG_FIELDS]) -> [u8; IMAGE_LENGTH] {
    let mut image = [255; IMAGE_LENGTH];
    image[..LOG_LENGTH].copy_from_slice(&log_of(numbers));
    put(&mut image, CHECK_MARKS, 0);
    put(&mut image, SECOND_MARKS, 0);
    image
}

/// How many senders make a quorum.
pub fn quorum(engine: u8, n: u32) -> u32 {
    if engine == b'B' {
        (n + 1).div_ceil(2)
    } else {
        (2 * n + 1).div_ceil(3)
    }
}
