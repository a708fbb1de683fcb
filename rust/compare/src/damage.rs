//! Damage: one small thing in a call becomes another, often something at a limit or just beyond it.

use crate::call::{Call, IMAGE, LOG, OUT, ROWS};
use crate::format::{self, estimate, get, put, put_mark, Field};
use crate::format::{BLANK, CHECK_MARKS, MAX_MILEAGE, SECOND_MARKS, SPLIT};
use crate::random::Random;

/// Numbers at each limit and one beyond, and some that are in range only if cut to one, two or three bytes.
/// Letters by their numbers: A B C F K Q R S Z b s, then B, F and R to be cut.
pub const LIMITS: [u32; 49] = [
    0, 1, 2, 3, 4, 15, 16, 17, 63, 64, 254, 255, 256, 258, 259, 271, 272, 9998, 9999, 10000, 65535,
    65536, 65537, 65539, 75535, 9999999, 10000000, 99999999, 100000000, 16777216, 268435456,
    2147483648, 4294967293, 4294967294, 4294967295, 65, 66, 67, 70, 75, 81, 82, 83, 90, 98, 115,
    322, 65606, 65618,
];

/// Another number: near the one there, or at a limit.
pub fn other_number(number: u32, random: &mut Random) -> u32 {
    match random.below(8) {
        0 => number.wrapping_add(1),
        1 => number.wrapping_sub(1),
        2 => number.wrapping_add(random.one_of(&[256, 65536, 16_777_216, 268_435_456])),
        3 => number ^ 1 << random.below(32),
        4 => random.between(0, MAX_MILEAGE),
        _ => random.one_of(&LIMITS),
    }
}

/// Every field of a byte buffer; an image's marks and estimates too.
pub fn fields_of(buffer: usize) -> Vec<Field> {
    match buffer {
        LOG => format::LOG.to_vec(),
        IMAGE => {
            let tallies = [CHECK_MARKS, SECOND_MARKS];
            let estimates = tallies
                .iter()
                .flat_map(|&marks| (0..16).map(move |unit| estimate(marks, unit)));
            format::LOG
                .iter()
                .copied()
                .chain(tallies)
                .chain(estimates)
                .collect()
        }
        _ => format::MESSAGE.to_vec(),
    }
}

/// One small thing in a call becomes another.
pub fn damage(call: &mut Call, random: &mut Random) {
    match random.below(12) {
        0 => damage_length(call, random),
        1 => damage_number(call, random),
        2 | 3 => damage_marks(call, random),
        4..=6 => damage_byte(call, random),
        _ => damage_field(call, random),
    }
}

/// One of the byte buffers lent, mostly one that is read.
fn some_buffer(call: &Call, random: &mut Random) -> Option<usize> {
    let lent: Vec<usize> = (0..OUT)
        .filter(|&at| !call.bytes[at].slice().is_empty())
        .collect();
    (!lent.is_empty()).then(|| random.one_of(&lent))
}

/// A buffer's right length and wrong ones: none, one less, one more, and right only if cut to one byte.
pub fn lengths(right: usize) -> [usize; 5] {
    [right, 0, right - 1, right + 1, right + 256]
}

/// Counts of rows at the limits, and right only if cut to one byte.
pub const COUNTS: [usize; 8] = [0, 1, 2, 63, 64, 65, 257, 320];

/// Seldom a length that is right only if cut to two bytes.
pub fn damage_length(call: &mut Call, random: &mut Random) {
    let at = random.one_of(&call.entry.buffers());
    let right = call.entry.lengths()[at];
    let wrong = random.one_of(&lengths(right)[1..]);
    let len = match at {
        ROWS => random.one_of(&COUNTS),
        _ => random.either((1, 30), right + 65536, wrong),
    };
    call.resize(at, len, random.byte());
}

fn damage_number(call: &mut Call, random: &mut Random) {
    let at = random.index(call.entry.numbers().max(1));
    call.numbers[at] = other_number(call.numbers[at], random);
}

/// A mark more, a mark less, or an estimate where there is no mark.
fn damage_marks(call: &mut Call, random: &mut Random) {
    let image = call.bytes[IMAGE].slice_mut();
    if image.len() < format::IMAGE_LENGTH {
        return;
    }
    let marks = random.one_of(&[CHECK_MARKS, SECOND_MARKS]);
    let unit = random.below(16);
    let number = random.one_of(&[5, MAX_MILEAGE, MAX_MILEAGE + 1, SPLIT, BLANK]);
    match random.below(4) {
        0 | 1 => put_mark(image, marks, unit, number),
        2 => put(image, estimate(marks, unit), number),
        _ => {
            let others = get(image, marks) & !(1 << unit);
            put(image, marks, others);
        }
    }
}

fn damage_byte(call: &mut Call, random: &mut Random) {
    let Some(buffer) = some_buffer(call, random) else {
        return;
    };
    let bytes = call.bytes[buffer].slice_mut();
    let most = random.either((1, 3), bytes.len().min(8), bytes.len());
    let at = random.index(most);
    bytes[at] = match random.below(3) {
        0 => random.byte(),
        1 => bytes[at] ^ 1 << random.below(8),
        _ => bytes[at].wrapping_add(random.one_of(&[1, 255])),
    };
}

fn damage_field(call: &mut Call, random: &mut Random) {
    let fields = call.fields.slice_mut();
    if !fields.is_empty() && random.chance(1, 2) {
        let at = random.index(fields.len());
        fields[at] = other_number(fields[at], random);
        return;
    }
    let Some(buffer) = some_buffer(call, random) else {
        return;
    };
    let field = random.one_of(&fields_of(buffer));
    let bytes = call.bytes[buffer].slice_mut();
    if field.at + field.width <= bytes.len() {
        let number = other_number(get(bytes, field), random);
        put(bytes, field, number);
    }
}
