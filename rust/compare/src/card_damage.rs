//! Damage to a call on a card: one small thing of its row, its message, its numbers or its lengths becomes another.

use crate::call::Call;
use crate::damage::{self, other_number};
use crate::format::{BLANK, MAX_MILEAGE, MAX_UNITS, ROW_NUMBERS, SPLIT};
use crate::random::Random;
use crate::rows::number_mut;
use independent::card::Row;

/// One small thing becomes another; mostly a number of the row in question.
pub fn damage(call: &mut Call, random: &mut Random) {
    let own = call.place();
    let rows = call.rows.slice_mut();
    let (Some(own), false) = (own, random.chance(1, 4)) else {
        return damage::damage(call, random);
    };
    match random.below(10) {
        0 | 1 => damage_marks(&mut rows[own], random),
        2 => damage_settings(&mut rows[own], random),
        3 => {
            let other = random.index(rows.len());
            damage_row(&mut rows[other], random);
        }
        4 => {
            let other = random.index(rows.len());
            rows.swap(own, other);
        }
        _ => damage_row(&mut rows[own], random),
    }
}

/// One number, often of the first.
fn damage_row(row: &mut Row, random: &mut Random) {
    let most = random.one_of(&[8, 17, ROW_NUMBERS]);
    let number = number_mut(row, random.index(most));
    *number = other_number(*number, random);
}

/// A mark more, a mark less, an estimate where there is no mark, or a mark of no unit.
fn damage_marks(row: &mut Row, random: &mut Random) {
    let marks = random.either((1, 2), &mut row.checks, &mut row.seconds);
    let unit = random.below(MAX_UNITS);
    let number = random.one_of(&[5, MAX_MILEAGE, MAX_MILEAGE + 1, SPLIT, BLANK]);
    match random.below(5) {
        0 | 1 => {
            marks.marks |= 1 << unit;
            marks.estimates[unit as usize] = number;
        }
        2 => marks.estimates[unit as usize] = number,
        3 => marks.marks &= !(1 << unit),
        _ => marks.marks |= 1 << random.between(16, 31),
    }
}

/// Log and image together, or one of them, with another engine, n, unit or entry that is often in range.
fn damage_settings(row: &mut Row, random: &mut Random) {
    let setting = random.index(4);
    let number = match setting {
        0 => random.one_of(b"BR").into(),
        1 => random.between(3, MAX_UNITS),
        2 => random.below(3),
        _ => random.between(1, 66),
    };
    let (log, image) = random.one_of(&[(true, true), (true, false), (false, true)]);
    if log {
        *number_mut(row, setting) = number;
    }
    if image {
        *number_mut(row, 8 + setting) = number;
    }
}
