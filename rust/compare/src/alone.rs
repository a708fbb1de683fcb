//! The card's calls made of a side's own calls for one unit: what a row holds goes through the bytes of its log and image.

use crate::format::{
    fields, ACCEPTED, BLANK, IMAGE_LENGTH, LOG, LOG_FIELDS, LOG_LENGTH, MAX_ROWS, MESSAGE_FIELDS,
    MESSAGE_LENGTH, MIN_ROWS, NO_ROW, UNFIT_IMAGE, WRONG_LENGTH,
};
use crate::rows;
use crate::side::{Side, CORE, INDEPENDENT};
use independent::card::{Contents, Row};

/// A side with its card's calls replaced.
macro_rules! alone {
    ($side:ident, $name:expr) => {
        Side {
            name: $name,
            card_start: |engine, n, unit, rows, row| start(&$side, [engine, n, unit], rows, row),
            card_key_on: |engine, n, unit, rows, row| key_on(&$side, [engine, n, unit], rows, row),
            card_propose: |engine, n, unit, rows, row, mileage, out| {
                propose(&$side, [engine, n, unit], rows, row, mileage, out)
            },
            card_deliver: |engine, n, unit, rows, message, out, decision| {
                deliver(&$side, [engine, n, unit], rows, message, out, decision)
            },
            ..$side
        }
    };
}

pub const CORE_ALONE: Side = alone!(CORE, "core, unit by unit");
pub const INDEPENDENT_ALONE: Side = alone!(INDEPENDENT, "independent, unit by unit");

/// Engine, n and unit.
type Beside = [u32; 3];

/// A unit as the calls for one unit are lent it.
struct Unit {
    log: [u8; LOG_LENGTH],
    image: [u8; IMAGE_LENGTH],
}

fn start(side: &Side, beside: Beside, rows: &mut [Row], number: u32) -> u32 {
    answer(counted(rows).and_then(|()| {
        let place = place(rows, number)?;
        rows[place] = row_of(side, &fresh(side, beside, number)?);
        Ok(())
    }))
}

fn key_on(side: &Side, beside: Beside, rows: &mut [Row], number: u32) -> u32 {
    answer(counted(rows).and_then(|()| {
        let place = place(rows, number)?;
        let mut unit = fresh(side, beside, number)?;
        unit.log = log_of(side, &rows[place], &unit)?;
        accepted((side.key_on)(&unit.log, &mut unit.image))?;
        rows[place] = row_of(side, &unit);
        Ok(())
    }))
}

fn propose(
    side: &Side,
    beside: Beside,
    rows: &mut [Row],
    number: u32,
    mileage: u32,
    out: &mut [u8],
) -> u32 {
    clear(out);
    answer(counted(rows).and_then(|()| {
        message_sized(out)?;
        let place = place(rows, number)?;
        let mut unit = unit_of(side, beside, rows, place)?;
        accepted((side.propose)(&unit.log, &mut unit.image, mileage, out))?;
        rows[place] = row_of(side, &unit);
        Ok(())
    }))
}

fn deliver(
    side: &Side,
    beside: Beside,
    rows: &mut [Row],
    message: &[u8],
    out: &mut [u8],
    decision: &mut u32,
) -> u32 {
    clear(out);
    *decision = BLANK;
    answer(counted(rows).and_then(|()| {
        message_sized(message)?;
        message_sized(out)?;
        let mut read = [0; MESSAGE_FIELDS];
        accepted((side.read_message)(message, &mut read))?;
        let place = place(rows, read[5])?;
        let Unit { mut log, mut image } = unit_of(side, beside, rows, place)?;
        accepted((side.deliver)(&mut log, &mut image, message, out, decision))?;
        rows[place] = row_of(side, &Unit { log, image });
        Ok(())
    }))
}

fn answer(result: Result<(), u32>) -> u32 {
    result.err().unwrap_or(ACCEPTED)
}

fn accepted(number: u32) -> Result<(), u32> {
    if number == ACCEPTED {
        Ok(())
    } else {
        Err(number)
    }
}

fn clear(out: &mut [u8]) {
    if out.len() == MESSAGE_LENGTH {
        out.fill(0);
    }
}

fn counted(rows: &[Row]) -> Result<(), u32> {
    let right = MIN_ROWS as usize..=MAX_ROWS as usize;
    right
        .contains(&rows.len())
        .then_some(())
        .ok_or(WRONG_LENGTH)
}

fn message_sized(bytes: &[u8]) -> Result<(), u32> {
    (bytes.len() == MESSAGE_LENGTH)
        .then_some(())
        .ok_or(WRONG_LENGTH)
}

fn place(rows: &[Row], number: u32) -> Result<usize, u32> {
    let place = (number as usize).wrapping_sub(1);
    (place < rows.len()).then_some(place).ok_or(NO_ROW)
}

fn fresh(side: &Side, [engine, n, unit]: Beside, entry: u32) -> Result<Unit, u32> {
    let (mut log, mut image) = ([0; LOG_LENGTH], [0; IMAGE_LENGTH]);
    accepted((side.start)(engine, n, unit, entry, &mut log, &mut image))?;
    Ok(Unit { log, image })
}

fn written(side: &Side, contents: &Contents) -> Result<[u8; LOG_LENGTH], u32> {
    let mut log = [0; LOG_LENGTH];
    accepted((side.write_log)(&rows::log_numbers(contents), &mut log))?;
    Ok(log)
}

/// The row's log, malformed or of other settings than the fresh unit of its place.
fn log_of(side: &Side, row: &Row, fresh: &Unit) -> Result<[u8; LOG_LENGTH], u32> {
    let log = written(side, &row.log)?;
    let settings = |log| fields(log, &LOG[..4]);
    if settings(&log) == settings(&fresh.log) {
        Ok(log)
    } else {
        Err(UNFIT_IMAGE)
    }
}

/// An image whose numbers are too large for their bytes is malformed; else it is the call's to say.
fn unit_of(side: &Side, beside: Beside, card: &[Row], place: usize) -> Result<Unit, u32> {
    let row = &card[place];
    let log = log_of(side, row, &fresh(side, beside, place as u32 + 1)?)?;
    written(side, &row.image).map_err(|_| UNFIT_IMAGE)?;
    if row.checks.marks.max(row.seconds.marks) > u16::MAX.into() {
        return Err(UNFIT_IMAGE);
    }
    let (_, image) = rows::bytes_of(row);
    Ok(Unit { log, image })
}

fn row_of(side: &Side, unit: &Unit) -> Row {
    let mut row = rows::of_bytes(&unit.log, &unit.image);
    let mut read = [0; LOG_FIELDS];
    if (side.read_log)(&unit.log, &mut read) == ACCEPTED {
        row.log = rows::contents(read);
    }
    row
}
