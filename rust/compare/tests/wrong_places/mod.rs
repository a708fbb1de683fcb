//! Calls in which one place alone has another bound for mileages.

use compare::entry::{IMAGE, LOG, MESSAGE};
use compare::format::*;
use compare::rows::number_mut;
use independent::calls;
use independent::card::{self, Row};

/// A number, or several one after the other, of a log, an image or a message: the first one's bytes, and where it stands among a message's
/// fields, or else a row's numbers.
struct Place {
    buffer: usize,
    bytes: Field,
    number: usize,
    count: usize,
}

const fn one(buffer: usize, bytes: Field, number: usize) -> Place {
    Place {
        buffer,
        bytes,
        number,
        count: 1,
    }
}

const fn estimates(marks: Field, number: usize) -> Place {
    Place {
        count: MAX_UNITS as usize,
        ..one(IMAGE, estimate(marks, 0), number)
    }
}

/// The proposal and the estimates of a log; the same of an image; its CHECKs, its SECONDs; estimate and proposal of a message.
const PLACES: [Place; 10] = [
    one(LOG, PROPOSAL, 5),
    one(LOG, FIRST_ESTIMATE, 6),
    one(LOG, SECOND_ESTIMATE, 7),
    one(IMAGE, PROPOSAL, 13),
    one(IMAGE, FIRST_ESTIMATE, 14),
    one(IMAGE, SECOND_ESTIMATE, 15),
    estimates(CHECK_MARKS, 17),
    estimates(SECOND_MARKS, 34),
    one(MESSAGE, ESTIMATE, 7),
    one(MESSAGE, MESSAGE_PROPOSAL, 8),
];

/// What is beyond that bound becomes a number out of range, and what is within it one in range.
fn bounded<const BOUND: u32>(number: u32) -> u32 {
    let (good, wanted) = (number <= MAX_MILEAGE, number <= BOUND);
    match number {
        BLANK | SPLIT => number,
        _ if wanted && !good => MAX_MILEAGE,
        _ if good && !wanted => MAX_MILEAGE + 1,
        _ => number,
    }
}

/// A copy of a buffer with that bound in the place, if the place is there.
fn bytes<const AT: usize, const BOUND: u32>(buffer: usize, bytes: &[u8]) -> Vec<u8> {
    let (place, mut copy) = (&PLACES[AT], bytes.to_vec());
    for at in (0..place.count).filter(|_| place.buffer == buffer) {
        let field = Field {
            at: place.bytes.at + 4 * at,
            ..place.bytes
        };
        if field.at + field.width <= copy.len() {
            let number = get(&copy, field);
            put(&mut copy, field, bounded::<BOUND>(number));
        }
    }
    copy
}

/// The same of the fields of a log or message.
fn fields<const AT: usize, const BOUND: u32>(fields: &[u32]) -> Vec<u32> {
    let mut copy = fields.to_vec();
    if let Some(number) = copy.get_mut(PLACES[AT].number) {
        *number = bounded::<BOUND>(*number);
    }
    copy
}

pub fn key_on<const AT: usize, const BOUND: u32>(log: &[u8], image: &mut [u8]) -> u32 {
    calls::key_on(&bytes::<AT, BOUND>(LOG, log), image)
}

pub fn propose_up_to<const BOUND: u32>(
    log: &[u8],
    image: &mut [u8],
    mileage: u32,
    out: &mut [u8],
) -> u32 {
    calls::propose(log, image, bounded::<BOUND>(mileage), out)
}

pub fn propose<const AT: usize, const BOUND: u32>(
    log: &[u8],
    image: &mut [u8],
    mileage: u32,
    out: &mut [u8],
) -> u32 {
    let (log, mut copy) = (
        bytes::<AT, BOUND>(LOG, log),
        bytes::<AT, BOUND>(IMAGE, image),
    );
    let number = calls::propose(&log, &mut copy, mileage, out);
    if number == ACCEPTED {
        image.copy_from_slice(&copy);
    }
    number
}

pub fn deliver<const AT: usize, const BOUND: u32>(
    log: &mut [u8],
    image: &mut [u8],
    message: &[u8],
    out: &mut [u8],
    decision: &mut u32,
) -> u32 {
    let message = bytes::<AT, BOUND>(MESSAGE, message);
    let mut copies = [
        bytes::<AT, BOUND>(LOG, log),
        bytes::<AT, BOUND>(IMAGE, image),
    ];
    let [log_copy, image_copy] = &mut copies;
    let number = calls::deliver(log_copy, image_copy, &message, out, decision);
    if number == ACCEPTED {
        log.copy_from_slice(log_copy);
        image.copy_from_slice(image_copy);
    }
    number
}

pub fn read_log<const AT: usize, const BOUND: u32>(log: &[u8], fields: &mut [u32]) -> u32 {
    calls::read_log(&bytes::<AT, BOUND>(LOG, log), fields)
}

pub fn write_log<const AT: usize, const BOUND: u32>(fields: &[u32], log: &mut [u8]) -> u32 {
    calls::write_log(&self::fields::<AT, BOUND>(fields), log)
}

pub fn read_message<const AT: usize, const BOUND: u32>(message: &[u8], fields: &mut [u32]) -> u32 {
    calls::read_message(&bytes::<AT, BOUND>(MESSAGE, message), fields)
}

pub fn write_message<const AT: usize, const BOUND: u32>(fields: &[u32], message: &mut [u8]) -> u32 {
    calls::write_message(&self::fields::<AT, BOUND>(fields), message)
}

/// A call on a copy of the rows, in which the row of this number has that bound.
fn on_row<const AT: usize, const BOUND: u32>(
    rows: &mut [Row],
    number: u32,
    call: impl FnOnce(&mut [Row]) -> u32,
) -> u32 {
    let mut copy = rows.to_vec();
    let (place, at) = (&PLACES[AT], (number as usize).checked_sub(1));
    let row = at.and_then(|at| copy.get_mut(at));
    if let Some(row) = row.filter(|_| place.buffer != MESSAGE) {
        for at in place.number..place.number + place.count {
            let number = number_mut(row, at);
            *number = bounded::<BOUND>(*number);
        }
    }
    let answer = call(&mut copy);
    if answer == ACCEPTED {
        rows.copy_from_slice(&copy);
    }
    answer
}

pub fn card_key_on<const AT: usize, const BOUND: u32>(
    engine: u32,
    n: u32,
    unit: u32,
    rows: &mut [Row],
    row: u32,
) -> u32 {
    on_row::<AT, BOUND>(rows, row, |rows| card::key_on(engine, n, unit, rows, row))
}

pub fn card_propose<const AT: usize, const BOUND: u32>(
    engine: u32,
    n: u32,
    unit: u32,
    rows: &mut [Row],
    row: u32,
    mileage: u32,
    out: &mut [u8],
) -> u32 {
    on_row::<AT, BOUND>(rows, row, |rows| {
        card::propose(engine, n, unit, rows, row, mileage, out)
    })
}

pub fn card_propose_up_to<const BOUND: u32>(
    engine: u32,
    n: u32,
    unit: u32,
    rows: &mut [Row],
    row: u32,
    mileage: u32,
    out: &mut [u8],
) -> u32 {
    card::propose(engine, n, unit, rows, row, bounded::<BOUND>(mileage), out)
}

/// The place is in the message, or in the row of its entry.
pub fn card_deliver<const AT: usize, const BOUND: u32>(
    engine: u32,
    n: u32,
    unit: u32,
    rows: &mut [Row],
    message: &[u8],
    out: &mut [u8],
    decision: &mut u32,
) -> u32 {
    let message = bytes::<AT, BOUND>(MESSAGE, message);
    let entry = match message.len() {
        MESSAGE_LENGTH => get(&message, MESSAGE_ENTRY),
        _ => 0,
    };
    on_row::<AT, BOUND>(rows, entry, |rows| {
        card::deliver(engine, n, unit, rows, &message, out, decision)
    })
}
