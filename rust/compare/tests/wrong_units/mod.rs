//! Sides that do not take unit 15.

use compare::call::Entry;
use compare::side::Side;
use independent::{calls, card};

/// Unit 15 becomes one that is no unit of 16.
fn below_15(unit: u32) -> u32 {
    unit + u32::from(unit == 15)
}

/// What says 15 there is not taken: its length is none that is right.
fn not_15<T: Copy + Into<u32>>(lent: &[T], at: usize) -> &[T] {
    match lent.get(at) {
        Some(&number) if number.into() == 15 => &[],
        _ => lent,
    }
}

type Change = fn(&mut Side);

/// Each entry, and how it refuses what is about unit 15, or is sent by it.
pub const CHANGES: [(Entry, Change); 12] = [
    (Entry::Start, |side| {
        side.start = |engine, n, unit, entry, log, image| {
            calls::start(engine, n, below_15(unit), entry, log, image)
        }
    }),
    (Entry::KeyOn, |side| {
        side.key_on = |log, image| calls::key_on(not_15(log, 2), image)
    }),
    (Entry::Propose, |side| {
        side.propose =
            |log, image, mileage, out| calls::propose(not_15(log, 2), image, mileage, out)
    }),
    (Entry::Deliver, |side| {
        side.deliver = |log, image, message, out, decision| {
            calls::deliver(log, image, not_15(message, 3), out, decision)
        }
    }),
    (Entry::ReadLog, |side| {
        side.read_log = |log, fields| calls::read_log(not_15(log, 2), fields)
    }),
    (Entry::WriteLog, |side| {
        side.write_log = |fields, log| calls::write_log(not_15(fields, 2), log)
    }),
    (Entry::ReadMessage, |side| {
        side.read_message = |message, fields| calls::read_message(not_15(message, 3), fields)
    }),
    (Entry::WriteMessage, |side| {
        side.write_message = |fields, message| calls::write_message(not_15(fields, 3), message)
    }),
    (Entry::CardStart, |side| {
        side.card_start =
            |engine, n, unit, rows, row| card::start(engine, n, below_15(unit), rows, row)
    }),
    (Entry::CardKeyOn, |side| {
        side.card_key_on =
            |engine, n, unit, rows, row| card::key_on(engine, n, below_15(unit), rows, row)
    }),
    (Entry::CardPropose, |side| {
        side.card_propose = |engine, n, unit, rows, row, mileage, out| {
            card::propose(engine, n, below_15(unit), rows, row, mileage, out)
        }
    }),
    (Entry::CardDeliver, |side| {
        side.card_deliver = |engine, n, unit, rows, message, out, decision| {
            card::deliver(engine, n, below_15(unit), rows, message, out, decision)
        }
    }),
];
