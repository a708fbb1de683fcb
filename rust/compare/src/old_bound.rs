//! The independent implementation with the bound that mileages had before request 3, as a side. Its rows are of a type of its own, so
//! that it is lent a copy.

use crate::format::{MAX_MILEAGE, OLD_MAX_MILEAGE};
use crate::side::Side;
use hundred_metres::{calls, card as old};
use independent::card as new;

// Whatever cargo is asked to build with, each package has its own bound.
const _: () = assert!(
    hundred_metres::codec::MAX_MILEAGE == OLD_MAX_MILEAGE
        && independent::codec::MAX_MILEAGE == MAX_MILEAGE
);

macro_rules! contents_as {
    ($package:ident, $from:expr) => {
        $package::Contents {
            engine: $from.engine,
            n: $from.n,
            unit: $from.unit,
            entry: $from.entry,
            round: $from.round,
            proposal: $from.proposal,
            first: $from.first,
            second: $from.second,
        }
    };
}

macro_rules! marks_as {
    ($package:ident, $from:expr) => {
        $package::Marks {
            marks: $from.marks,
            estimates: $from.estimates,
        }
    };
}

/// A row of one package as a row of the other.
macro_rules! row_as {
    ($package:ident, $from:expr) => {
        $package::Row {
            log: contents_as!($package, $from.log),
            image: contents_as!($package, $from.image),
            checks: marks_as!($package, $from.checks),
            seconds: marks_as!($package, $from.seconds),
        }
    };
}

/// Calls with a copy of the rows, and takes over what they are after it.
fn with_copy(rows: &mut [new::Row], call: impl FnOnce(&mut [old::Row]) -> u32) -> u32 {
    let mut copy: Vec<old::Row> = rows.iter().map(|row| row_as!(old, row)).collect();
    let number = call(&mut copy);
    for (row, after) in rows.iter_mut().zip(&copy) {
        *row = row_as!(new, after);
    }
    number
}

pub const HUNDRED_METRES: Side = Side {
    name: "hundred metres",
    start: calls::start,
    key_on: calls::key_on,
    propose: calls::propose,
    deliver: calls::deliver,
    read_log: calls::read_log,
    write_log: calls::write_log,
    read_message: calls::read_message,
    write_message: calls::write_message,
    card_start: |engine, n, unit, rows, row| {
        with_copy(rows, |rows| old::start(engine, n, unit, rows, row))
    },
    card_key_on: |engine, n, unit, rows, row| {
        with_copy(rows, |rows| old::key_on(engine, n, unit, rows, row))
    },
    card_propose: |engine, n, unit, rows, row, mileage, out| {
        with_copy(rows, |rows| {
            old::propose(engine, n, unit, rows, row, mileage, out)
        })
    },
    card_deliver: |engine, n, unit, rows, message, out, decision| {
        with_copy(rows, |rows| {
            old::deliver(engine, n, unit, rows, message, out, decision)
        })
    },
};
