//! The mileage agreement core and its bench, written from the scope paper, the change requests and the source alone.
//!
//! `codec` holds the records and their bytes, `step` the rules of the two engines on records, `calls` the entries over
//! byte buffers, `card` the entries over the rows of a card, and `bench` the listing of a script.

#![forbid(unsafe_code)]

pub mod bench;
pub mod calls;
pub mod card;
pub mod codec;
pub mod step;

/// Why a call or a script line is turned down, with the scope paper's number for it.
#[derive(Clone, Copy, Debug, PartialEq, Eq)]
#[repr(u32)]
pub enum Refusal {
    /// A buffer's length is wrong.
    Length = 1,
    /// Log malformed, or fresh-unit settings out of range.
    Log = 2,
    /// Image malformed, or not fitting its log.
    Image = 3,
    /// Message malformed.
    Message = 4,
    /// Other engine, n, entry or receiver.
    NotForUnit = 5,
    /// Mileage out of range.
    Mileage = 6,
    /// This SECOND would close the last round.
    LastRound = 7,
    /// Script line malformed.
    Line = 8,
    /// Unit down, or for key-on not down.
    Power = 9,
    /// Message number not yet sent.
    NotSent = 10,
    /// The event would send while every message place is taken.
    Full = 11,
    /// A message's entry, or a call's row number, names no row of the card.
    Row = 12,
}
