//! A unit as the calls are lent it, and messages for it.

use independent::calls;
use independent::codec::{
    EVERYONE, IMAGE_LENGTH, LOG_FIELDS, LOG_LENGTH, MESSAGE_FIELDS, MESSAGE_LENGTH,
};

pub const B: u32 = b'B' as u32;
pub const R: u32 = b'R' as u32;
pub const F: u32 = b'F' as u32;
pub const C: u32 = b'C' as u32;
pub const S: u32 = b'S' as u32;
pub const K: u32 = b'K' as u32;
pub const ENTRY: u32 = 7;
pub const EMPTY: [u8; MESSAGE_LENGTH] = [0; MESSAGE_LENGTH];

pub type Bytes = [u8; MESSAGE_LENGTH];

#[derive(Clone, Copy, Debug, PartialEq, Eq)]
pub struct Unit {
    pub log: [u8; LOG_LENGTH],
    pub image: [u8; IMAGE_LENGTH],
}

impl Unit {
    pub fn start(engine: u32, n: u32, unit: u32) -> Unit {
        let mut fresh = Unit {
            log: [0xAA; LOG_LENGTH],
            image: [0xAA; IMAGE_LENGTH],
        };
        assert_eq!(
            calls::start(engine, n, unit, ENTRY, &mut fresh.log, &mut fresh.image),
            0
        );
        fresh
    }

    /// A unit keyed on from a log of these fields.
    pub fn of_log(fields: [u32; LOG_FIELDS]) -> Unit {
        let mut unit = Unit {
            log: [0xAA; LOG_LENGTH],
            image: [0xAA; IMAGE_LENGTH],
        };
        assert_eq!(calls::write_log(&fields, &mut unit.log), 0);
        assert_eq!(calls::key_on(&unit.log, &mut unit.image), 0);
        unit
    }

    pub fn propose(&mut self, mileage: u32) -> (u32, Bytes) {
        let mut out = [0xAA; MESSAGE_LENGTH];
        let number = calls::propose(&self.log, &mut self.image, mileage, &mut out);
        (number, out)
    }

    pub fn deliver(&mut self, message: &[u8]) -> (u32, Bytes, u32) {
        let (mut out, mut decision) = ([0xAA; MESSAGE_LENGTH], 1);
        let number = calls::deliver(
            &mut self.log,
            &mut self.image,
            message,
            &mut out,
            &mut decision,
        );
        (number, out, decision)
    }

    pub fn current(&self) -> [u32; LOG_FIELDS] {
        log_fields(&self.image[..LOG_LENGTH])
    }

    /// The marks of CHECK and of SECOND.
    pub fn marks(&self) -> (u16, u16) {
        let at = |at: usize| u16::from_be_bytes([self.image[at], self.image[at + 1]]);
        (at(20), at(86))
    }
}

pub fn log_fields(log: &[u8]) -> [u32; LOG_FIELDS] {
    let mut fields = [0; LOG_FIELDS];
    assert_eq!(calls::read_log(log, &mut fields), 0);
    fields
}

pub fn message(fields: [u32; MESSAGE_FIELDS]) -> Bytes {
    let mut bytes = [0xAA; MESSAGE_LENGTH];
    assert_eq!(calls::write_message(&fields, &mut bytes), 0);
    bytes
}

pub fn broadcast(
    kind: u32,
    engine: u32,
    n: u32,
    sender: u32,
    round: u32,
    estimate: u32,
    proposal: u32,
) -> Bytes {
    message([
        kind, engine, n, sender, EVERYONE, ENTRY, round, estimate, proposal,
    ])
}
