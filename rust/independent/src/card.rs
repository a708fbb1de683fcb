//! The entries over a card: rows that the host lends, row k being entry k, with engine, n and unit given once beside them.
//!
//! Only the row in question is looked at, and no other row changes. The order of refusals is 1, 4, 12, 2, 3, 5 and onward.
//! A refused call leaves every row as it was; the output buffer and the decision are as in `calls`.

use crate::calls::{answer, clear, fresh, send, sized, sized_mut};
use crate::codec::{Gathered, Image, Log, Message, BLANK, LOG_FIELDS, MAX_UNITS};
use crate::step::{self, Step};
use crate::Refusal;

pub const MIN_ROWS: usize = 1;
pub const MAX_ROWS: usize = 64;
/// How many numbers a row holds.
pub const ROW_NUMBERS: usize = 2 * LOG_FIELDS + 2 * (1 + MAX_UNITS);

/// What a log, or the front of an image, holds.
#[derive(Clone, Copy, Debug, PartialEq, Eq)]
#[repr(C)]
pub struct Contents {
    pub engine: u32,
    pub n: u32,
    pub unit: u32,
    pub entry: u32,
    pub round: u32,
    pub proposal: u32,
    pub first: u32,
    pub second: u32,
}

/// The senders marked, and the estimate of each.
#[derive(Clone, Copy, Debug, PartialEq, Eq)]
#[repr(C)]
pub struct Marks {
    pub marks: u32,
    pub estimates: [u32; MAX_UNITS],
}

/// The log and image contents of one entry.
#[derive(Clone, Copy, Debug, PartialEq, Eq)]
#[repr(C)]
pub struct Row {
    pub log: Contents,
    pub image: Contents,
    pub checks: Marks,
    pub seconds: Marks,
}

pub fn start(engine: u32, n: u32, unit: u32, rows: &mut [Row], row: u32) -> u32 {
    answer(try_start([engine, n, unit], rows, row))
}

pub fn key_on(engine: u32, n: u32, unit: u32, rows: &mut [Row], row: u32) -> u32 {
    answer(try_key_on([engine, n, unit], rows, row))
}

pub fn propose(
    engine: u32,
    n: u32,
    unit: u32,
    rows: &mut [Row],
    row: u32,
    mileage: u32,
    out: &mut [u8],
) -> u32 {
    clear(out);
    answer(try_propose([engine, n, unit], rows, row, mileage, out))
}

pub fn deliver(
    engine: u32,
    n: u32,
    unit: u32,
    rows: &mut [Row],
    message: &[u8],
    out: &mut [u8],
    decision: &mut u32,
) -> u32 {
    clear(out);
    *decision = BLANK;
    answer(try_deliver([engine, n, unit], rows, message, out, decision))
}

/// Engine, n and unit, as they are given beside the card.
type Beside = [u32; 3];

fn try_start(beside: Beside, rows: &mut [Row], number: u32) -> Result<(), Refusal> {
    let row = row_of(counted(rows)?, number)?;
    let fresh = fresh(beside, number)?;
    row.log = fresh.into();
    row.put_image(&step::key_on(fresh));
    Ok(())
}

fn try_key_on(beside: Beside, rows: &mut [Row], number: u32) -> Result<(), Refusal> {
    let row = row_of(counted(rows)?, number)?;
    let log = row.log_of(fresh(beside, number)?)?;
    row.put_image(&step::key_on(log));
    Ok(())
}

fn try_propose(
    beside: Beside,
    rows: &mut [Row],
    number: u32,
    mileage: u32,
    out: &mut [u8],
) -> Result<(), Refusal> {
    let (rows, out) = (counted(rows)?, sized_mut(out)?);
    let row = row_of(rows, number)?;
    let unit = row.unit_of(fresh(beside, number)?)?;
    let step = step::propose(&unit, mileage)?;
    row.put_step(&step);
    send(&step, out);
    Ok(())
}

fn try_deliver(
    beside: Beside,
    rows: &mut [Row],
    message: &[u8],
    out: &mut [u8],
    decision: &mut u32,
) -> Result<(), Refusal> {
    let (rows, message, out) = (counted(rows)?, sized(message)?, sized_mut(out)?);
    let message = Message::read(message).ok_or(Refusal::Message)?;
    let number = message.settings.entry;
    let row = row_of(rows, number)?;
    let unit = row.unit_of(fresh(beside, number)?)?;
    let step = step::deliver(&unit, &message)?;
    row.put_step(&step);
    send(&step, out);
    *decision = step.decision.unwrap_or(BLANK);
    Ok(())
}

/// "A count of rows outside 1 to 64 is 1."
fn counted(rows: &mut [Row]) -> Result<&mut [Row], Refusal> {
    if (MIN_ROWS..=MAX_ROWS).contains(&rows.len()) {
        Ok(rows)
    } else {
        Err(Refusal::Length)
    }
}

/// Rows are numbered from 1.
fn row_of(rows: &mut [Row], number: u32) -> Result<&mut Row, Refusal> {
    let place = (number as usize).checked_sub(1);
    place
        .and_then(|place| rows.get_mut(place))
        .ok_or(Refusal::Row)
}

impl Row {
    /// The row's log, where `fresh` has the settings beside the card and the row's number. One "without these settings or
    /// its own entry number is refused with 3", a malformed one with 2.
    fn log_of(&self, fresh: Log) -> Result<Log, Refusal> {
        let log = Log::from_fields(self.log.numbers()).ok_or(Refusal::Log)?;
        if log.settings == fresh.settings && log.unit == fresh.unit {
            Ok(log)
        } else {
            Err(Refusal::Image)
        }
    }

    /// The unit that the row holds. An image that fits its log has the log's settings.
    fn unit_of(&self, fresh: Log) -> Result<Image, Refusal> {
        let log = self.log_of(fresh)?;
        let current = Log::from_fields(self.image.numbers());
        current
            .and_then(|current| Image::new(current, self.checks.into(), self.seconds.into()))
            .filter(|image| image.fits(&log))
            .ok_or(Refusal::Image)
    }

    fn put_image(&mut self, image: &Image) {
        self.image = image.current.into();
        self.checks = image.checks.into();
        self.seconds = image.seconds.into();
    }

    fn put_step(&mut self, step: &Step) {
        if let Some(&log) = step.log() {
            self.log = log.into();
        }
        self.put_image(&step.image);
    }
}

impl Contents {
    fn numbers(&self) -> [u32; LOG_FIELDS] {
        [
            self.engine,
            self.n,
            self.unit,
            self.entry,
            self.round,
            self.proposal,
            self.first,
            self.second,
        ]
    }
}

impl From<Log> for Contents {
    fn from(log: Log) -> Contents {
        let [engine, n, unit, entry, round, proposal, first, second] = log.fields();
        Contents {
            engine,
            n,
            unit,
            entry,
            round,
            proposal,
            first,
            second,
        }
    }
}

impl From<Gathered> for Marks {
    fn from(Gathered { marks, estimates }: Gathered) -> Marks {
        Marks { marks, estimates }
    }
}

impl From<Marks> for Gathered {
    fn from(Marks { marks, estimates }: Marks) -> Gathered {
        Gathered { marks, estimates }
    }
}
