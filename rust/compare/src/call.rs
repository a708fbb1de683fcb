//! One call as data: what is given and lent before it. A side runs it on a copy; numbers, decisions and all memory are compared.

use crate::buffers::Lent;
pub use crate::entry::{Entry, CARD_ENTRIES, ENTRIES};
pub use crate::entry::{FIELDS, IMAGE, LOG, MESSAGE, OUT, ROWS};
use crate::format::{get, BLANK, MESSAGE_ENTRY, MESSAGE_LENGTH};
use crate::rows;
use crate::side::Side;
use independent::card::Row;
use std::panic::{catch_unwind, AssertUnwindSafe};

/// Stands for the number of a call that panicked.
const PANICKED: u32 = u32::MAX;

/// `numbers`: engine, n, unit and entry of a start, or first the mileage of a proposal; on a card engine, n, unit, the row's
/// number and the mileage. `decision`: between two guards.
#[derive(Clone, PartialEq, Eq, Debug)]
pub struct Call {
    pub entry: Entry,
    pub numbers: [u32; 5],
    pub bytes: [Lent<u8>; 4],
    pub fields: Lent<u32>,
    pub rows: Lent<Row>,
    pub decision: [u32; 3],
}

/// The number answered, and the call's memory after it.
#[derive(Clone, PartialEq, Eq, Debug)]
pub struct Answer {
    pub number: u32,
    pub after: Call,
}

impl Answer {
    fn run(&mut self, side: &Side) {
        let after = &mut self.after;
        self.number = catch_unwind(AssertUnwindSafe(|| after.run(side))).unwrap_or(PANICKED);
        // The core is lent pointers: what it may have written through them is looked at anew.
        std::hint::black_box(after);
    }
}

impl Call {
    /// Right lengths, and this byte everywhere. It also says where each buffer begins: not all at even addresses.
    pub fn new(entry: Entry, filler: u8) -> Call {
        let wide = u32::from_be_bytes([filler; 4]);
        let lengths = entry.lengths();
        let lent = |at: usize| match lengths[at] {
            0 => Lent::NONE,
            len => Lent::new(len, filler, usize::from(filler) + 3 * at),
        };
        Call {
            entry,
            numbers: [0; 5],
            bytes: [lent(LOG), lent(IMAGE), lent(MESSAGE), lent(OUT)],
            fields: if lengths[FIELDS] == 0 {
                Lent::NONE
            } else {
                Lent::new(lengths[FIELDS], wide, usize::from(filler))
            },
            rows: if lengths[ROWS] == 0 {
                Lent::NONE
            } else {
                Lent::new(lengths[ROWS], rows::of_number(wide), usize::from(filler))
            },
            decision: [wide; 3],
        }
    }

    /// Another length for a buffer, by its index among the lengths.
    pub fn resize(&mut self, at: usize, len: usize, filler: u8) {
        match self.bytes.get_mut(at) {
            Some(lent) => lent.resize(len, filler),
            None if at == ROWS => self.rows.resize(len, rows::of_number(filler.into())),
            None => self.fields.resize(len, filler.into()),
        }
    }

    /// The length of a buffer, by its index.
    pub fn len(&self, at: usize) -> usize {
        match self.bytes.get(at) {
            Some(lent) => lent.slice().len(),
            None if at == ROWS => self.rows.slice().len(),
            None => self.fields.slice().len(),
        }
    }

    /// What is in a buffer, by its index among the lengths; of rows all numbers, one row after the other.
    pub fn items(&self, at: usize) -> Vec<u32> {
        match self.bytes.get(at) {
            Some(lent) => lent.slice().iter().map(|&byte| byte.into()).collect(),
            None if at == ROWS => self.rows.slice().iter().flat_map(rows::numbers).collect(),
            None => self.fields.slice().to_vec(),
        }
    }

    /// Another item, where the buffer is long enough.
    pub fn put_item(&mut self, buffer: usize, at: usize, value: u32) {
        let byte = self
            .bytes
            .get_mut(buffer)
            .map(|lent| lent.slice_mut().get_mut(at));
        match byte {
            Some(byte) => byte.into_iter().for_each(|to| *to = value as u8),
            None if buffer == ROWS => rows::put_number(self.rows.slice_mut(), at, value),
            None => self
                .fields
                .slice_mut()
                .iter_mut()
                .skip(at)
                .take(1)
                .for_each(|to| *to = value),
        }
    }

    pub fn on(&self, side: &Side) -> Answer {
        let after = self.clone();
        let mut answer = Answer { number: 0, after };
        answer.run(side);
        answer
    }

    /// The same in the memory of an answer to a call with the same lengths.
    pub fn on_again(&self, side: &Side, answer: &mut Answer) {
        let after = &mut answer.after;
        (after.numbers, after.decision) = (self.numbers, self.decision);
        for (lent, from) in after.bytes.iter_mut().zip(&self.bytes) {
            lent.restore(from);
        }
        after.fields.restore(&self.fields);
        after.rows.restore(&self.rows);
        answer.run(side);
    }

    fn run(&mut self, side: &Side) -> u32 {
        let [log, image, message, out] = &mut self.bytes;
        let (log, image, message, out) = (
            log.slice_mut(),
            image.slice_mut(),
            message.slice_mut(),
            out.slice_mut(),
        );
        let (fields, rows) = (self.fields.slice_mut(), self.rows.slice_mut());
        let [engine, n, unit, entry, mileage] = self.numbers;
        match self.entry {
            Entry::CardStart => (side.card_start)(engine, n, unit, rows, entry),
            Entry::CardKeyOn => (side.card_key_on)(engine, n, unit, rows, entry),
            Entry::CardPropose => (side.card_propose)(engine, n, unit, rows, entry, mileage, out),
            Entry::CardDeliver => {
                (side.card_deliver)(engine, n, unit, rows, message, out, &mut self.decision[1])
            }
            Entry::Start => (side.start)(engine, n, unit, entry, log, image),
            Entry::KeyOn => (side.key_on)(log, image),
            Entry::Propose => (side.propose)(log, image, engine, out),
            Entry::Deliver => (side.deliver)(log, image, message, out, &mut self.decision[1]),
            Entry::ReadLog => (side.read_log)(log, fields),
            Entry::WriteLog => (side.write_log)(fields, log),
            Entry::ReadMessage => (side.read_message)(message, fields),
            Entry::WriteMessage => (side.write_message)(fields, message),
        }
    }

    /// What a refusal leaves: everything as it was, but zeros in the output buffer of right length, and no decision.
    pub fn refused(&self) -> Call {
        let mut left = self.clone();
        if let Some(at) = self.entry.zeroed() {
            if self.bytes[at].slice().len() == MESSAGE_LENGTH {
                left.bytes[at].slice_mut().fill(0);
            }
        }
        if matches!(self.entry, Entry::Deliver | Entry::CardDeliver) {
            left.decision[1] = BLANK;
        }
        left
    }

    /// The place of the row that a call on a card is about: that of the number given, or of the message's entry.
    pub fn place(&self) -> Option<usize> {
        let number = match self.entry {
            Entry::CardStart | Entry::CardKeyOn | Entry::CardPropose => self.numbers[3],
            Entry::CardDeliver if self.len(MESSAGE) == MESSAGE_LENGTH => {
                get(self.bytes[MESSAGE].slice(), MESSAGE_ENTRY)
            }
            _ => return None,
        };
        let place = (number as usize).checked_sub(1);
        place.filter(|&place| place < self.len(ROWS))
    }

    /// Whether every row but the call's own is the same in the other call.
    pub fn has_other_rows_of(&self, other: &Call) -> bool {
        let own = self.place();
        let both = self.rows.slice().iter().zip(other.rows.slice());
        self.len(ROWS) == other.len(ROWS)
            && both
                .enumerate()
                .all(|(at, (one, two))| Some(at) == own || one == two)
    }

    /// Whether log, image and rows are the same in the other call.
    pub fn has_unit_of(&self, other: &Call) -> bool {
        [LOG, IMAGE]
            .iter()
            .all(|&at| self.bytes[at] == other.bytes[at])
            && self.rows == other.rows
    }

    pub fn decided(&self) -> Option<u32> {
        Some(self.decision[1]).filter(|&decision| decision != BLANK)
    }
}
