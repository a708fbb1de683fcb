//! The entries, and what each is lent and given.

use crate::format::{IMAGE_LENGTH, LOG_FIELDS, LOG_LENGTH, MESSAGE_FIELDS, MESSAGE_LENGTH};

#[derive(Clone, Copy, PartialEq, Eq, Debug)]
pub enum Entry {
    Start,
    KeyOn,
    Propose,
    Deliver,
    ReadLog,
    WriteLog,
    ReadMessage,
    WriteMessage,
    CardStart,
    CardKeyOn,
    CardPropose,
    CardDeliver,
}

/// The entries of one unit.
pub const ENTRIES: [Entry; 8] = [
    Entry::Start,
    Entry::KeyOn,
    Entry::Propose,
    Entry::Deliver,
    Entry::ReadLog,
    Entry::WriteLog,
    Entry::ReadMessage,
    Entry::WriteMessage,
];

pub const CARD_ENTRIES: [Entry; 4] = [
    Entry::CardStart,
    Entry::CardKeyOn,
    Entry::CardPropose,
    Entry::CardDeliver,
];

/// The buffers of a call, by index: those of bytes, the fields, the rows of a card.
pub const LOG: usize = 0;
pub const IMAGE: usize = 1;
pub const MESSAGE: usize = 2;
pub const OUT: usize = 3;
pub const FIELDS: usize = 4;
pub const ROWS: usize = 5;

impl Entry {
    pub fn name(self) -> &'static str {
        [
            "start",
            "key_on",
            "propose",
            "deliver",
            "read_log",
            "write_log",
            "read_message",
            "write_message",
            "card_start",
            "card_key_on",
            "card_propose",
            "card_deliver",
        ][self as usize]
    }

    /// The right length of each buffer, of the rows the least; 0 where the entry has no such buffer.
    pub fn lengths(self) -> [usize; 6] {
        match self {
            Entry::Start | Entry::KeyOn => [LOG_LENGTH, IMAGE_LENGTH, 0, 0, 0, 0],
            Entry::Propose => [LOG_LENGTH, IMAGE_LENGTH, 0, MESSAGE_LENGTH, 0, 0],
            Entry::Deliver => [
                LOG_LENGTH,
                IMAGE_LENGTH,
                MESSAGE_LENGTH,
                MESSAGE_LENGTH,
                0,
                0,
            ],
            Entry::ReadLog | Entry::WriteLog => [LOG_LENGTH, 0, 0, 0, LOG_FIELDS, 0],
            Entry::ReadMessage | Entry::WriteMessage => {
                [0, 0, MESSAGE_LENGTH, 0, MESSAGE_FIELDS, 0]
            }
            Entry::CardStart | Entry::CardKeyOn => [0, 0, 0, 0, 0, 1],
            Entry::CardPropose => [0, 0, 0, MESSAGE_LENGTH, 0, 1],
            Entry::CardDeliver => [0, 0, MESSAGE_LENGTH, MESSAGE_LENGTH, 0, 1],
        }
    }

    /// The buffers it has, as indices of its lengths.
    pub fn buffers(self) -> Vec<usize> {
        let lengths = self.lengths();
        (0..lengths.len()).filter(|&at| lengths[at] > 0).collect()
    }

    /// How many numbers it is given.
    pub fn numbers(self) -> usize {
        match self {
            Entry::Start | Entry::CardStart | Entry::CardKeyOn => 4,
            Entry::Propose => 1,
            Entry::CardPropose => 5,
            Entry::CardDeliver => 3,
            _ => 0,
        }
    }

    /// The numbers that it may answer with.
    pub fn answers(self) -> &'static [u32] {
        match self {
            Entry::Start | Entry::KeyOn | Entry::ReadLog | Entry::WriteLog => &[0, 1, 2],
            Entry::Propose => &[0, 1, 2, 3, 6],
            Entry::Deliver => &[0, 1, 2, 3, 4, 5, 7],
            Entry::ReadMessage | Entry::WriteMessage => &[0, 1, 4],
            Entry::CardStart => &[0, 1, 2, 12],
            Entry::CardKeyOn => &[0, 1, 2, 3, 12],
            Entry::CardPropose => &[0, 1, 2, 3, 6, 12],
            Entry::CardDeliver => &[0, 1, 2, 3, 4, 5, 7, 12],
        }
    }

    /// The buffer that a refusal zeroes, if it has its right length.
    pub fn zeroed(self) -> Option<usize> {
        match self {
            Entry::Propose | Entry::Deliver | Entry::CardPropose | Entry::CardDeliver => Some(OUT),
            Entry::WriteMessage => Some(MESSAGE),
            _ => None,
        }
    }
}
