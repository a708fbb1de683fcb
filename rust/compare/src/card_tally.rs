//! What histories of cards reached.

use crate::format::{MALFORMED_LOG, NOT_FOR_UNIT, NO_ROW, UNFIT_IMAGE};
use crate::history::{in_words, missing, Tally};

/// `of`: what is counted of every history. `apart`: histories in which two entries decided different mileages. `full`: those with a card
/// of 64 rows. `unready`: calls on rows that were not started.
#[derive(Default)]
pub struct CardTally {
    pub of: Tally,
    pub starts: u64,
    pub apart: u64,
    pub full: u64,
    pub unready: u64,
}

impl CardTally {
    /// What was reached, in words; or what is missing.
    pub fn summary(&self) -> Result<String, String> {
        let counts = [
            ("starts", self.starts),
            ("histories with two mileages decided", self.apart),
            ("with a card of 64 rows", self.full),
            ("calls on rows not started", self.unready),
            ("calls without a row", self.of.numbers[NO_ROW as usize]),
            ("2", self.of.numbers[MALFORMED_LOG as usize]),
            ("3", self.of.numbers[UNFIT_IMAGE as usize]),
            ("5", self.of.numbers[NOT_FOR_UNIT as usize]),
        ];
        let missing = missing(&counts);
        if !missing.is_empty() {
            return Err(missing.join(", "));
        }
        let (of, cards) = (self.of.summary()?, in_words(&counts[..5]));
        Ok(format!("{of}; {cards}"))
    }
}
