//! Moves of a play that a careless hand makes.

use crate::format::{get, MAX_MILEAGE, RECEIVER};
use crate::listed::{one_of, BAD_LINES};
use crate::play::Play;

impl Play<'_> {
    /// A SKIP delivered to another unit than its receiver, if one was sent.
    fn misdirect(&mut self, letter: u8) {
        let skips: Vec<u32> = (0..self.kept())
            .filter(|&at| self.world.sent[at as usize].bytes[0] == b'K')
            .collect();
        if !skips.is_empty() {
            let message = self.random.one_of(&skips);
            let other = (get(&self.world.sent[message as usize].bytes, RECEIVER) + 1) % self.n();
            self.line(letter, other, message);
        }
    }

    /// A unit number that is too large: there is no such unit.
    fn slip_unit(&mut self) {
        let n = self.n();
        let unit = self
            .random
            .one_of(&[n, n + 1, 16, 255, 256, 65536, u32::MAX]);
        let letter = self.random.one_of(b"PDWKU") as char;
        let line = if self.random.chance(1, 2) {
            format!("{letter},{unit}")
        } else {
            format!("{letter},{unit},0")
        };
        self.text(line.as_bytes());
    }

    /// Something a careless hand would write.
    pub fn slip(&mut self) {
        let (unit, kept) = (self.unit(), self.kept());
        let letter = self.random.one_of(b"DDW");
        match self.random.below(9) {
            0 => {
                let beyond = kept + self.random.below(3) * self.random.below(200);
                self.line(letter, unit, beyond);
            }
            1 => {
                let key = self.random.one_of(b"KU");
                self.line(key, unit, 0);
            }
            2 => {
                let line = one_of(BAD_LINES, self.random);
                self.text(line);
            }
            3 => self.slip_unit(),
            4 | 5 => self.misdirect(letter),
            6 if kept > 0 => {
                let message = self.random.below(kept);
                self.line(letter, unit, message);
            }
            _ => {
                let number = self.random.one_of(&[
                    MAX_MILEAGE + 1,
                    MAX_MILEAGE + 2,
                    4_294_967_293,
                    4_294_967_294,
                    u32::MAX,
                    268_435_456,
                    2_147_483_648,
                ]);
                let letter = self.random.one_of(b"PDW");
                self.line(letter, unit, number);
            }
        }
    }

    /// A unit that is down is mostly keyed on, and sometimes used as if it were up.
    pub fn meet_down_unit(&mut self, unit: u32) {
        let kept = self.kept();
        match self.random.below(12) {
            0 => self.line(b'K', unit, 0),
            1 => self.propose_unheard(unit),
            2 => {
                let message = self.random.below(kept + 2);
                self.line(b'D', unit, message);
            }
            3..=6 => {}
            _ => self.line(b'U', unit, 0),
        }
    }
}
