//! Longer moves of a play: rounds in stages, so that many split and later ones close, and probes of what units hold.

use crate::format::{get, EVERYONE, MESSAGE_ROUND, RECEIVER};
use crate::play::Play;

impl Play<'_> {
    /// Whether a unit does not hear what would only have it send a vote again.
    fn passes_over(&mut self, unit: u32, message: u32) -> bool {
        self.only_again(unit, message) && !self.in_thousand(self.again)
    }

    fn round_of(&self, unit: u32) -> u32 {
        self.world.units[unit as usize].round()
    }

    /// Every unit hears the messages of one kind in its round or above it, from any of them on, a few excepted.
    fn stage(&mut self, kind: u8) {
        let (n, kept, start) = (self.n(), self.kept(), self.unit());
        for i in 0..n * kept {
            let (unit, message) = (
                (start + i / kept) % n,
                (i + 7 * ((start + i / kept) % n) + start) % kept,
            );
            let sent = self.world.sent[message as usize].bytes;
            let misses = self.is_down(unit)
                || self.heard[unit as usize][message as usize]
                || unit == self.deaf;
            let late = get(&sent, MESSAGE_ROUND) < self.round_of(unit);
            let hears = if late {
                self.random.chance(1, 50)
            } else {
                self.random.chance(11, 12)
            };
            if sent[0] == kind && !misses && hears && !self.passes_over(unit, message) {
                let letter = if self.in_thousand(self.cuts / 2) {
                    b'W'
                } else {
                    b'D'
                };
                self.line(letter, unit, message);
            }
        }
    }

    /// Units that are down are keyed on, each with that chance in a thousand.
    pub fn wake_up(&mut self, chance: u32) {
        for unit in 0..self.n() {
            if self.is_down(unit) && self.in_thousand(chance) {
                self.line(b'U', unit, 0);
            }
        }
    }

    pub fn rounds(&mut self, count: u32) {
        for _ in 0..count {
            for _ in 0..self.random.below(4) {
                let unit = self.unit();
                self.propose_new(unit);
            }
            for kind in *b"FCSK" {
                self.stage(kind);
                self.wake_up(500);
            }
            let unit = self.unit();
            self.propose_new(unit);
        }
    }

    /// Some unit, often of the highest round.
    pub fn ahead(&mut self) -> u32 {
        let mut found = self.unit();
        for unit in 0..self.n() {
            if self.round_of(unit) > self.round_of(found) && self.random.chance(3, 4) {
                found = unit;
            }
        }
        found
    }

    /// Some unit, often one that now hears of a round above its own.
    pub fn raised(&mut self) -> u32 {
        for i in 0..self.n() * self.kept() {
            let (unit, message) = (i % self.n(), self.random.below(self.kept()));
            let sent = self.world.sent[message as usize].bytes;
            if get(&sent, MESSAGE_ROUND) > self.round_of(unit)
                && (sent[0] == b'S' || get(&sent, RECEIVER) == unit)
            {
                self.line(b'D', unit, message);
                return unit;
            }
        }
        self.ahead()
    }

    /// A unit proposes, and all hear it and what follows, so that its proposal shows in a decision.
    pub fn probe(&mut self, proposer: u32) {
        let mut message = self.kept();
        self.propose_new(proposer);
        while message < self.kept() {
            for unit in 0..self.n() {
                let everyone = get(&self.world.sent[message as usize].bytes, RECEIVER) == EVERYONE;
                if everyone && !self.passes_over(unit, message) {
                    self.line(b'D', unit, message);
                }
            }
            message += 1;
        }
    }
}
