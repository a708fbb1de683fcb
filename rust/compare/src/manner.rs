//! Events at random: messages lost, copied, delayed and out of order, cuts, key-offs, proposals, calls with arbitrary buffers.

use crate::format::{
    get, BLANK, EVERYONE, MAX_ENTRY, MAX_MILEAGE, MIN_ENTRY, MIN_UNITS, RECEIVER, SENDER, SPLIT,
};
use crate::history::{Run, Tally};
use crate::random::Random;
use crate::trouble::Trouble;
use crate::world::{Sent, Setting, What};

/// How a history goes, each in a hundred: messages lost, lost between two groups, out of order, cuts, key-offs, proposals, strays.
pub struct Manner {
    lost: u32,
    apart: u32,
    group: u32,
    disorder: u32,
    pub cut: u32,
    pub off: u32,
    pub propose: u32,
    pub stray: u32,
    /// One in so many units that hear nothing new proposes again.
    pub patience: u32,
    pub mileages: [u32; 3],
    /// The message that each unit hears next, where it hears them in order.
    next: Vec<usize>,
}

impl Manner {
    /// With mileages up to the greatest.
    pub fn new(n: u32, greatest: u32, random: &mut Random) -> Manner {
        Manner {
            lost: random.one_of(&[0, 0, 5, 20]),
            apart: random.one_of(&[0, 0, 60, 90]),
            group: random.below(65536),
            disorder: random.one_of(&[0, 10, 50, 100]),
            cut: random.one_of(&[0, 1, 3, 10]),
            off: random.one_of(&[0, 0, 1, 5]),
            propose: random.one_of(&[1, 4, 10]),
            stray: random.one_of(&[0, 0, 2, 10]),
            patience: random.one_of(&[2, 5, 20]),
            mileages: std::array::from_fn(|_| random.between(0, greatest)),
            next: vec![0; n as usize],
        }
    }

    /// Whether a message does not reach a unit this time. A SKIP seldom reaches another unit than its receiver.
    fn is_lost(&self, sent: &[Sent], unit: u32, number: usize, random: &mut Random) -> bool {
        let message = &sent[number].bytes;
        let (sender, receiver) = (get(message, SENDER), get(message, RECEIVER));
        let apart = (self.group >> unit & 1) != (self.group >> sender & 1);
        let astray = receiver != EVERYONE && receiver != unit;
        random.chance(self.lost, 100)
            || (apart && random.chance(self.apart, 100))
            || (astray && random.chance(9, 10))
    }

    /// The next message for a unit: the next in order, or any, late or again; or the number of one not yet sent.
    pub fn next_message(&mut self, sent: &[Sent], unit: u32, random: &mut Random) -> usize {
        let count = sent.len();
        if random.chance(self.disorder, 100) {
            let recent = count.min(12) as u32;
            let any = if recent > 0 && random.chance(2, 3) {
                count - 1 - random.below(recent) as usize
            } else {
                random.index(count + 1)
            };
            return if any < count && !self.is_lost(sent, unit, any, random) {
                any
            } else {
                count
            };
        }
        let mut next = self.next[unit as usize];
        while next < count && self.is_lost(sent, unit, next, random) {
            next += 1;
        }
        self.next[unit as usize] = count.min(next + 1);
        next
    }

    fn event(
        &mut self,
        run: &mut Run,
        random: &mut Random,
        tally: &mut Tally,
    ) -> Result<(), Trouble> {
        let unit = random.below(run.setting.n);
        let choice = random.below(100);
        if !run.world.units[unit as usize].up && random.chance(1, 3) {
            self.key_on(run, unit, random, tally)
        } else if choice < self.propose {
            let mileage = self.some_mileage(random);
            run.step(unit, What::Propose(mileage), tally).map(drop)
        } else if choice < self.propose + self.off {
            run.step(unit, What::KeyOff, tally).map(drop)
        } else if choice < self.propose + self.off + self.stray {
            run.step(unit, What::Stray(random.number()), tally)
                .map(drop)
        } else {
            self.hear(run, unit, random, tally)
        }
    }

    /// One of the mileages, seldom one that is out of range.
    pub fn some_mileage(&self, random: &mut Random) -> u32 {
        let wrong = random.one_of(&[MAX_MILEAGE + 1, SPLIT, BLANK]);
        if random.chance(1, 50) {
            wrong
        } else {
            random.one_of(&self.mileages)
        }
    }

    /// After a key-on messages may come again.
    pub fn rewind(&mut self, unit: u32, sent: usize, random: &mut Random) {
        if random.chance(1, 2) {
            self.next[unit as usize] = random.index(sent + 1);
        }
    }

    fn key_on(
        &mut self,
        run: &mut Run,
        unit: u32,
        random: &mut Random,
        tally: &mut Tally,
    ) -> Result<(), Trouble> {
        run.step(unit, What::KeyOn, tally)?;
        self.rewind(unit, run.world.sent.len(), random);
        Ok(())
    }

    fn hear(
        &mut self,
        run: &mut Run,
        unit: u32,
        random: &mut Random,
        tally: &mut Tally,
    ) -> Result<(), Trouble> {
        let by = run
            .world
            .name_of(self.next_message(&run.world.sent, unit, random));
        let cut = random.chance(self.cut, 100);
        let called = run.step(
            unit,
            if cut {
                What::Cut(by)
            } else {
                What::Deliver(by)
            },
            tally,
        )?;
        if called.is_none() && random.chance(1, self.patience) {
            run.step(unit, What::Propose(self.mileages[unit as usize % 3]), tally)?;
        }
        Ok(())
    }
}

/// Up to three proposals, then events at random.
pub fn play(
    run: &mut Run,
    events: u32,
    greatest: u32,
    random: &mut Random,
    tally: &mut Tally,
) -> Result<(), Trouble> {
    let mut manner = Manner::new(run.setting.n, greatest, random);
    for unit in random.below(4)..3 {
        run.step(unit, What::Propose(manner.mileages[unit as usize]), tally)?;
    }
    for _ in 0..events {
        manner.event(run, random, tally)?;
    }
    Ok(())
}

pub fn random_setting(random: &mut Random) -> Setting {
    let sizes = random.one_of(&[4, 14]);
    let n = MIN_UNITS + random.below(sizes);
    Setting {
        engine: random.one_of(b"BR"),
        n,
        entry: random.between(MIN_ENTRY, MAX_ENTRY),
        rounds: Vec::new(),
    }
}
