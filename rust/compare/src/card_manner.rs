//! Events on cards at random: rows started at any time, entries in turn on one bus, keys of one row or of a whole bike.

use crate::card_history::CardRun;
use crate::card_tally::CardTally;
use crate::card_world::{Setting, What};
use crate::format::{MAX_MILEAGE, MAX_ROWS, MAX_UNITS, MIN_UNITS};
use crate::manner::Manner;
use crate::random::{greatest_mileage, Random};
use crate::trouble::Trouble;
use crate::unit_card::Stage;
use crate::world::name_of;

/// How a history goes: the bus and the keys as with one entry; the entries in use; and in a hundred, events of a row that is not started
/// which start it, and key-offs of the whole bike.
struct CardManner {
    bus: Manner,
    entries: Vec<u32>,
    start: u32,
    whole: u32,
}

type Played = Result<(), Trouble>;

impl CardManner {
    fn new(setting: &Setting, random: &mut Random) -> CardManner {
        let greatest = greatest_mileage(random);
        let most = setting.counts.iter().max().copied().unwrap_or(1);
        let mut entries: Vec<u32> = (0..random.one_of(&[1, 2, 2, 3, 4]))
            .map(|_| random.between(1, most))
            .collect();
        entries.sort_unstable();
        entries.dedup();
        CardManner {
            bus: Manner::new(setting.n, greatest, random),
            entries,
            start: random.one_of(&[5, 30, 100]),
            whole: random.one_of(&[0, 20, 100]),
        }
    }

    /// Each entry has mileages of its own.
    fn mileage(&self, mileage: u32, entry: u32) -> u32 {
        if mileage < MAX_MILEAGE - MAX_ROWS {
            mileage + entry
        } else {
            mileage
        }
    }

    fn event(&mut self, run: &mut CardRun, random: &mut Random, tally: &mut CardTally) -> Played {
        let unit = random.below(run.setting.n);
        let entry = random.one_of(&self.entries);
        let stage = run.world.cards[unit as usize].stage(entry);
        let choice = random.below(100);
        let Manner {
            propose,
            off,
            stray,
            ..
        } = self.bus;
        let mut step = |what| run.step(unit, what, tally).map(drop);
        match stage {
            Some(Stage::New) if random.chance(self.start, 100) => step(What::Start(entry)),
            Some(Stage::Down) if random.chance(1, 3) => {
                step(What::KeyOn(entry))?;
                self.bus.rewind(unit, run.world.sent.len(), random);
                Ok(())
            }
            _ if choice < propose => step(What::Propose(
                entry,
                self.mileage(self.bus.some_mileage(random), entry),
            )),
            _ if choice < propose + off && random.chance(self.whole, 100) => {
                let rows = self.entries.clone();
                rows.into_iter().try_for_each(|row| step(What::KeyOff(row)))
            }
            _ if choice < propose + off => step(What::KeyOff(entry)),
            _ if choice < propose + off + stray => step(What::Stray(random.number())),
            _ => self.hear(run, (unit, entry), random, tally),
        }
    }

    /// A unit that hears nothing new may propose again, for a row that is not there or not started too.
    fn hear(
        &mut self,
        run: &mut CardRun,
        (unit, entry): (u32, u32),
        random: &mut Random,
        tally: &mut CardTally,
    ) -> Played {
        let number = self.bus.next_message(&run.world.sent, unit, random);
        let by = name_of(&run.world.sent, number);
        let heard = random.either((self.bus.cut, 100), What::Cut(by), What::Deliver(by));
        let called = run.step(unit, heard, tally)?;
        if called.is_none() && random.chance(1, self.bus.patience) {
            let mileage = self.bus.mileages[unit as usize % 3];
            run.step(
                unit,
                What::Propose(entry, self.mileage(mileage, entry)),
                tally,
            )?;
        }
        Ok(())
    }
}

/// Most rows are started at once, or none; up to two proposals for each; then events at random.
pub fn play(run: &mut CardRun, random: &mut Random, tally: &mut CardTally) -> Played {
    let mut manner = CardManner::new(&run.setting, random);
    let (n, soon) = (run.setting.n, random.one_of(&[100, 90, 0]));
    for &entry in &manner.entries {
        for unit in (0..n).filter(|_| random.chance(soon, 100)) {
            run.step(unit, What::Start(entry), tally)?;
        }
        for _ in 0..random.below(3) {
            let mileage = manner.mileage(random.one_of(&manner.bus.mileages), entry);
            run.step(random.below(n), What::Propose(entry, mileage), tally)?;
        }
    }
    for _ in 0..n * manner.entries.len() as u32 * (10 + random.below(20 + 7 * n)) {
        manner.event(run, random, tally)?;
    }
    Ok(())
}

/// Mostly few units; cards that often differ in length.
pub fn random_setting(random: &mut Random) -> Setting {
    let (few, any) = (3 + random.below(3), random.between(MIN_UNITS, MAX_UNITS));
    let n = random.either((3, 4), few, any);
    let most = random.one_of(&[1, 2, 2, 3, 4, 4, 5, 7, 12, MAX_ROWS]);
    let mixed = random.chance(1, 3);
    let mut count = || {
        if mixed {
            random.between(1, most)
        } else {
            most
        }
    };
    let counts = (0..n).map(|_| count()).collect();
    let engine = random.one_of(b"BR");
    Setting { engine, n, counts }
}
