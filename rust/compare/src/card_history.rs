//! A history of cards being played: both sides go in step, and demand 3 is asked of each entry, and the votes sent, after every event.

use crate::card_tally::CardTally;
use crate::card_world::{Event, Setting, What, World};
use crate::demand3::Demand3;
use crate::format::{ACCEPTED, MAX_ROWS};
use crate::side::Pair;
use crate::trouble::{agreed, Trouble};
use crate::unit_card::Stage;
use crate::votes::Votes;
use crate::world::Done;

pub struct CardRun<'a> {
    pair: &'a Pair,
    pub setting: Setting,
    pub world: World,
    /// One for each entry that a card can have.
    demands: Vec<Demand3>,
    votes: Votes,
    pub events: Vec<Event>,
}

impl<'a> CardRun<'a> {
    pub fn new(pair: &'a Pair, setting: &Setting) -> CardRun<'a> {
        CardRun {
            pair,
            setting: setting.clone(),
            world: World::new(setting),
            demands: (0..MAX_ROWS).map(|_| Demand3::default()).collect(),
            votes: Votes::default(),
            events: Vec::new(),
        }
    }

    /// The next event; says the number of its call, if it made one.
    pub fn step(
        &mut self,
        unit: u32,
        what: What,
        tally: &mut CardTally,
    ) -> Result<Option<u32>, Trouble> {
        let id = self.events.len();
        self.step_event(Event { id, unit, what }, tally)
    }

    /// An event that has its name already.
    pub fn step_event(
        &mut self,
        event: Event,
        tally: &mut CardTally,
    ) -> Result<Option<u32>, Trouble> {
        self.events.push(event);
        let entry = self.world.entry(&event);
        let stage = entry.and_then(|entry| self.world.cards[event.unit as usize].stage(entry));
        let call = self.world.call(&event);
        let answer = call.as_ref().map(|call| agreed(self.pair, call));
        let answer = answer.transpose()?;
        let done = self.world.apply(&event, answer.as_ref());
        let number = answer.as_ref().map(|answer| answer.number);
        tally.unready += u64::from(number.is_some() && !done.taken && stage == Some(Stage::New));
        self.count(&event, number, &done, tally);
        self.demand(entry, &done)
            .map_err(|claim| Trouble::Claim(claim, None))?;
        if let (What::Deliver(_) | What::Cut(_), true, Some(call), Some(answer)) =
            (event.what, done.taken, &call, &answer)
        {
            let cut = matches!(event.what, What::Cut(_));
            self.votes
                .after(cut, call, answer, &mut tally.of.again)
                .map_err(|claim| Trouble::Claim(claim, None))?;
        }
        Ok(number)
    }

    /// What the event brought about is of its entry; every entry is asked.
    fn demand(&mut self, entry: Option<u32>, done: &Done) -> Result<(), &'static str> {
        let most = self.setting.counts.iter().max().copied().unwrap_or(0);
        for (number, demand) in (1..=most).zip(&mut self.demands) {
            let done = if entry == Some(number) {
                *done
            } else {
                Done::default()
            };
            demand.after(&done, self.world.records(number))?;
        }
        Ok(())
    }

    fn count(&self, event: &Event, number: Option<u32>, done: &Done, tally: &mut CardTally) {
        let of = &mut tally.of;
        of.events += 1;
        if let Some(number) = number {
            of.calls += 1;
            of.numbers[number as usize] += 1;
        }
        let taken = u64::from(done.taken);
        match event.what {
            What::Start(_) => tally.starts += taken,
            What::Stray(_) => of.strays += u64::from(number != Some(ACCEPTED)),
            What::Cut(_) => of.cuts += taken,
            What::KeyOff(_) => of.key_offs += taken,
            What::KeyOn(_) => of.key_ons += taken,
            _ => {}
        }
        if let (Some(entry), Some((_, round))) = (self.world.entry(event), done.decided) {
            self.count_decision(event.unit as usize, entry, round, tally);
        }
    }

    fn count_decision(&self, unit: usize, entry: u32, round: u32, tally: &mut CardTally) {
        let of = &mut tally.of;
        let first = self.demands[entry as usize - 1].decided_round();
        of.decisions += 1;
        of.later += u64::from(first.is_some_and(|first| first != round));
        of.decided[usize::from(self.setting.engine == b'R')][self.setting.n as usize] +=
            u64::from(first.is_none());
        let cards = self.world.cards.iter().enumerate();
        let ahead = cards
            .filter(|&(at, _)| at != unit)
            .any(|(_, card)| card.round(entry) > round);
        of.moved_on += u64::from(ahead);
        of.greatest_round = of.greatest_round.max(round + 1);
    }

    /// The history as a whole, when it is over.
    pub fn count_whole(&self, tally: &mut CardTally) {
        let mut decided: Vec<u32> = self.demands.iter().filter_map(Demand3::decided).collect();
        decided.sort_unstable();
        decided.dedup();
        tally.of.histories += 1;
        tally.apart += u64::from(decided.len() > 1);
        tally.full += u64::from(self.setting.counts.contains(&MAX_ROWS));
    }
}
