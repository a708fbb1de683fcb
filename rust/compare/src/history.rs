//! A history being played: both sides go in step, and demand 3 and the votes sent are asked after every event.

use crate::call::{IMAGE, LOG};
use crate::demand3::Demand3;
use crate::format::{ACCEPTED, LAST_ROUND, MAX_UNITS, MIN_UNITS, NO_ROW};
use crate::side::Pair;
use crate::trouble::{agreed, Trouble};
use crate::votes::{Again, Votes};
use crate::world::{first_calls, Done, Event, Setting, What, World};

/// What histories reached. `moved_on`: decisions while another unit was in a later round. `later`: decisions in another round than the
/// lowest decided.
#[derive(Default)]
pub struct Tally {
    pub histories: u64,
    pub events: u64,
    pub calls: u64,
    pub numbers: [u64; NO_ROW as usize + 1],
    pub strays: u64,
    pub cuts: u64,
    pub key_offs: u64,
    pub key_ons: u64,
    pub decisions: u64,
    pub moved_on: u64,
    pub later: u64,
    pub greatest_round: u32,
    pub decided: [[u64; 17]; 2],
    pub again: Again,
}

impl Tally {
    /// How often calls for one unit answered with each number.
    pub fn unit_numbers(&self) -> &[u64] {
        &self.numbers[..=LAST_ROUND as usize]
    }

    /// What was reached, in words; or what is missing.
    pub fn summary(&self) -> Result<String, String> {
        let mut counts = vec![
            ("decisions", self.decisions),
            ("decisions after another unit moved on", self.moved_on),
            ("decisions in a later round", self.later),
            ("cuts", self.cuts),
            ("key-offs", self.key_offs),
            ("key-ons", self.key_ons),
            ("refused calls with arbitrary buffers", self.strays),
        ];
        counts.extend(self.again.counts());
        let words = in_words(&counts);
        counts.push(("round 2", u64::from(self.greatest_round > 1)));
        let mut missing = missing(&counts);
        for n in MIN_UNITS as usize..=MAX_UNITS as usize {
            for (engine, counts) in ["B", "R"].iter().zip(&self.decided) {
                if counts[n] == 0 {
                    missing.push(format!("a decision in {engine} with n = {n}"));
                }
            }
        }
        if !missing.is_empty() {
            return Err(missing.join(", "));
        }
        let (decided, round) = (
            self.decided.iter().flatten().sum::<u64>(),
            self.greatest_round,
        );
        Ok(format!(
            "{} histories, {decided} decide; {} events, {} calls, numbers 0 to 7: {:?}; greatest round {round}; {words}",
            self.histories,
            self.events,
            self.calls,
            self.unit_numbers()
        ))
    }
}

/// What was never counted.
pub fn missing(counts: &[(&str, u64)]) -> Vec<String> {
    let none = counts.iter().filter(|(_, count)| *count == 0);
    none.map(|(what, _)| what.to_string()).collect()
}

pub fn in_words(counts: &[(&str, u64)]) -> String {
    let words = counts.iter().map(|(what, count)| format!("{what} {count}"));
    words.collect::<Vec<_>>().join(", ")
}

/// A history being played.
pub struct Run<'a> {
    pair: &'a Pair,
    pub setting: Setting,
    pub world: World,
    demand: Option<Demand3>,
    votes: Votes,
    pub events: Vec<Event>,
}

impl<'a> Run<'a> {
    /// All units begun. Demand 3 is asked where they begin alike.
    pub fn new(pair: &'a Pair, setting: &Setting, tally: &mut Tally) -> Result<Run<'a>, Trouble> {
        let mut world = World::empty(usize::MAX);
        for unit in 0..setting.n {
            let mut log = Vec::new();
            for mut call in first_calls(setting, unit) {
                call.bytes[LOG].put(&log);
                let answer = agreed(pair, &call)?;
                tally.calls += 1;
                log = answer.after.bytes[LOG].slice().to_vec();
                if answer.after.bytes[IMAGE].is_lent() {
                    world.begin_unit(&log, answer.after.bytes[IMAGE].slice());
                }
            }
        }
        tally.histories += 1;
        let alike = setting.rounds.windows(2).all(|pair| pair[0] == pair[1]);
        let demand = alike.then(Demand3::default);
        Ok(Run {
            pair,
            setting: setting.clone(),
            world,
            demand,
            votes: Votes::default(),
            events: Vec::new(),
        })
    }

    /// The next event; says the number of its call, if it made one.
    pub fn step(
        &mut self,
        unit: u32,
        what: What,
        tally: &mut Tally,
    ) -> Result<Option<u32>, Trouble> {
        self.step_event(
            Event {
                id: self.events.len(),
                unit,
                what,
            },
            tally,
        )
    }

    /// An event that has its name already.
    pub fn step_event(&mut self, event: Event, tally: &mut Tally) -> Result<Option<u32>, Trouble> {
        self.events.push(event);
        tally.events += 1;
        let call = self.world.call(&event);
        let answer = call.as_ref().map(|call| agreed(self.pair, call));
        let answer = answer.transpose()?;
        let done = self.world.apply(&event, answer.as_ref());
        let number = answer.as_ref().map(|answer| answer.number);
        self.count(&event, number, &done, tally);
        if let Some(demand) = &mut self.demand {
            demand
                .after(&done, self.world.records())
                .map_err(|claim| Trouble::Claim(claim, None))?;
        }
        if let (What::Deliver(_) | What::Cut(_), true, Some(call), Some(answer)) =
            (event.what, done.taken, &call, &answer)
        {
            let cut = matches!(event.what, What::Cut(_));
            self.votes
                .after(cut, call, answer, &mut tally.again)
                .map_err(|claim| Trouble::Claim(claim, None))?;
        }
        Ok(number)
    }

    fn count(&self, event: &Event, number: Option<u32>, done: &Done, tally: &mut Tally) {
        if let Some(number) = number {
            tally.calls += 1;
            tally.numbers[number as usize] += 1;
        }
        match event.what {
            What::Stray(_) => tally.strays += u64::from(number != Some(ACCEPTED)),
            What::Cut(_) => tally.cuts += u64::from(done.taken),
            What::KeyOff => tally.key_offs += u64::from(done.taken),
            What::KeyOn => tally.key_ons += u64::from(done.taken),
            _ => {}
        }
        if let Some((_, round)) = done.decided {
            self.count_decision(event.unit as usize, round, tally);
        }
        let greatest = self.world.units.iter().map(|unit| unit.round()).max();
        tally.greatest_round = tally.greatest_round.max(greatest.unwrap_or(0));
    }

    fn count_decision(&self, unit: usize, round: u32, tally: &mut Tally) {
        let first = self.demand.as_ref().and_then(Demand3::decided_round);
        tally.decisions += 1;
        tally.later += u64::from(first.is_some_and(|first| first != round));
        tally.decided[usize::from(self.setting.engine == b'R')][self.setting.n as usize] +=
            u64::from(first.is_none());
        let others = self
            .world
            .units
            .iter()
            .enumerate()
            .filter(|&(at, _)| at != unit);
        tally.moved_on += u64::from(others.into_iter().any(|(_, other)| other.round() > round));
    }
}
