//! The cards of all units of one history and the messages sent, and what an event asks of them, entry by entry.

use crate::call::{Answer, Call, Entry, CARD_ENTRIES, MESSAGE, OUT, ROWS};
use crate::card_damage::damage;
use crate::card_generate::lend;
use crate::format::{get, ACCEPTED, MESSAGE_ENTRY, MESSAGE_LENGTH, MESSAGE_ROUND};
use crate::random::Random;
use crate::unit_card::{Card, Stage};
use crate::world::{self, number_of, Done, Sent};

/// How a history begins: every unit's card has its own count of rows, and each row holds something or other.
#[derive(Clone, Debug)]
pub struct Setting {
    pub engine: u8,
    pub n: u32,
    pub counts: Vec<u32>,
}

/// What happens to a unit: row numbers, mileages, and messages by the event that sent them.
#[derive(Clone, Copy, Debug)]
pub enum What {
    Start(u32),
    Propose(u32, u32),
    Deliver(usize),
    Cut(usize),
    KeyOff(u32),
    KeyOn(u32),
    /// A call on a damaged copy of the card, made from this seed. Refused, it is an event; accepted, it is none and did not happen.
    Stray(u64),
}

pub type Event = world::Event<What>;

#[derive(Clone)]
pub struct World {
    engine: u32,
    n: u32,
    pub cards: Vec<Card>,
    pub sent: Vec<Sent>,
}

impl World {
    /// No row is started.
    pub fn new(setting: &Setting) -> World {
        let (engine, n) = (setting.engine.into(), setting.n);
        let card = |(unit, &count)| Card::new([engine, n, unit], count);
        World {
            engine,
            n,
            cards: (0..).zip(&setting.counts).map(card).collect(),
            sent: Vec::new(),
        }
    }

    fn message(&self, by: usize) -> Option<&[u8; MESSAGE_LENGTH]> {
        number_of(&self.sent, by).map(|number| &self.sent[number].bytes)
    }

    /// The row, and so the entry, that an event is about.
    pub fn entry(&self, event: &Event) -> Option<u32> {
        match event.what {
            What::Start(row) | What::Propose(row, _) | What::KeyOff(row) | What::KeyOn(row) => {
                Some(row)
            }
            What::Deliver(by) | What::Cut(by) => {
                self.message(by).map(|message| get(message, MESSAGE_ENTRY))
            }
            What::Stray(_) => None,
        }
    }

    /// The call that an event makes, if it makes one. A row that is not up is called all the same if it was never started, or is not
    /// there.
    pub fn call(&self, event: &Event) -> Option<Call> {
        let card = &self.cards[event.unit as usize];
        if let What::Stray(seed) = event.what {
            return Some(self.stray(event.unit, seed));
        }
        let row = self.entry(event)?;
        let (mut entry, mut mileage, mut message) = (Entry::CardDeliver, 0, None);
        match (event.what, card.stage(row)) {
            (What::Start(_), Some(Stage::New) | None) => entry = Entry::CardStart,
            (What::KeyOn(_), Some(Stage::Down) | None) => entry = Entry::CardKeyOn,
            (What::Propose(_, given), stage) if stage != Some(Stage::Down) => {
                (entry, mileage) = (Entry::CardPropose, given)
            }
            (What::Deliver(by) | What::Cut(by), stage) if stage != Some(Stage::Down) => {
                message = self.message(by)
            }
            _ => return None,
        }
        let mut call = self.lend(entry, event.unit, (event.id * 37 % 256) as u8);
        call.numbers[3..].copy_from_slice(&[row, mileage]);
        if let Some(message) = message {
            call.bytes[MESSAGE].put(message);
        }
        Some(call)
    }

    fn lend(&self, entry: Entry, unit: u32, filler: u8) -> Call {
        let mut call = lend(entry, &self.cards[unit as usize].rows, 1, filler);
        call.numbers[..3].copy_from_slice(&[self.engine, self.n, unit]);
        call
    }

    fn stray(&self, unit: u32, seed: u64) -> Call {
        let random = &mut Random::new(seed);
        let entry = random.one_of(&CARD_ENTRIES);
        let mut call = self.lend(entry, unit, random.byte());
        call.numbers[3] = 1 + random.index(call.len(ROWS)) as u32;
        if !self.sent.is_empty() {
            call.bytes[MESSAGE].put(&self.sent[random.index(self.sent.len())].bytes);
        }
        for _ in 0..1 + random.below(3) {
            damage(&mut call, random);
        }
        call
    }

    /// Takes over what an event's call answered. An event without a call is a key-off, or leaves everything as it was; so does a call on
    /// a row that does not stand as it must.
    pub fn apply(&mut self, event: &Event, answer: Option<&Answer>) -> Done {
        let none = Done::default();
        let Some(row) = self.entry(event) else {
            return none;
        };
        let card = &mut self.cards[event.unit as usize];
        let (Some(stage), Some(answer)) = (card.stage(row), answer) else {
            let taken = matches!(event.what, What::KeyOff(_)) && card.stage(row) == Some(Stage::Up);
            if taken {
                card.lose_image(row, event.id);
            }
            return Done { taken, ..none };
        };
        let stands = match event.what {
            What::Start(_) => stage == Stage::New,
            What::KeyOn(_) => stage == Stage::Down,
            _ => stage == Stage::Up,
        };
        if !stands || answer.number != ACCEPTED {
            return none;
        }
        card.rows.copy_from_slice(answer.after.rows.slice());
        card.put_stage(row, Stage::Up);
        match event.what {
            What::Cut(_) => card.lose_image(row, event.id),
            _ => self.keep(event, answer.after.bytes[OUT].slice()),
        }
        done(event, &answer.after)
    }

    /// What was sent, unless it is nothing.
    fn keep(&mut self, event: &Event, out: &[u8]) {
        if out.iter().any(|&byte| byte != 0)
            && matches!(event.what, What::Propose(..) | What::Deliver(_))
        {
            let bytes = out.try_into().expect("a message");
            self.sent.push(Sent {
                by: event.id,
                bytes,
            });
        }
    }

    /// Round and proposal of every log of an entry, and of its image where it is up.
    pub fn records(&self, entry: u32) -> impl Iterator<Item = (u32, u32)> + '_ {
        self.cards
            .iter()
            .flat_map(move |card| card.contents(entry))
            .map(|contents| (contents.round, contents.proposal))
    }
}

fn done(event: &Event, after: &Call) -> Done {
    let round = || get(after.bytes[MESSAGE].slice(), MESSAGE_ROUND);
    let (mut proposed, mut decided) = (None, None);
    match event.what {
        What::Propose(_, mileage) => proposed = Some(mileage),
        What::Deliver(_) => decided = after.decided().map(|mileage| (mileage, round())),
        _ => {}
    }
    Done {
        taken: true,
        proposed,
        decided,
    }
}
