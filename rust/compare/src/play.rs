//! Scripts that mean something, made by playing them along: which messages there are, who is down, who heard what.

use crate::call::{IMAGE, LOG};
use crate::format::{get, BLANK, EVERYONE, MAX_ENTRY, MAX_MILEAGE, MIN_ENTRY};
use crate::format::{FIRST_ESTIMATE, MESSAGE_ROUND, RECEIVER, ROUND, SECOND_ESTIMATE};
use crate::random::Random;
use crate::side::INDEPENDENT;
use crate::votes::is_again;
use crate::world::{first_calls, Event, Setting, What, World};

/// Message places on the bench.
pub const PLACES: usize = 128;

/// What a script does: decisions in a round above 0; votes sent again, those cut, and those refused as all places are full.
#[derive(Default, Clone, Copy)]
pub struct Seen {
    pub later: u64,
    pub again: u64,
    pub cut: u64,
    pub crowded: u64,
}

impl Seen {
    pub fn add(&mut self, other: &Seen) {
        self.later += other.later;
        self.again += other.again;
        self.cut += other.cut;
        self.crowded += other.crowded;
    }
}

/// A script being made and the bench as it leaves it; what each unit heard; how often things happen, in a thousand.
pub struct Play<'a> {
    pub random: &'a mut Random,
    pub text: Vec<u8>,
    pub world: World,
    pub heard: Vec<[bool; PLACES]>,
    lines: usize,
    pub most_lines: usize,
    greatest: u32,
    mileages: [u32; 3],
    pub in_order: u32,
    pub keys: u32,
    pub cuts: u32,
    pub proposals: u32,
    pub slips: u32,
    /// How often a unit hears what only has it send a vote again.
    pub again: u32,
    /// A unit that hears nothing in stages; n for none.
    pub deaf: u32,
    pub seen: Seen,
}

fn new_mileage(greatest: u32, random: &mut Random) -> u32 {
    match random.below(3) {
        0 => random.below(greatest + 1),
        _ => random.one_of(&[0, 1, 5, 412_077, greatest]),
    }
}

fn begun(setting: &Setting) -> World {
    let mut world = World::empty(PLACES);
    for unit in 0..setting.n {
        for call in first_calls(setting, unit) {
            let after = call.on(&INDEPENDENT).after;
            world.begin_unit(after.bytes[LOG].slice(), after.bytes[IMAGE].slice());
        }
    }
    world
}

impl<'a> Play<'a> {
    /// A header, and one to three proposals, of mileages up to the greatest. From calm and in order, which decides, to wild.
    pub fn begin(n: u32, greatest: u32, random: &'a mut Random) -> Play<'a> {
        let header = random.one_of(&["B", "R", "R", ""]);
        let any_entry = random.between(MIN_ENTRY, MAX_ENTRY);
        let setting = Setting {
            engine: *header.as_bytes().first().unwrap_or(&b'B'),
            n,
            entry: any_entry,
            rounds: Vec::new(),
        };
        let first = new_mileage(greatest, random);
        let mut mileages = [first; 3];
        for mileage in &mut mileages[1..] {
            *mileage = if random.chance(1, 2) {
                first
            } else {
                new_mileage(greatest, random)
            };
        }
        let mut play = Play {
            text: format!("{header},{n},{any_entry}\n").into_bytes(),
            world: begun(&setting),
            heard: vec![[false; PLACES]; n as usize],
            lines: 0,
            most_lines: usize::MAX,
            greatest,
            mileages,
            in_order: random.one_of(&[1000, 1000, 900, 600, 200, 0]),
            keys: random.one_of(&[0, 0, 10, 30]),
            cuts: random.one_of(&[0, 0, 20, 80]),
            proposals: random.one_of(&[0, 5, 20, 60]),
            slips: random.one_of(&[0, 20, 20, 150]),
            again: random.one_of(&[1000, 1000, 200, 0]),
            deaf: n,
            seen: Seen::default(),
            random,
        };
        for _ in 0..1 + play.random.below(3) {
            play.propose_some();
        }
        play
    }

    pub fn n(&self) -> u32 {
        self.world.units.len() as u32
    }

    pub fn kept(&self) -> u32 {
        self.world.sent.len() as u32
    }

    pub fn unit(&mut self) -> u32 {
        let n = self.n();
        self.random.below(n)
    }

    pub fn is_down(&self, unit: u32) -> bool {
        !self.world.units[unit as usize].up
    }

    pub fn in_thousand(&mut self, times: u32) -> bool {
        self.random.chance(times, 1000)
    }

    /// Adds a line that the bench does not take for an event.
    pub fn text(&mut self, line: &[u8]) {
        if self.lines < self.most_lines {
            self.lines += 1;
            self.text.extend_from_slice(line);
            self.text.push(b'\n');
        }
    }

    /// Adds a line and plays it along.
    pub fn line(&mut self, letter: u8, unit: u32, operand: u32) {
        if self.lines >= self.most_lines {
            return;
        }
        let by = self.world.name_of(operand as usize);
        let what = match letter {
            b'P' => What::Propose(operand),
            b'D' => What::Deliver(by),
            b'W' => What::Cut(by),
            b'K' => What::KeyOff,
            _ => What::KeyOn,
        };
        let text = match letter {
            b'K' | b'U' => format!("{},{unit}", letter as char),
            _ => format!("{},{unit},{operand}", letter as char),
        };
        self.text(text.as_bytes());
        let event = Event {
            id: self.lines,
            unit,
            what,
        };
        let call = self.world.call(&event);
        let answer = call.as_ref().map(|call| call.on(&INDEPENDENT));
        let done = self.world.apply(&event, answer.as_ref());
        self.seen.later += u64::from(done.decided.is_some_and(|(_, round)| round > 0));
        let vote = call
            .zip(answer)
            .is_some_and(|(call, answer)| is_again(&call, &answer));
        if vote {
            self.seen.cut += u64::from(letter == b'W');
            self.seen.again += u64::from(letter == b'D' && done.taken);
            self.seen.crowded += u64::from(!done.taken);
        }
        if letter == b'D' && done.taken {
            self.heard[unit as usize][operand as usize] = true;
        }
        if letter == b'U' && self.random.chance(1, 2) {
            self.heard[unit as usize] = [false; PLACES];
        }
    }

    fn propose_some(&mut self) {
        let (unit, mileage) = (self.unit(), self.random.one_of(&self.mileages));
        self.line(b'P', unit, mileage);
    }

    pub fn propose_new(&mut self, unit: u32) {
        let mileage = new_mileage(self.greatest, self.random);
        self.line(b'P', unit, mileage);
    }

    /// A unit that is down is given any mileage: it does not look at it.
    pub fn propose_unheard(&mut self, unit: u32) {
        let mileage = new_mileage(MAX_MILEAGE, self.random);
        self.line(b'P', unit, mileage);
    }

    /// Whether a message would only have a unit send a vote again.
    pub fn only_again(&self, unit: u32, message: u32) -> bool {
        let image = &self.world.units[unit as usize].image;
        let sent = &self.world.sent[message as usize].bytes;
        let held = match sent[0] {
            b'F' => FIRST_ESTIMATE,
            b'C' => SECOND_ESTIMATE,
            _ => return false,
        };
        get(sent, MESSAGE_ROUND) == get(image, ROUND) && get(image, held) != BLANK
    }

    /// A message for this unit that it has not heard, the oldest or any.
    fn unheard(&mut self, unit: u32) -> Option<u32> {
        let again = self.in_thousand(self.again);
        let heard = &self.heard[unit as usize];
        let for_unit = |bytes: &[u8]| [EVERYONE, unit].contains(&get(bytes, RECEIVER));
        let found: Vec<u32> = (0..self.kept())
            .filter(|&at| !heard[at as usize] && for_unit(&self.world.sent[at as usize].bytes))
            .filter(|&at| again || !self.only_again(unit, at))
            .collect();
        match found.first() {
            Some(&oldest) if self.random.chance(self.in_order, 1000) => Some(oldest),
            Some(_) => Some(self.random.one_of(&found)),
            None => None,
        }
    }

    fn hear(&mut self, unit: u32) {
        let n = self.n();
        match self.unheard(unit) {
            Some(message) => {
                let letter = if self.in_thousand(self.cuts) {
                    b'W'
                } else {
                    b'D'
                };
                self.line(letter, unit, message);
            }
            None if self.random.chance(1, 2 * n) => self.propose_some(),
            None if self.kept() > 0 && self.random.chance(1, 20) => {
                let message = self.random.below(self.kept());
                self.line(b'D', unit, message);
            }
            None => {}
        }
    }

    pub fn one_move(&mut self) {
        let unit = self.unit();
        if self.in_thousand(self.slips) {
            self.slip();
        } else if self.is_down(unit) {
            self.meet_down_unit(unit);
        } else if self.in_thousand(self.keys) {
            self.line(b'K', unit, 0);
        } else if self.in_thousand(self.proposals) {
            self.propose_some();
        } else {
            self.hear(unit);
        }
    }

    pub fn moves(&mut self, count: u32) {
        (0..count).for_each(|_| self.one_move());
    }
}
