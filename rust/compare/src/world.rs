//! The units of one history and the messages sent, and what an event asks of them: after the scope paper's section "A history".

use crate::call::{Answer, Call, Entry, IMAGE, LOG, MESSAGE, OUT};
use crate::damage::damage;
use crate::format::{get, ACCEPTED, BLANK, MESSAGE_ROUND, PROPOSAL, ROUND};
use crate::format::{IMAGE_LENGTH, LOG_LENGTH, MESSAGE_LENGTH};
use crate::generate::call_of;
use crate::random::Random;
use crate::scene::Contents;

/// How a history begins. Without rounds all units are started; else each is keyed on from an empty log of its round.
#[derive(Clone, Debug)]
pub struct Setting {
    pub engine: u8,
    pub n: u32,
    pub entry: u32,
    pub rounds: Vec<u32>,
}

/// What happens to a unit. A message is named by the event that sent it, so that it keeps its name when other events are taken away.
#[derive(Clone, Copy, Debug)]
pub enum What {
    Propose(u32),
    Deliver(usize),
    Cut(usize),
    KeyOff,
    KeyOn,
    /// A call with arbitrary buffers made from this seed. Refused, it is an event; accepted, it is none and did not happen.
    Stray(u64),
}

/// What happens, on cards something else than here.
#[derive(Clone, Copy, Debug)]
pub struct Event<W = What> {
    pub id: usize,
    pub unit: u32,
    pub what: W,
}

/// The name of a message that nobody sent.
pub const UNSENT: usize = usize::MAX;

#[derive(Clone)]
pub struct Unit {
    pub log: [u8; LOG_LENGTH],
    pub image: [u8; IMAGE_LENGTH],
    pub up: bool,
}

impl Unit {
    /// The round of the image, or of the log where there is none.
    pub fn round(&self) -> u32 {
        get(if self.up { &self.image } else { &self.log }, ROUND)
    }
}

#[derive(Clone)]
pub struct Sent {
    pub by: usize,
    pub bytes: [u8; MESSAGE_LENGTH],
}

#[derive(Clone)]
pub struct World {
    pub units: Vec<Unit>,
    pub sent: Vec<Sent>,
    /// An event that would send while so many are kept leaves everything as it was, as on the bench.
    pub places: usize,
}

/// What an event brought about: whether it took place, the mileage proposed, and the mileage decided with its round.
#[derive(Clone, Copy, Default)]
pub struct Done {
    pub taken: bool,
    pub proposed: Option<u32>,
    pub decided: Option<(u32, u32)>,
}

fn array<const N: usize>(bytes: &[u8]) -> [u8; N] {
    bytes.try_into().expect("a buffer of right length")
}

/// The number of a message, by the event that sent it.
pub fn number_of(sent: &[Sent], by: usize) -> Option<usize> {
    sent.binary_search_by_key(&by, |sent| sent.by).ok()
}

/// The name of a message number.
pub fn name_of(sent: &[Sent], number: usize) -> usize {
    sent.get(number).map_or(UNSENT, |sent| sent.by)
}

/// The calls that begin a unit; each is made of the answer before it.
pub fn first_calls(setting: &Setting, unit: u32) -> Vec<Call> {
    let engine = u32::from(setting.engine);
    if setting.rounds.is_empty() {
        let mut start = Call::new(Entry::Start, unit as u8);
        start.numbers = [engine, setting.n, unit, setting.entry, 0];
        return vec![start];
    }
    let round = setting.rounds[unit as usize];
    let mut write = Call::new(Entry::WriteLog, unit as u8);
    write.fields.put(&[
        engine,
        setting.n,
        unit,
        setting.entry,
        round,
        BLANK,
        BLANK,
        BLANK,
    ]);
    vec![write, Call::new(Entry::KeyOn, unit as u8)]
}

impl World {
    pub fn empty(places: usize) -> World {
        World {
            units: Vec::new(),
            sent: Vec::new(),
            places,
        }
    }

    pub fn begin_unit(&mut self, log: &[u8], image: &[u8]) {
        self.units.push(Unit {
            log: array(log),
            image: array(image),
            up: true,
        });
    }

    pub fn number_of(&self, by: usize) -> Option<usize> {
        number_of(&self.sent, by)
    }

    /// The name of a message number.
    pub fn name_of(&self, number: usize) -> usize {
        name_of(&self.sent, number)
    }

    /// The call that an event makes, if it makes one.
    pub fn call(&self, event: &Event) -> Option<Call> {
        let unit = &self.units[event.unit as usize];
        let filler = (event.id * 37 % 256) as u8;
        let mut call = match event.what {
            What::Propose(mileage) if unit.up => {
                let mut call = Call::new(Entry::Propose, filler);
                call.numbers[0] = mileage;
                call
            }
            What::Deliver(by) | What::Cut(by) if unit.up => {
                let mut call = Call::new(Entry::Deliver, filler);
                call.bytes[MESSAGE].put(&self.sent[self.number_of(by)?].bytes);
                call
            }
            What::KeyOn if !unit.up => Call::new(Entry::KeyOn, filler),
            What::Stray(seed) => return Some(self.stray(unit, seed)),
            _ => return None,
        };
        call.bytes[LOG].put(&unit.log);
        if call.entry != Entry::KeyOn {
            call.bytes[IMAGE].put(&unit.image);
        }
        Some(call)
    }

    fn stray(&self, unit: &Unit, seed: u64) -> Call {
        let mut random = Random::new(seed);
        let entry = random.one_of(&[Entry::Propose, Entry::Deliver, Entry::Deliver, Entry::KeyOn]);
        let message = match self.sent.len() {
            0 => [random.byte(); MESSAGE_LENGTH],
            len => self.sent[random.index(len)].bytes,
        };
        let contents = Contents {
            log: unit.log,
            image: unit.image,
            message,
        };
        let mut call = call_of(entry, &contents, &mut random);
        for _ in 0..1 + random.below(3) {
            damage(&mut call, &mut random);
        }
        call
    }

    /// Takes over what an event's call answered. An event without a call is a key-off, or leaves everything as it was.
    pub fn apply(&mut self, event: &Event, answer: Option<&Answer>) -> Done {
        let unit = &mut self.units[event.unit as usize];
        let Some(answer) = answer else {
            let taken = unit.up && matches!(event.what, What::KeyOff);
            unit.up = unit.up && !taken;
            return Done {
                taken,
                ..Done::default()
            };
        };
        let after = &answer.after;
        let out = after.bytes[OUT].slice();
        let cut = matches!(event.what, What::Cut(_));
        let sends = matches!(event.what, What::Propose(_) | What::Deliver(_))
            && out.iter().any(|&byte| byte != 0);
        let refused = answer.number != ACCEPTED || matches!(event.what, What::Stray(_));
        if refused || (sends && self.sent.len() >= self.places) {
            return Done::default();
        }
        unit.log = array(after.bytes[LOG].slice());
        unit.image = array(after.bytes[IMAGE].slice());
        unit.up = !cut;
        if sends {
            self.sent.push(Sent {
                by: event.id,
                bytes: array(out),
            });
        }
        done(event, after)
    }

    /// Round and proposal of every log, and of every up unit's image.
    pub fn records(&self) -> impl Iterator<Item = (u32, u32)> + '_ {
        let record = |bytes: &[u8]| (get(bytes, ROUND), get(bytes, PROPOSAL));
        let logs = self.units.iter().map(move |unit| record(&unit.log));
        let images = self
            .units
            .iter()
            .filter(|unit| unit.up)
            .map(move |unit| record(&unit.image));
        logs.chain(images)
    }
}

fn done(event: &Event, after: &Call) -> Done {
    let mut done = Done {
        taken: true,
        ..Done::default()
    };
    match event.what {
        What::Propose(mileage) => done.proposed = Some(mileage),
        What::Deliver(_) => {
            let round = get(after.bytes[MESSAGE].slice(), MESSAGE_ROUND);
            done.decided = after.decided().map(|mileage| (mileage, round));
        }
        _ => {}
    }
    done
}
