//! Contents that mean something: a unit's log, an image that fits it, and a message for it, most often accepted or nearly.

use crate::format::{
    self, image_of, is_marked, log_of, marks_of, message_of, put_mark, quorum, Field,
};
use crate::format::{
    BLANK, CHECK_MARKS, EVERYONE, MAX_ENTRY, MAX_ROUND, MAX_UNITS, MIN_UNITS, SECOND_MARKS, SPLIT,
};
use crate::random::{greatest_mileage, Random};

/// What is lent to a call that has these buffers.
#[derive(Clone)]
pub struct Contents {
    pub log: [u8; format::LOG_LENGTH],
    pub image: [u8; format::IMAGE_LENGTH],
    pub message: [u8; format::MESSAGE_LENGTH],
}

/// Units and messages of a history, to take contents from.
#[derive(Default)]
pub struct Pool {
    pub units: Vec<([u8; format::LOG_LENGTH], [u8; format::IMAGE_LENGTH])>,
    pub messages: Vec<[u8; format::MESSAGE_LENGTH]>,
}

impl Pool {
    pub fn contents(&self, random: &mut Random) -> Contents {
        let (log, image) = random.one_of(&self.units);
        let message = random.one_of(&self.messages);
        Contents {
            log,
            image,
            message,
        }
    }
}

/// What a call is about: a unit, its round, and a few mileages, so that senders often agree.
#[derive(Clone)]
pub struct Scene {
    engine: u8,
    n: u32,
    unit: u32,
    entry: u32,
    round: u32,
    mileages: [u32; 3],
}

impl Scene {
    pub fn new(random: &mut Random) -> Scene {
        let (any, few) = (random.between(MIN_UNITS, MAX_UNITS), 3 + random.below(3));
        let n = random.either((1, 2), any, few);
        let greatest = greatest_mileage(random);
        let mut mileages = [random.between(0, greatest); 3];
        for mileage in &mut mileages[1..] {
            let other = random.between(0, greatest);
            *mileage = random.either((1, 2), *mileage, other);
        }
        let often = random.one_of(&[0, 1, 255, 256, MAX_ROUND - 1, MAX_ROUND, MAX_ROUND]);
        let any_round = random.between(0, MAX_ROUND);
        Scene {
            engine: random.one_of(b"BR"),
            n,
            unit: random.below(n),
            entry: random.between(1, MAX_ENTRY),
            round: random.either((2, 3), often, any_round),
            mileages,
        }
    }

    fn is_b(&self) -> bool {
        self.engine == b'B'
    }

    fn mileage(&self, random: &mut Random) -> u32 {
        random.one_of(&self.mileages)
    }

    fn mileage_or(&self, other: u32, random: &mut Random) -> u32 {
        let mileage = self.mileage(random);
        random.either((3, 4), mileage, other)
    }

    fn record(&self, round: u32, [first, second]: [u32; 2], random: &mut Random) -> [u32; 8] {
        let (engine, proposal) = (self.engine.into(), self.mileage_or(BLANK, random));
        [
            engine, self.n, self.unit, self.entry, round, proposal, first, second,
        ]
    }

    /// Marks of random senders, often one short of the quorum.
    fn put_marks(&self, image: &mut [u8], marks: Field, other: u32, random: &mut Random) {
        let quorum = quorum(self.engine, self.n);
        let any = random.below(quorum);
        let mut left = random.either((3, 4), quorum - 1, any);
        while left > 0 {
            let unit = random.below(self.n);
            if !is_marked(image, marks, unit) {
                put_mark(image, marks, unit, self.mileage_or(other, random));
                left -= 1;
            }
        }
    }

    /// The estimates of a log: each often blank, the second in R always.
    fn estimates(&self, random: &mut Random) -> [u32; 2] {
        let (first, second) = (
            self.mileage_or(BLANK, random),
            self.mileage_or(SPLIT, random),
        );
        let seconds = if self.is_b() { 1 } else { 0 };
        [
            random.either((1, 3), BLANK, first),
            random.either((seconds, 3), second, BLANK),
        ]
    }

    /// A log, and an image that fits it: of the same round, or above it.
    fn put_unit(&self, to: &mut Contents, random: &mut Random) {
        let estimates = self.estimates(random);
        let late = self.round > 0 && random.chance(1, 3);
        let log_round = if late {
            random.below(self.round)
        } else {
            self.round
        };
        let kept = if late { [BLANK, BLANK] } else { estimates };
        to.log = log_of(self.record(log_round, estimates, random));
        to.image = image_of(self.record(self.round, kept, random));
        if self.is_b() && kept[1] == BLANK {
            self.put_marks(&mut to.image, CHECK_MARKS, self.mileages[0], random);
        }
        let other = if self.is_b() { SPLIT } else { self.mileages[0] };
        self.put_marks(&mut to.image, SECOND_MARKS, other, random);
    }

    /// The message's round: mostly the unit's, else below or above it.
    fn message_round(&self, random: &mut Random) -> u32 {
        match random.below(10) {
            0 if self.round > 0 => random.one_of(&[self.round - 1, 0]),
            1 if self.round > 0 => random.below(self.round),
            2 if self.round < MAX_ROUND => random.one_of(&[self.round + 1, MAX_ROUND]),
            3 if self.round < MAX_ROUND => random.between(self.round + 1, MAX_ROUND),
            _ => self.round,
        }
    }

    /// A message for the unit of the scene, mostly from a sender not yet marked.
    fn put_message(&self, to: &mut Contents, random: &mut Random) {
        let kinds: &[u8] = if self.is_b() { b"FCCSSK" } else { b"FSSK" };
        let kind = random.one_of(kinds);
        let mut sender = random.below(self.n);
        for _ in 0..random.below(6) {
            if is_marked(&to.image, marks_of(kind), sender) {
                sender = random.below(self.n);
            }
        }
        let mileage = self.mileage(random);
        let (receiver, estimate, proposal) = match kind {
            b'K' => (self.unit, BLANK, self.mileage_or(BLANK, random)),
            b'S' if self.is_b() => (
                EVERYONE,
                self.mileage_or(SPLIT, random),
                self.mileage_or(BLANK, random),
            ),
            b'S' => (EVERYONE, mileage, self.mileage_or(BLANK, random)),
            _ => (EVERYONE, mileage, mileage),
        };
        let (engine, round) = (u32::from(self.engine), self.message_round(random));
        to.message = message_of([
            kind.into(),
            engine,
            self.n,
            sender,
            receiver,
            self.entry,
            round,
            estimate,
            proposal,
        ]);
    }

    /// The scene of a message that may be of another engine, n, entry or receiver.
    fn elsewhere(&self, random: &mut Random) -> Scene {
        let mut scene = self.clone();
        match random.below(20) {
            0 => scene.engine = random.one_of(b"BR"),
            1 => scene.n = random.between(MIN_UNITS, MAX_UNITS),
            2 => scene.entry = random.one_of(&[self.entry % 9999 + 1, self.entry % 9744 + 256, 1]),
            3 => scene.unit = random.below(self.n),
            _ => {}
        }
        scene.unit %= scene.n;
        scene
    }

    pub fn contents(&self, random: &mut Random) -> Contents {
        let mut contents = Contents {
            log: [0; 20],
            image: [0; 152],
            message: [0; 18],
        };
        self.put_unit(&mut contents, random);
        self.elsewhere(random).put_message(&mut contents, random);
        contents
    }
}
