//! Logs, images and messages as records, and their bytes.
//!
//! A record can only be made from contents that the scope paper calls well formed, or by a step from such records.

use crate::step::quorum;

pub const LOG_LENGTH: usize = 20;
pub const LOG_FIELDS: usize = 8;
pub const IMAGE_LENGTH: usize = 152;
pub const MESSAGE_LENGTH: usize = 18;
pub const MESSAGE_FIELDS: usize = 9;
const ESTIMATE_LENGTH: usize = 4;

pub const MIN_UNITS: u32 = 3;
pub const MAX_UNITS: usize = 16;
pub const MIN_ENTRY: u32 = 1;
pub const MAX_ENTRY: u32 = 9_999;
pub const MAX_ROUND: u32 = 9_999;

/// In ten-metre steps, since request 3. The package `hundred_metres`, made of the same files, keeps the bound that was before.
pub const MAX_MILEAGE: u32 = if cfg!(feature = "hundred_metres") {
    9_999_999
} else {
    99_999_999
};

/// The source's bottom: nothing there.
pub const BLANK: u32 = 4_294_967_295;
/// The source's top: the CHECKs gathered differ.
pub const SPLIT: u32 = 4_294_967_294;
/// The receiver of all messages but SKIP.
pub const EVERYONE: u32 = 255;

pub fn is_mileage(number: u32) -> bool {
    number <= MAX_MILEAGE
}

fn is_mileage_or_blank(number: u32) -> bool {
    is_mileage(number) || number == BLANK
}

/// What a SECOND may carry as its estimate.
fn is_second_estimate(engine: Engine, number: u32) -> bool {
    is_mileage(number) || (engine == Engine::B && number == SPLIT)
}

#[derive(Clone, Copy, Debug, PartialEq, Eq)]
pub enum Engine {
    B,
    R,
}

impl Engine {
    pub fn from_letter(letter: u32) -> Option<Engine> {
        match u8::try_from(letter).ok()? {
            b'B' => Some(Engine::B),
            b'R' => Some(Engine::R),
            _ => None,
        }
    }

    pub fn letter(self) -> u8 {
        match self {
            Engine::B => b'B',
            Engine::R => b'R',
        }
    }
}

/// What all units of one agreement share.
#[derive(Clone, Copy, Debug, PartialEq, Eq)]
pub struct Settings {
    pub(crate) engine: Engine,
    pub(crate) n: u32,
    pub(crate) entry: u32,
}

impl Settings {
    pub fn new(engine: Engine, n: u32, entry: u32) -> Option<Settings> {
        let in_range =
            (MIN_UNITS..=MAX_UNITS as u32).contains(&n) && (MIN_ENTRY..=MAX_ENTRY).contains(&entry);
        in_range.then_some(Settings { engine, n, entry })
    }
}

/// What a unit keeps over key-off.
#[derive(Clone, Copy, Debug, PartialEq, Eq)]
pub struct Log {
    pub(crate) settings: Settings,
    pub(crate) unit: u32,
    pub(crate) round: u32,
    pub(crate) proposal: u32,
    pub(crate) first: u32,
    pub(crate) second: u32,
}

impl Log {
    /// A fresh unit: round 0 and all blank (source, lines 1 to 4).
    pub fn fresh(settings: Settings, unit: u32) -> Option<Log> {
        (unit < settings.n).then_some(Log {
            settings,
            unit,
            round: 0,
            proposal: BLANK,
            first: BLANK,
            second: BLANK,
        })
    }

    pub fn from_fields(fields: [u32; LOG_FIELDS]) -> Option<Log> {
        let [engine, n, unit, entry, round, proposal, first, second] = fields;
        let engine = Engine::from_letter(engine)?;
        let settings = Settings::new(engine, n, entry)?;
        // "The second estimate is a mileage, split or blank; in R always blank."
        let second_fits =
            second == BLANK || (engine == Engine::B && is_second_estimate(engine, second));
        let well_formed = unit < n
            && round <= MAX_ROUND
            && is_mileage_or_blank(proposal)
            && is_mileage_or_blank(first)
            && second_fits;
        well_formed.then_some(Log {
            settings,
            unit,
            round,
            proposal,
            first,
            second,
        })
    }

    pub fn fields(&self) -> [u32; LOG_FIELDS] {
        let Settings { engine, n, entry } = self.settings;
        [
            engine.letter().into(),
            n,
            self.unit,
            entry,
            self.round,
            self.proposal,
            self.first,
            self.second,
        ]
    }

    pub fn read(bytes: &[u8; LOG_LENGTH]) -> Option<Log> {
        Log::take(&mut Reader(bytes))
    }

    pub fn write(&self, bytes: &mut [u8; LOG_LENGTH]) {
        self.put(&mut Writer(bytes));
    }

    fn take(bytes: &mut Reader) -> Option<Log> {
        let [engine, n, unit, zero] = [bytes.one(), bytes.one(), bytes.one(), bytes.one()];
        let [entry, round] = [bytes.two(), bytes.two()];
        let [proposal, first, second] = [bytes.four(), bytes.four(), bytes.four()];
        if zero != 0 {
            return None;
        }
        Log::from_fields([engine, n, unit, entry, round, proposal, first, second])
    }

    fn put(&self, bytes: &mut Writer) {
        let [engine, n, unit, entry, round, proposal, first, second] = self.fields();
        bytes.one(engine);
        bytes.one(n);
        bytes.one(unit);
        bytes.one(0);
        bytes.two(entry);
        bytes.two(round);
        bytes.four(proposal);
        bytes.four(first);
        bytes.four(second);
    }
}

/// Estimates gathered in a round, one a sender. Unmarked estimates are blank.
#[derive(Clone, Copy, Debug, PartialEq, Eq)]
pub(crate) struct Gathered {
    pub(crate) marks: u32,
    pub(crate) estimates: [u32; MAX_UNITS],
}

impl Gathered {
    pub(crate) const NONE: Gathered = Gathered {
        marks: 0,
        estimates: [BLANK; MAX_UNITS],
    };

    pub(crate) fn count(&self) -> u32 {
        self.marks.count_ones()
    }

    /// Marks the sender with its estimate. False, and no change, where it is marked already.
    pub(crate) fn mark(&mut self, sender: u32, estimate: u32) -> bool {
        if self.is_marked(sender as usize) {
            return false;
        }
        self.marks |= 1 << sender;
        self.estimates[sender as usize] = estimate;
        true
    }

    /// The estimates of the marked senders, the lowest sender first.
    pub(crate) fn estimates(&self) -> impl Iterator<Item = u32> + '_ {
        (0..MAX_UNITS)
            .filter(|&sender| self.is_marked(sender))
            .map(|sender| self.estimates[sender])
    }

    fn is_marked(&self, sender: usize) -> bool {
        self.marks & (1 << sender) != 0
    }

    /// "Only units below n are marked. Unmarked estimates are blank." So the marks are those of the estimates not blank.
    fn is_well_formed(&self, settings: Settings, fits: impl Fn(u32) -> bool) -> bool {
        let mut filled = 0;
        let mut all_fit = true;
        for (sender, &estimate) in self.estimates.iter().enumerate() {
            filled |= u32::from(estimate != BLANK) << sender;
            all_fit &= estimate == BLANK || fits(estimate);
        }
        filled == self.marks
            && all_fit
            && self.marks >> settings.n == 0
            && self.count() < quorum(settings)
    }

    fn take(bytes: &mut Reader) -> Gathered {
        let marks = bytes.two();
        let estimates: [u8; ESTIMATE_LENGTH * MAX_UNITS] = bytes.take();
        let (estimates, _) = estimates.as_chunks::<ESTIMATE_LENGTH>();
        Gathered {
            marks,
            estimates: std::array::from_fn(|sender| u32::from_be_bytes(estimates[sender])),
        }
    }

    fn put(&self, bytes: &mut Writer) {
        bytes.two(self.marks);
        bytes.put(self.estimates.map(u32::to_be_bytes).as_flattened());
    }
}

/// What an up unit works on, lost at key-off.
#[derive(Clone, Copy, Debug, PartialEq, Eq)]
pub struct Image {
    pub(crate) current: Log,
    pub(crate) checks: Gathered,
    pub(crate) seconds: Gathered,
}

impl Image {
    pub fn read(bytes: &[u8; IMAGE_LENGTH]) -> Option<Image> {
        let bytes = &mut Reader(bytes);
        let current = Log::take(bytes)?;
        Image::new(current, Gathered::take(bytes), Gathered::take(bytes))
    }

    pub(crate) fn new(current: Log, checks: Gathered, seconds: Gathered) -> Option<Image> {
        let image = Image {
            current,
            checks,
            seconds,
        };
        image.is_well_formed().then_some(image)
    }

    /// "In R, or when the second estimate is not blank, there are no CHECK marks."
    fn is_well_formed(&self) -> bool {
        let settings = self.current.settings;
        let takes_checks = settings.engine == Engine::B && self.current.second == BLANK;
        (takes_checks || self.checks.count() == 0)
            && self.checks.is_well_formed(settings, is_mileage)
            && self.seconds.is_well_formed(settings, |estimate| {
                is_second_estimate(settings.engine, estimate)
            })
    }

    pub fn write(&self, bytes: &mut [u8; IMAGE_LENGTH]) {
        let bytes = &mut Writer(bytes);
        self.current.put(bytes);
        self.checks.put(bytes);
        self.seconds.put(bytes);
    }

    /// The proposals may differ: neither proposing nor closing a round writes the log.
    pub fn fits(&self, log: &Log) -> bool {
        let current = &self.current;
        let same_round = current.round == log.round
            && current.first == log.first
            && current.second == log.second;
        let later_round =
            current.round > log.round && current.first == BLANK && current.second == BLANK;
        current.settings == log.settings && current.unit == log.unit && (same_round || later_round)
    }
}

#[derive(Clone, Copy, Debug, PartialEq, Eq)]
pub enum Kind {
    First,
    Check,
    Second,
    Skip,
}

impl Kind {
    fn from_letter(letter: u32) -> Option<Kind> {
        match u8::try_from(letter).ok()? {
            b'F' => Some(Kind::First),
            b'C' => Some(Kind::Check),
            b'S' => Some(Kind::Second),
            b'K' => Some(Kind::Skip),
            _ => None,
        }
    }

    fn letter(self) -> u8 {
        match self {
            Kind::First => b'F',
            Kind::Check => b'C',
            Kind::Second => b'S',
            Kind::Skip => b'K',
        }
    }
}

/// A message that is one; the empty message has no record.
#[derive(Clone, Copy, Debug, PartialEq, Eq)]
pub struct Message {
    pub(crate) kind: Kind,
    pub(crate) settings: Settings,
    pub(crate) sender: u32,
    pub(crate) receiver: u32,
    pub(crate) round: u32,
    pub(crate) estimate: u32,
    pub(crate) proposal: u32,
}

impl Message {
    pub fn from_fields(fields: [u32; MESSAGE_FIELDS]) -> Option<Message> {
        let [kind, engine, n, sender, receiver, entry, round, estimate, proposal] = fields;
        let kind = Kind::from_letter(kind)?;
        let engine = Engine::from_letter(engine)?;
        let settings = Settings::new(engine, n, entry)?;
        let same_mileage = is_mileage(estimate) && proposal == estimate;
        let contents_fit = match kind {
            Kind::First => same_mileage,
            Kind::Check => same_mileage && engine == Engine::B,
            Kind::Second => is_second_estimate(engine, estimate) && is_mileage_or_blank(proposal),
            Kind::Skip => estimate == BLANK && is_mileage_or_blank(proposal),
        };
        let receiver_fits = match kind {
            Kind::Skip => receiver < n,
            _ => receiver == EVERYONE,
        };
        let well_formed = sender < n && receiver_fits && round <= MAX_ROUND && contents_fit;
        well_formed.then_some(Message {
            kind,
            settings,
            sender,
            receiver,
            round,
            estimate,
            proposal,
        })
    }

    pub fn fields(&self) -> [u32; MESSAGE_FIELDS] {
        let Settings { engine, n, entry } = self.settings;
        let (kind, engine) = (self.kind.letter().into(), engine.letter().into());
        [
            kind,
            engine,
            n,
            self.sender,
            self.receiver,
            entry,
            self.round,
            self.estimate,
            self.proposal,
        ]
    }

    pub fn read(bytes: &[u8; MESSAGE_LENGTH]) -> Option<Message> {
        let bytes = &mut Reader(bytes);
        let [kind, engine, n] = [bytes.one(), bytes.one(), bytes.one()];
        let [sender, receiver, zero] = [bytes.one(), bytes.one(), bytes.one()];
        let [entry, round] = [bytes.two(), bytes.two()];
        let [estimate, proposal] = [bytes.four(), bytes.four()];
        if zero != 0 {
            return None;
        }
        Message::from_fields([
            kind, engine, n, sender, receiver, entry, round, estimate, proposal,
        ])
    }

    pub fn write(&self, bytes: &mut [u8; MESSAGE_LENGTH]) {
        let [kind, engine, n, sender, receiver, entry, round, estimate, proposal] = self.fields();
        let bytes = &mut Writer(bytes);
        bytes.one(kind);
        bytes.one(engine);
        bytes.one(n);
        bytes.one(sender);
        bytes.one(receiver);
        bytes.one(0);
        bytes.two(entry);
        bytes.two(round);
        bytes.four(estimate);
        bytes.four(proposal);
    }
}

/// Takes numbers off the front of a record's bytes, the highest byte first.
struct Reader<'a>(&'a [u8]);

impl Reader<'_> {
    fn take<const N: usize>(&mut self) -> [u8; N] {
        // Never short: each record takes its own length.
        let Some((head, rest)) = self.0.split_first_chunk() else {
            return [0; N];
        };
        self.0 = rest;
        *head
    }

    fn one(&mut self) -> u32 {
        u8::from_be_bytes(self.take()).into()
    }

    fn two(&mut self) -> u32 {
        u16::from_be_bytes(self.take()).into()
    }

    fn four(&mut self) -> u32 {
        u32::from_be_bytes(self.take())
    }
}

/// Puts numbers to the front of a record's bytes. A record's numbers are never too large for their bytes.
struct Writer<'a>(&'a mut [u8]);

impl Writer<'_> {
    fn put(&mut self, bytes: &[u8]) {
        // Never short either.
        if let Some((head, rest)) = std::mem::take(&mut self.0).split_at_mut_checked(bytes.len()) {
            head.copy_from_slice(bytes);
            self.0 = rest;
        }
    }

    fn one(&mut self, number: u32) {
        self.put(&(number as u8).to_be_bytes());
    }

    fn two(&mut self, number: u32) {
        self.put(&(number as u16).to_be_bytes());
    }

    fn four(&mut self, number: u32) {
        self.put(&number.to_be_bytes());
    }
}
