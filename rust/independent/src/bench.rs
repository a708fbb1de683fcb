//! The bench: plays a script and lists what each line did.

use crate::codec::{Engine, Image, Log, Message, Settings};
use crate::step::{self, Step};
use crate::{calls::ACCEPTED, Refusal};

pub const MESSAGE_PLACES: usize = 128;
pub const MAX_SCRIPT_LENGTH: usize = 32_768;
pub const MAX_DIGITS: usize = 10;

/// The listing of a script of any bytes. Every line of it ends with byte 10.
pub fn listing(script: &[u8]) -> Vec<u8> {
    let mut out = Listing(Vec::new());
    let mut lines = script
        .split_inclusive(|&byte| byte == b'\n')
        .map(|line| line.strip_suffix(b"\n"));
    let header = lines.next().flatten().and_then(parse_header);
    match header.filter(|_| script.len() <= MAX_SCRIPT_LENGTH) {
        Some(settings) => play_script(settings, lines, &mut out),
        None => {
            out.malformed(0);
            out.end(0, 0);
        }
    }
    out.0
}

/// A line is `None` where byte 10 is missing, which makes it malformed.
fn play_script<'a>(
    settings: Settings,
    lines: impl Iterator<Item = Option<&'a [u8]>>,
    out: &mut Listing,
) {
    let mut bench = Bench::new(settings);
    let mut index = 0;
    out.header(settings);
    for line in lines {
        index += 1;
        match line.and_then(|line| parse_line(line, settings.n)) {
            Some(line) => out.event(index, &line, bench.play(&line)),
            None => out.malformed(index),
        }
    }
    out.end(index, bench.kept.len() as u32);
}

#[derive(Clone, Copy)]
enum Event {
    Propose(u32),
    Deliver(u32),
    Cut(u32),
    KeyOff,
    KeyOn,
}

struct Line {
    letter: u8,
    unit: u32,
    event: Event,
}

fn fields(line: &[u8]) -> impl Iterator<Item = &[u8]> {
    line.split(|&byte| byte == b',')
}

fn parse_header(line: &[u8]) -> Option<Settings> {
    let mut fields = fields(line);
    let engine = match fields.next()? {
        b"" | b"B" => Engine::B,
        b"R" => Engine::R,
        _ => return None,
    };
    let n = parse_number(fields.next()?)?;
    let entry = parse_number(fields.next()?)?;
    match fields.next() {
        None => Settings::new(engine, n, entry),
        Some(_) => None,
    }
}

/// A unit number of n or more is malformed as well.
fn parse_line(line: &[u8], n: u32) -> Option<Line> {
    let mut fields = fields(line);
    let &[letter] = fields.next()? else {
        return None;
    };
    let unit = parse_number(fields.next()?).filter(|&unit| unit < n)?;
    let mut number = || fields.next().and_then(parse_number);
    let event = match letter {
        b'P' => Event::Propose(number()?),
        b'D' => Event::Deliver(number()?),
        b'W' => Event::Cut(number()?),
        b'K' => Event::KeyOff,
        b'U' => Event::KeyOn,
        _ => return None,
    };
    fields.next().is_none().then_some(Line {
        letter,
        unit,
        event,
    })
}

fn parse_number(digits: &[u8]) -> Option<u32> {
    let leading_zero = digits.len() > 1 && digits[0] == b'0';
    if digits.is_empty()
        || digits.len() > MAX_DIGITS
        || leading_zero
        || !digits.iter().all(u8::is_ascii_digit)
    {
        return None;
    }
    let number = digits
        .iter()
        .fold(0, |number, digit| number * 10 + u64::from(digit - b'0'));
    u32::try_from(number).ok()
}

struct Unit {
    log: Log,
    /// None while the unit is down.
    image: Option<Image>,
}

impl Unit {
    fn write_log(&mut self, step: &Step) {
        if let Some(&log) = step.log() {
            self.log = log;
        }
    }
}

/// What an accepted event gives: the number of the message it sent, and the decision.
#[derive(Default)]
struct Outcome {
    sent: Option<u32>,
    decision: Option<u32>,
}

struct Bench {
    units: Vec<Unit>,
    /// Messages by number; never more than the places there are, and none is removed.
    kept: Vec<Message>,
}

impl Bench {
    fn new(settings: Settings) -> Bench {
        let fresh = |unit| {
            Log::fresh(settings, unit).map(|log| Unit {
                log,
                image: Some(step::key_on(log)),
            })
        };
        Bench {
            units: (0..settings.n).filter_map(fresh).collect(),
            kept: Vec::with_capacity(MESSAGE_PLACES),
        }
    }

    fn play(&mut self, line: &Line) -> Result<Outcome, Refusal> {
        let Bench { units, kept } = self;
        let unit = units.get_mut(line.unit as usize).ok_or(Refusal::Line)?;
        let message = |number: u32| kept.get(number as usize).ok_or(Refusal::NotSent);
        match (line.event, &unit.image) {
            (Event::KeyOn, None) => unit.image = Some(step::key_on(unit.log)),
            (Event::KeyOn, Some(_)) | (_, None) => return Err(Refusal::Power),
            (Event::KeyOff, Some(_)) => unit.image = None,
            (Event::Propose(mileage), Some(image)) => {
                return keep(step::propose(image, mileage)?, unit, kept)
            }
            (Event::Deliver(number), Some(image)) => {
                return keep(step::deliver(image, message(number)?)?, unit, kept)
            }
            (Event::Cut(number), Some(image)) => {
                unit.write_log(&step::deliver(image, message(number)?)?);
                unit.image = None;
            }
        }
        Ok(Outcome::default())
    }
}

/// Makes a step the unit's, unless it sends and no place is left.
fn keep(step: Step, unit: &mut Unit, kept: &mut Vec<Message>) -> Result<Outcome, Refusal> {
    let sent = step.message.map(|_| kept.len() as u32);
    if sent.is_some() && kept.len() >= MESSAGE_PLACES {
        return Err(Refusal::Full);
    }
    kept.extend(step.message);
    unit.write_log(&step);
    unit.image = Some(step.image);
    Ok(Outcome {
        sent,
        decision: step.decision,
    })
}

struct Listing(Vec<u8>);

impl Listing {
    fn header(&mut self, settings: Settings) {
        self.0.push(settings.engine.letter());
        self.comma_number(settings.n);
        self.comma_number(settings.entry);
        self.0.push(b'\n');
    }

    fn event(&mut self, index: u32, line: &Line, result: Result<Outcome, Refusal>) {
        let (number, outcome) = match result {
            Ok(outcome) => (ACCEPTED, outcome),
            Err(refusal) => (refusal as u32, Outcome::default()),
        };
        self.number(index);
        self.0.extend([b',', line.letter]);
        self.comma_number(line.unit);
        self.comma_number(number);
        self.comma_number_or_dash(outcome.sent);
        self.comma_number_or_dash(outcome.decision);
        self.0.push(b'\n');
    }

    fn malformed(&mut self, index: u32) {
        self.number(index);
        self.0.extend(b",?,-");
        self.comma_number(Refusal::Line as u32);
        self.0.extend(b",-,-\n");
    }

    fn end(&mut self, events: u32, kept: u32) {
        self.0.extend(b"end");
        self.comma_number(events);
        self.comma_number(kept);
        self.0.push(b'\n');
    }

    fn comma_number_or_dash(&mut self, number: Option<u32>) {
        match number {
            Some(number) => self.comma_number(number),
            None => self.0.extend(b",-"),
        }
    }

    fn comma_number(&mut self, number: u32) {
        self.0.push(b',');
        self.number(number);
    }

    fn number(&mut self, mut number: u32) {
        let mut digits = [0; MAX_DIGITS];
        let mut at = MAX_DIGITS;
        loop {
            at -= 1;
            digits[at] = b'0' + (number % 10) as u8;
            number /= 10;
            if number == 0 {
                break;
            }
        }
        self.0.extend_from_slice(&digits[at..]);
    }
}
