//! The inputs that are timed: named and fixed. Log and image, or the row of a card, are copied from a template before each call, for
//! both sides alike.

use crate::call::{Call, Entry, IMAGE, LOG, MESSAGE};
use crate::format::{image_of, log_of, message_of, put_mark, quorum, Field};
use crate::format::{
    BLANK, CHECK_MARKS, EVERYONE, IMAGE_LENGTH, LOG_LENGTH, MAX_ROWS, MESSAGE_LENGTH, SECOND_MARKS,
};
use crate::histories::deliveries;
use crate::random::Random;
use crate::rows;
use crate::side::{Side, INDEPENDENT};
use crate::world::Setting;
use independent::card::Row;
use std::hint::black_box;

/// What one call is lent and given. On a card the row stands for log and image.
#[derive(Clone)]
pub struct Template {
    entry: Entry,
    numbers: [u32; 5],
    log: [u8; LOG_LENGTH],
    image: [u8; IMAGE_LENGTH],
    row: Option<Row>,
    message: [u8; MESSAGE_LENGTH],
}

/// The entry of all units timed, and so the row on a card.
const ENTRY: u32 = 7;

/// A row of the benchmark: calls made one after the other, over and over.
pub struct Case {
    pub name: String,
    templates: Vec<Template>,
}

/// The memory that calls work on. It is not cleared between calls.
pub struct Room {
    log: [u8; LOG_LENGTH],
    image: [u8; IMAGE_LENGTH],
    rows: [Row; MAX_ROWS as usize],
    out: [u8; MESSAGE_LENGTH],
    decision: u32,
}

impl Default for Room {
    fn default() -> Room {
        Room {
            log: [0; LOG_LENGTH],
            image: [0; IMAGE_LENGTH],
            rows: [rows::of_number(0); MAX_ROWS as usize],
            out: [0; MESSAGE_LENGTH],
            decision: 0,
        }
    }
}

impl Room {
    fn restore(&mut self, template: &Template) {
        match template.row {
            Some(row) => self.rows[ENTRY as usize - 1] = row,
            None => (self.log, self.image) = (template.log, template.image),
        }
        black_box(self);
    }

    fn call(&mut self, side: &Side, template: &Template) -> u32 {
        let [engine, n, unit, entry, mileage] = template.numbers;
        let (log, image, out) = (&mut self.log, &mut self.image, &mut self.out);
        let (rows, message, decision) = (&mut self.rows, &template.message, &mut self.decision);
        match template.entry {
            Entry::CardStart => (side.card_start)(engine, n, unit, rows, entry),
            Entry::CardKeyOn => (side.card_key_on)(engine, n, unit, rows, entry),
            Entry::CardPropose => (side.card_propose)(engine, n, unit, rows, entry, mileage, out),
            Entry::CardDeliver => {
                (side.card_deliver)(engine, n, unit, rows, message, out, decision)
            }
            Entry::Start => (side.start)(engine, n, unit, entry, log, image),
            Entry::KeyOn => (side.key_on)(log, image),
            Entry::Propose => (side.propose)(log, image, engine, out),
            _ => (side.deliver)(log, image, message, out, decision),
        }
    }
}

impl Case {
    /// Exactly so many calls on a side; without a side the copying alone.
    pub fn run(&self, side: Option<&Side>, calls: u64, room: &mut Room) {
        for template in self.templates.iter().cycle().take(calls as usize) {
            room.restore(black_box(template));
            if let Some(side) = side {
                black_box(room.call(side, template));
            }
        }
    }

    /// What the first call answers: a case that is not accepted is not the one named.
    pub fn number(&self, side: &Side) -> u32 {
        let mut room = Room::default();
        room.restore(&self.templates[0]);
        room.call(side, &self.templates[0])
    }
}

/// A unit in round 4 that has proposed 5, with so many marks.
fn unit(engine: u8, n: u32, marks: Option<(Field, u32)>) -> Template {
    let record = [engine.into(), n, 1, ENTRY, 4, 5, BLANK, BLANK];
    let (log, mut image) = (log_of(record), image_of(record));
    if let Some((field, count)) = marks {
        (0..count).for_each(|sender| put_mark(&mut image, field, sender, 5));
    }
    Template {
        entry: Entry::Deliver,
        numbers: [5, 0, 0, 0, 0],
        log,
        image,
        row: None,
        message: [0; MESSAGE_LENGTH],
    }
}

/// The same, delivered a message from the sender after those marked.
fn delivery(engine: u8, n: u32, marks: Option<(Field, u32)>, kind: u8, round: u32) -> Template {
    let mut template = unit(engine, n, marks);
    let sender = marks.map_or(0, |(_, count)| count);
    template.message = message_of([
        kind.into(),
        engine.into(),
        n,
        sender,
        EVERYONE,
        ENTRY,
        round,
        5,
        5,
    ]);
    template
}

fn template_of(call: &Call) -> Template {
    let bytes = |at: usize| call.bytes[at].slice();
    Template {
        entry: call.entry,
        numbers: call.numbers,
        log: bytes(LOG).try_into().expect("a log"),
        image: bytes(IMAGE).try_into().expect("an image"),
        row: None,
        message: bytes(MESSAGE).try_into().expect("a message"),
    }
}

fn history(engine: u8, n: u32) -> Result<Vec<Template>, String> {
    let setting = Setting {
        engine,
        n,
        entry: ENTRY,
        rounds: Vec::new(),
    };
    let calls = deliveries(&INDEPENDENT, &setting, &mut Random::new(412_077))
        .map_err(|trouble| format!("no history for the benchmark: {trouble}"))?;
    Ok(calls.iter().map(template_of).collect())
}

fn cases_of(engine: u8, n: u32) -> Result<Vec<Case>, String> {
    let last = quorum(engine, n) - 1;
    let mut start = unit(engine, n, None);
    (start.entry, start.numbers) = (Entry::Start, [engine.into(), n, 1, ENTRY, 0]);
    let mut key_on = unit(engine, n, None);
    key_on.entry = Entry::KeyOn;
    let mut propose = unit(engine, n, None);
    propose.entry = Entry::Propose;
    let deliver = |marks, kind, round| delivery(engine, n, marks, kind, round);
    let mut rows = vec![
        ("start", vec![start]),
        ("key-on", vec![key_on]),
        ("propose", vec![propose]),
        ("first-logs", vec![deliver(None, b'F', 4)]),
        ("second-marks", vec![deliver(None, b'S', 4)]),
        (
            "second-decides",
            vec![deliver(Some((SECOND_MARKS, last)), b'S', 4)],
        ),
        ("below-skips", vec![deliver(None, b'S', 3)]),
        (
            "above-raises",
            vec![deliver(Some((SECOND_MARKS, last)), b'S', 5)],
        ),
        ("history", history(engine, n)?),
    ];
    if engine == b'B' {
        rows.insert(4, ("check-marks", vec![deliver(None, b'C', 4)]));
        rows.insert(
            5,
            (
                "check-quorum",
                vec![deliver(Some((CHECK_MARKS, last)), b'C', 4)],
            ),
        );
    }
    let case = |(name, templates)| Case {
        name: format!("{name}-{}-{n}", engine as char),
        templates,
    };
    Ok(rows.into_iter().map(case).collect())
}

/// The same call on a row of a card of 64.
fn on_card(template: &Template) -> Template {
    let row = rows::of_bytes(&template.log, &template.image);
    let (engine, n, unit) = (row.log.engine, row.log.n, row.log.unit);
    Template {
        entry: match template.entry {
            Entry::Start => Entry::CardStart,
            Entry::KeyOn => Entry::CardKeyOn,
            Entry::Propose => Entry::CardPropose,
            _ => Entry::CardDeliver,
        },
        numbers: [engine, n, unit, ENTRY, 5],
        row: Some(row),
        ..template.clone()
    }
}

/// The calls for one unit; and the same on a card.
pub fn all() -> Result<[Vec<Case>; 2], String> {
    let mut cases = Vec::new();
    for (engine, n) in [(b'B', 3), (b'R', 3), (b'B', 16), (b'R', 16)] {
        cases.extend(cases_of(engine, n)?);
    }
    let card = |case: &Case| Case {
        name: format!("card-{}", case.name),
        templates: case.templates.iter().map(on_card).collect(),
    };
    let cards = cases.iter().map(card).collect();
    Ok([cases, cards])
}
