//! A history of cards that has trouble made smaller, and told event by event.

use crate::card_history::CardRun;
use crate::card_tally::CardTally;
use crate::card_world::{Event, Setting, What, World};
use crate::format::{get, MESSAGE_ENTRY, MESSAGE_ROUND, MIN_UNITS, SENDER};
use crate::shrink::{least, lower_mileages, without_unit};
use crate::side::Pair;
use crate::trouble::Trouble;
use crate::world::number_of;
use std::fmt::Write;

fn replay(pair: &Pair, setting: &Setting, events: &[Event]) -> Result<(), Trouble> {
    let mut run = CardRun::new(pair, setting);
    let tally = &mut CardTally::default();
    events
        .iter()
        .try_for_each(|&event| run.step_event(event, tally).map(drop))
}

fn fewer_units(setting: &Setting, events: &[Event], unit: u32) -> (Setting, Vec<Event>) {
    let mut fewer = setting.clone();
    fewer.n -= 1;
    fewer.counts.remove(unit as usize);
    (fewer, without_unit(events, unit))
}

/// Fewer units, shorter cards, and smaller mileages.
fn smaller(setting: &Setting, events: &[Event]) -> Vec<(Setting, Vec<Event>)> {
    let mut tries = Vec::new();
    if setting.n > MIN_UNITS {
        tries.extend((0..setting.n).map(|unit| fewer_units(setting, events, unit)));
    }
    for unit in 0..setting.counts.len() {
        let mut shorter = setting.clone();
        let count = &mut shorter.counts[unit];
        *count = if *count > 8 { *count / 2 } else { *count - 1 };
        if *count > 0 {
            tries.push((shorter, events.to_vec()));
        }
    }
    let lower = lower_mileages(events, |what| match what {
        What::Propose(_, mileage) => Some(mileage),
        _ => None,
    });
    tries.extend(lower.into_iter().map(|events| (setting.clone(), events)));
    tries
}

/// A message: its number, kind, sender, entry and round.
fn told(world: &World, by: usize) -> String {
    let Some(number) = number_of(&world.sent, by) else {
        return "a message not yet sent".to_string();
    };
    let bytes = &world.sent[number].bytes;
    let [sender, entry, round] =
        [SENDER, MESSAGE_ENTRY, MESSAGE_ROUND].map(|field| get(bytes, field));
    format!(
        "message {number} ({} of {sender}, entry {entry}, round {round})",
        bytes[0] as char
    )
}

fn list(pair: &Pair, setting: &Setting, events: &[Event]) -> String {
    let Setting { engine, n, counts } = setting;
    let mut text = format!("engine {}, n {n}, rows {counts:?}\n", *engine as char);
    let same = Pair(pair.1, pair.1);
    let mut run = CardRun::new(&same, setting);
    for &event in events {
        let what = match event.what {
            What::Start(row) => format!("starts row {row}"),
            What::Propose(row, mileage) => format!("proposes {mileage} for row {row}"),
            What::Deliver(by) => format!("hears {}", told(&run.world, by)),
            What::Cut(by) => format!("hears, then its key goes off, {}", told(&run.world, by)),
            What::KeyOff(row) => format!("key off, row {row}"),
            What::KeyOn(row) => format!("key on, row {row}"),
            What::Stray(seed) => format!("a call on a damaged card, seed {seed}"),
        };
        let _ = writeln!(text, "unit {}: {what}", event.unit);
        let _ = run.step_event(event, &mut CardTally::default());
    }
    text
}

/// The shrunk history, event by event, and its trouble.
pub fn report(pair: &Pair, run: &CardRun, trouble: &Trouble) -> String {
    let like = |setting: &Setting, events: &[Event]| {
        replay(pair, setting, events)
            .err()
            .is_some_and(|other| other.is_like(trouble))
    };
    let begin = (run.setting.clone(), run.events.clone());
    let (setting, events) = least(begin, smaller, &like);
    let shown = replay(pair, &setting, &events)
        .err()
        .unwrap_or_else(|| trouble.clone());
    format!(
        "FAILED, shrunk to {} events on cards:\n{}{shown}",
        events.len(),
        list(pair, &setting, &events)
    )
}
