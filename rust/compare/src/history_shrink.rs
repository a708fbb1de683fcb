//! A history that has trouble made smaller, and told as a script.

use crate::history::{Run, Tally};
use crate::shrink::{least, lower_mileages, without_unit};
use crate::side::{Pair, Side};
use crate::trouble::Trouble;
use crate::world::{Event, Setting, What};
use std::fmt::Write;

/// A whole list of events again.
fn replay(pair: &Pair, setting: &Setting, events: &[Event]) -> Result<(), Trouble> {
    let tally = &mut Tally::default();
    let mut run = Run::new(pair, setting, tally)?;
    events
        .iter()
        .try_for_each(|&event| run.step_event(event, tally).map(drop))
}

/// Without a unit and its events.
fn fewer_units(setting: &Setting, events: &[Event], unit: u32) -> (Setting, Vec<Event>) {
    let mut fewer = setting.clone();
    fewer.n -= 1;
    if !setting.rounds.is_empty() {
        fewer.rounds.remove(unit as usize);
    }
    (fewer, without_unit(events, unit))
}

/// A setting and events with smaller numbers.
fn smaller(setting: &Setting, events: &[Event]) -> Vec<(Setting, Vec<Event>)> {
    let mut tries = Vec::new();
    if setting.n > 3 {
        tries.extend((0..setting.n).map(|unit| fewer_units(setting, events, unit)));
    }
    if setting.entry > 1 {
        tries.push((
            Setting {
                entry: 1,
                ..setting.clone()
            },
            events.to_vec(),
        ));
    }
    let lower = lower_mileages(events, |what| match what {
        What::Propose(mileage) => Some(mileage),
        _ => None,
    });
    tries.extend(lower.into_iter().map(|events| (setting.clone(), events)));
    tries
}

/// Events taken away and numbers made small, as long as the history has trouble like this.
fn shrink(
    pair: &Pair,
    setting: &Setting,
    events: &[Event],
    trouble: &Trouble,
) -> (Setting, Vec<Event>) {
    let like = |setting: &Setting, events: &[Event]| {
        replay(pair, setting, events)
            .err()
            .is_some_and(|other| other.is_like(trouble))
    };
    least((setting.clone(), events.to_vec()), smaller, &like)
}

/// The events as a script, if the bench could play them.
fn script(side: &Side, setting: &Setting, events: &[Event]) -> String {
    let mut text = format!(
        "{},{},{}\n",
        setting.engine as char, setting.n, setting.entry
    );
    let pair = Pair(*side, *side);
    let tally = &mut Tally::default();
    let Ok(mut run) = Run::new(&pair, setting, tally) else {
        return text;
    };
    for &event in events {
        let number = |by| {
            run.world
                .number_of(by)
                .map_or(u64::from(u32::MAX), |number| number as u64)
        };
        let _ = match event.what {
            What::Propose(mileage) => writeln!(text, "P,{},{mileage}", event.unit),
            What::Deliver(by) => writeln!(text, "D,{},{}", event.unit, number(by)),
            What::Cut(by) => writeln!(text, "W,{},{}", event.unit, number(by)),
            What::KeyOff => writeln!(text, "K,{}", event.unit),
            What::KeyOn => writeln!(text, "U,{}", event.unit),
            What::Stray(seed) => writeln!(
                text,
                "(a call with arbitrary buffers of unit {}, seed {seed}: no script has it)",
                event.unit
            ),
        };
        let _ = run.step_event(event, tally);
    }
    if !setting.rounds.is_empty() {
        let _ = writeln!(
            text,
            "(the units begin in rounds {:?}: no script has it)",
            setting.rounds
        );
    }
    text
}

/// The shrunk history as a script, and its trouble.
pub fn report(pair: &Pair, run: &Run, trouble: &Trouble) -> String {
    let (setting, events) = shrink(pair, &run.setting, &run.events, trouble);
    let shown = replay(pair, &setting, &events)
        .err()
        .unwrap_or_else(|| trouble.clone());
    format!(
        "FAILED, shrunk to {} events:\n{}{shown}",
        events.len(),
        script(&pair.1, &setting, &events)
    )
}
