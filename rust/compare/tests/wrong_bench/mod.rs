//! A bench whose units are of any side.

use compare::call::{Answer, IMAGE, LOG};
use compare::format::ACCEPTED;
use compare::play::PLACES;
use compare::side::Side;
use compare::world::{first_calls, Done, Event, Setting, What, World};
use independent::bench::listing;
use std::fmt::Write;

const DOWN_OR_NOT: u32 = 9;
const NOT_SENT: u32 = 10;
const FULL: u32 = 11;

fn numbers(line: &str) -> Vec<u32> {
    let fields = line.split(',').skip(1);
    fields
        .map(|field| field.parse().expect("a number"))
        .collect()
}

fn begun(side: &Side, header: &str) -> World {
    let [n, entry] = numbers(header)[..] else {
        panic!("a header: {header}");
    };
    let setting = Setting {
        engine: header.as_bytes()[0],
        n,
        entry,
        rounds: Vec::new(),
    };
    let mut world = World::empty(PLACES);
    for call in (0..n).flat_map(|unit| first_calls(&setting, unit)) {
        let after = call.on(side).after;
        world.begin_unit(after.bytes[LOG].slice(), after.bytes[IMAGE].slice());
    }
    world
}

fn what(world: &World, letter: u8, operand: u32) -> What {
    let by = world.name_of(operand as usize);
    match letter {
        b'P' => What::Propose(operand),
        b'D' => What::Deliver(by),
        b'W' => What::Cut(by),
        b'K' => What::KeyOff,
        _ => What::KeyOn,
    }
}

/// The number of a line, from what its call answered, if it made one.
fn number(was_up: bool, event: &Event, answer: Option<&Answer>, done: &Done) -> u32 {
    match answer.map(|answer| answer.number) {
        _ if done.taken => ACCEPTED,
        Some(ACCEPTED) => FULL,
        Some(number) => number,
        None if was_up && !matches!(event.what, What::KeyOn) => NOT_SENT,
        None => DOWN_OR_NOT,
    }
}

fn played(side: &Side, world: &mut World, index: usize, line: &str) -> String {
    let (letter, numbers) = (line.as_bytes()[0], numbers(line));
    let (unit, operand) = (numbers[0], numbers.get(1).copied().unwrap_or(0));
    let (was_up, kept) = (world.units[unit as usize].up, world.sent.len());
    let event = Event {
        id: index,
        unit,
        what: what(world, letter, operand),
    };
    let answer = world.call(&event).map(|call| call.on(side));
    let done = world.apply(&event, answer.as_ref());
    let number = number(was_up, &event, answer.as_ref(), &done);
    let or_dash = |shown: Option<String>| shown.unwrap_or("-".to_string());
    let sent = or_dash((world.sent.len() > kept).then(|| kept.to_string()));
    let decision = or_dash(done.decided.map(|(mileage, _)| mileage.to_string()));
    format!(
        "{index},{},{unit},{number},{sent},{decision}",
        letter as char
    )
}

/// The listing of a script. With a malformed line or header in it, it is the right one.
pub fn listed(side: &Side, script: &[u8]) -> Vec<u8> {
    let right = String::from_utf8(listing(script)).expect("a listing is text");
    if right.contains(",?,-,") {
        return right.into_bytes();
    }
    let script = String::from_utf8(script.to_vec()).expect("a script of well-formed lines is text");
    let header = right.lines().next().expect("a header");
    let (mut text, mut world) = (format!("{header}\n"), begun(side, header));
    let mut count = 0;
    for (at, line) in script.lines().enumerate().skip(1) {
        let _ = writeln!(text, "{}", played(side, &mut world, at, line));
        count = at;
    }
    let _ = writeln!(text, "end,{count},{}", world.sent.len());
    text.into_bytes()
}
