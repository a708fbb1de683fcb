//! A failing call made smaller: it loses what differs from a calm one, or from zeros.

use crate::call::{Call, Entry, CARD_ENTRIES, MESSAGE, ROWS};
use crate::card_generate::lend;
use crate::format::{self, image_of, log_of, message_of, BLANK, EVERYONE, MESSAGE_ENTRY};
use crate::generate::call_of;
use crate::random::Random;
use crate::rows;
use crate::scene::Contents;
use crate::shrink::fewer;

/// Where calls of one entry can differ: a buffer's length, one of its items, a number given.
#[derive(Clone, Copy)]
enum Place {
    Length(usize),
    Item(usize, usize),
    Number(usize),
}

/// What stands there.
type Atom = (Place, u32);

fn put(call: &mut Call, (place, value): Atom) {
    match place {
        Place::Length(buffer) => call.resize(buffer, value as usize, 0),
        Place::Item(buffer, at) => call.put_item(buffer, at, value),
        Place::Number(at) => call.numbers[at] = value,
    }
}

/// Those of the first that are not the same in the second, which goes on with zeros.
fn differing(one: &[u32], other: &[u32]) -> Vec<(usize, u32)> {
    let base = other.iter().chain(std::iter::repeat(&0));
    let both = one.iter().zip(base).enumerate();
    both.filter(|(_, (one, other))| one != other)
        .map(|(at, (&one, _))| (at, one))
        .collect()
}

fn atoms(call: &Call, calm: &Call) -> Vec<Atom> {
    let mut atoms = Vec::new();
    for buffer in call.entry.buffers() {
        let (one, other) = (call.items(buffer), calm.items(buffer));
        if call.len(buffer) != calm.len(buffer) {
            atoms.push((Place::Length(buffer), call.len(buffer) as u32));
        }
        let items = differing(&one, &other).into_iter();
        atoms.extend(items.map(|(at, value)| (Place::Item(buffer, at), value)));
    }
    let numbers = differing(&call.numbers, &calm.numbers).into_iter();
    atoms.extend(numbers.map(|(at, value)| (Place::Number(at), value)));
    atoms
}

fn rebuilt(calm: &Call, atoms: &[Atom]) -> Call {
    let mut call = calm.clone();
    atoms.iter().for_each(|&atom| put(&mut call, atom));
    call
}

/// A call of this entry that is well-formed throughout: a unit in round 1 without marks, and a FIRST for it.
fn calm(entry: Entry) -> Call {
    let record = [b'B'.into(), 3, 0, 1, 1, BLANK, BLANK, BLANK];
    let contents = Contents {
        log: log_of(record),
        image: image_of(record),
        message: message_of([b'F'.into(), b'B'.into(), 3, 1, EVERYONE, 1, 1, 5, 5]),
    };
    if CARD_ENTRIES.contains(&entry) {
        let mut call = lend(
            entry,
            &[rows::of_bytes(&contents.log, &contents.image)],
            1,
            0,
        );
        call.bytes[MESSAGE].put(&contents.message);
        return call;
    }
    let mut call = call_of(entry, &contents, &mut Random::new(0));
    call.numbers = if entry == Entry::Start {
        [b'B'.into(), 3, 0, 1, 0]
    } else {
        [5, 0, 0, 0, 0]
    };
    call
}

fn smaller_numbers(
    calm: &Call,
    mut atoms: Vec<Atom>,
    fails: &mut dyn FnMut(&Call) -> bool,
) -> Vec<Atom> {
    for at in 0..atoms.len() {
        let (place, value) = atoms[at];
        for less in [0, 1, value / 2].into_iter().filter(|&less| less < value) {
            let mut tried = atoms.clone();
            tried[at] = (place, less);
            if fails(&rebuilt(calm, &tried)) {
                atoms = tried;
                break;
            }
        }
    }
    atoms
}

/// The same on a card of one row: the row in question becomes row 1.
fn on_row_1(call: &Call) -> Option<Call> {
    let place = call.place()?;
    let mut row = call.rows.slice()[place];
    for entry in [&mut row.log.entry, &mut row.image.entry] {
        if *entry == place as u32 + 1 {
            *entry = 1;
        }
    }
    let mut one = call.clone();
    one.resize(ROWS, 1, 0);
    one.rows.put(&[row]);
    one.numbers[3] = 1;
    if call.entry == Entry::CardDeliver {
        format::put(one.bytes[MESSAGE].slice_mut(), MESSAGE_ENTRY, 1);
    }
    Some(one)
}

/// A call that still fails and differs in few bytes from a calm one, or from zeros.
pub fn call(call: &Call, fails: &mut dyn FnMut(&Call) -> bool) -> Call {
    let call = &on_row_1(call)
        .filter(|one| fails(one))
        .unwrap_or_else(|| call.clone());
    let bases = [calm(call.entry), Call::new(call.entry, 0)];
    let tries = bases.map(|base| {
        let few = fewer(atoms(call, &base), &mut |atoms| {
            fails(&rebuilt(&base, atoms))
        });
        let few = smaller_numbers(&base, few, fails);
        (few.len(), rebuilt(&base, &few))
    });
    let best = tries
        .into_iter()
        .filter(|(_, tried)| fails(tried))
        .min_by_key(|&(len, _)| len);
    best.map_or_else(|| call.clone(), |(_, least)| least)
}
