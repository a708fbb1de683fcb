//! Every small change of good calls: each byte with every value, each field at every limit, every set of lengths.

use crate::call::{Call, Entry, IMAGE, LOG, MESSAGE, ROWS};
use crate::damage::{fields_of, lengths, COUNTS, LIMITS};
use crate::format::{get, put, ROW_NUMBERS};
use crate::generate::call_of;
use crate::random::Random;
use crate::reached::{branch, BRANCHES};
use crate::rows;
use crate::scene::{Contents, Scene};
use crate::side::Side;

/// What is done with each call.
pub type Check<'a, E> = &'a mut dyn FnMut(&Call) -> Result<(), E>;

fn delivers(contents: &Contents, wanted: &str, side: &Side) -> bool {
    let call = call_of(Entry::Deliver, contents, &mut Random::new(0));
    branch(&call, &call.on(side)).is_some_and(|branch| branch == wanted.as_bytes())
}

/// Contents for each branch of a delivery, found on that side.
pub fn bases(side: &Side, random: &mut Random) -> Result<Vec<Contents>, String> {
    let mut find = |wanted: &str| {
        let mut tries = (0..1_000_000).map(|_| Scene::new(random).contents(random));
        tries
            .find(|contents| delivers(contents, wanted, side))
            .ok_or_else(|| format!("FAILED: no delivery found for the branch {wanted}"))
    };
    BRANCHES.iter().map(|wanted| find(wanted)).collect()
}

/// Every byte of a delivery, with every value.
pub fn every_byte<E>(base: &Contents, random: &mut Random, check: Check<E>) -> Result<(), E> {
    let base = call_of(Entry::Deliver, base, random);
    for buffer in [LOG, IMAGE, MESSAGE] {
        for at in 0..base.bytes[buffer].slice().len() {
            for value in 0..=255 {
                let mut call = base.clone();
                call.bytes[buffer].slice_mut()[at] = value;
                check(&call)?;
            }
        }
    }
    Ok(())
}

/// A number that a call is lent or given.
#[derive(Clone, Copy)]
enum Slot {
    In(usize, crate::format::Field),
    Fields(usize),
    Number(usize),
    Row(usize),
}

impl Slot {
    fn get(self, call: &Call) -> u32 {
        match self {
            Slot::In(buffer, field) => get(call.bytes[buffer].slice(), field),
            Slot::Fields(at) => call.fields.slice()[at],
            Slot::Number(at) => call.numbers[at],
            Slot::Row(at) => rows::number(call.rows.slice(), at),
        }
    }

    fn put(self, call: &mut Call, number: u32) {
        match self {
            Slot::In(buffer, field) => put(call.bytes[buffer].slice_mut(), field, number),
            Slot::Fields(at) => call.fields.slice_mut()[at] = number,
            Slot::Number(at) => call.numbers[at] = number,
            Slot::Row(at) => rows::put_number(call.rows.slice_mut(), at, number),
        }
    }
}

/// The places of the row that a call on a card is about, and of another row, where there is one.
fn own_and_next(call: &Call) -> Vec<usize> {
    let count = call.len(ROWS);
    let own = call.place().unwrap_or(0);
    [own, own + 1]
        .into_iter()
        .take(count)
        .map(|place| place % count)
        .collect()
}

fn slots(call: &Call) -> Vec<Slot> {
    let lent = [LOG, IMAGE, MESSAGE]
        .into_iter()
        .filter(|&buffer| call.bytes[buffer].is_lent());
    let bytes = lent.flat_map(|buffer| {
        fields_of(buffer)
            .into_iter()
            .map(move |field| Slot::In(buffer, field))
    });
    let fields = (0..call.fields.slice().len()).map(Slot::Fields);
    let rows = own_and_next(call)
        .into_iter()
        .flat_map(|row| (0..ROW_NUMBERS).map(move |at| Slot::Row(ROW_NUMBERS * row + at)));
    bytes
        .chain(fields)
        .chain(rows)
        .chain((0..call.entry.numbers()).map(Slot::Number))
        .collect()
}

/// Every number of these calls, at each limit, one more and one less.
pub fn every_limit<E>(calls: &[Call], check: Check<E>) -> Result<(), E> {
    for base in calls {
        for slot in slots(base) {
            let own = slot.get(base);
            for number in LIMITS
                .into_iter()
                .chain([own.wrapping_add(1), own.wrapping_sub(1)])
            {
                let mut call = base.clone();
                slot.put(&mut call, number);
                check(&call)?;
            }
        }
    }
    Ok(())
}

/// Every set of right and wrong lengths, of these calls.
pub fn every_length<E>(calls: &[Call], check: Check<E>) -> Result<(), E> {
    for base in calls {
        let (buffers, rights) = (base.entry.buffers(), base.entry.lengths());
        let choices = |at: usize| match at {
            ROWS => COUNTS.to_vec(),
            _ => lengths(rights[at]).to_vec(),
        };
        let mut sets = vec![Vec::new()];
        for &at in &buffers {
            let longer = |set: &Vec<usize>| {
                choices(at)
                    .into_iter()
                    .map(|len| [&set[..], &[len]].concat())
                    .collect::<Vec<_>>()
            };
            sets = sets.iter().flat_map(longer).collect();
        }
        for set in sets {
            let mut call = base.clone();
            for (&at, len) in buffers.iter().zip(set) {
                call.resize(at, len, 7);
            }
            check(&call)?;
        }
    }
    Ok(())
}
