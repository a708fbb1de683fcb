//! Calls on cards at random: a row that means something or comes from a history, among other rows; damaged ones, and noise.

use crate::call::{Call, Entry, CARD_ENTRIES, MESSAGE, ROWS};
use crate::card_damage::damage;
use crate::damage::{damage_length, LIMITS};
use crate::format::{get, put, ENTRY, MAX_ROWS, MESSAGE_ENTRY, MIN_ROWS, ROW_NUMBERS};
use crate::generate::{any_number, given_mileage, made, Maker};
use crate::random::Random;
use crate::rows;
use crate::scene::{Contents, Pool};
use independent::card::Row;

/// A call about the row of this number, with its log's settings beside the card. The filler is as in `Call::new`.
pub fn lend(entry: Entry, rows: &[Row], number: u32, filler: u8) -> Call {
    let mut call = Call::new(entry, filler);
    call.resize(ROWS, rows.len(), filler);
    call.rows.put(rows);
    let log = rows[number as usize - 1].log;
    call.numbers = [log.engine, log.n, log.unit, number, 5];
    call
}

/// How many rows: often one, a few, or as many as there can be.
fn some_count(random: &mut Random) -> u32 {
    let (few, any) = (2 + random.below(4), random.between(MIN_ROWS, MAX_ROWS));
    match random.below(8) {
        0..=2 => 1,
        3..=5 => few,
        6 => any,
        _ => random.one_of(&[MAX_ROWS, 16, 8]),
    }
}

/// Rows beside the one in question: garbage, the same row, or the same unit with the entries that these rows have.
fn other_rows(own: &Row, count: u32, random: &mut Random) -> Vec<Row> {
    let garbage = rows::of_number(random.one_of(&LIMITS));
    let style = random.below(4);
    let one = |number: u32| {
        let mut row = *own;
        (row.log.entry, row.image.entry) = (number, number);
        match style {
            0 => garbage,
            1 => *own,
            2 => row,
            _ => rows::of_number(LIMITS[number as usize % LIMITS.len()]),
        }
    };
    (1..=count).map(one).collect()
}

/// The contents as those of another entry. A message of yet another entry goes to any row, or to none.
fn moved(contents: &Contents, number: u32, random: &mut Random) -> Contents {
    let mut moved = contents.clone();
    put(&mut moved.log, ENTRY, number);
    put(&mut moved.image, ENTRY, number);
    let same = get(&contents.message, MESSAGE_ENTRY) == get(&contents.log, ENTRY);
    let other = random.between(MIN_ROWS, MAX_ROWS + 2);
    if same || random.chance(1, 2) {
        let entry = if same { number } else { other };
        put(&mut moved.message, MESSAGE_ENTRY, entry);
    }
    moved
}

/// A call with these contents in a row of a card.
pub fn call_of(entry: Entry, contents: &Contents, random: &mut Random) -> Call {
    let count = some_count(random);
    let number = random.between(1, count);
    let contents = moved(contents, number, random);
    let own = rows::of_bytes(&contents.log, &contents.image);
    let mut card = other_rows(&own, count, random);
    card[number as usize - 1] = own;
    let mut call = lend(entry, &card, number, random.byte());
    call.numbers[4] = given_mileage(random);
    call.bytes[MESSAGE].put(&contents.message);
    unread(&mut call, random);
    call
}

/// What a start or a key-on does not read is often garbage.
fn unread(call: &mut Call, random: &mut Random) {
    let Some(place) = call.place() else {
        return;
    };
    let row = &mut call.rows.slice_mut()[place];
    let garbage = rows::of_number(random.one_of(&LIMITS));
    match call.entry {
        Entry::CardStart if random.chance(1, 2) => *row = garbage,
        Entry::CardKeyOn if random.chance(1, 2) => {
            *row = Row {
                log: row.log,
                ..garbage
            }
        }
        _ => {}
    }
}

fn some_entry(random: &mut Random) -> Entry {
    match random.below(8) {
        0..=3 => Entry::CardDeliver,
        4 => Entry::CardPropose,
        _ => random.one_of(&CARD_ENTRIES),
    }
}

/// A random call of any entry on a card.
pub fn call(pool: &Pool, random: &mut Random) -> Call {
    const CARDS: Maker = Maker {
        some_entry,
        call_of,
        damage,
        noise,
    };
    made(&CARDS, pool, random)
}

fn noise(entry: Entry, random: &mut Random) -> Call {
    let mut call = Call::new(entry, random.byte());
    call.resize(ROWS, 1 + random.index(4), random.byte());
    for row in call.rows.slice_mut() {
        (0..ROW_NUMBERS).for_each(|at| *rows::number_mut(row, at) = any_number(random));
    }
    let message = call.bytes[MESSAGE].slice_mut();
    message.iter_mut().for_each(|byte| *byte = random.byte());
    call.numbers = std::array::from_fn(|_| any_number(random));
    if random.chance(1, 4) {
        damage_length(&mut call, random);
    }
    call
}
