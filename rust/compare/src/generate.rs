//! Calls at random: contents that mean something, contents from histories, damaged ones, and noise.

use crate::call::{Call, Entry, ENTRIES, IMAGE, LOG, MESSAGE};
use crate::damage::{damage, damage_length};
use crate::format::{self, BLANK, MAX_MILEAGE, SPLIT};
use crate::random::{greatest_mileage, Random};
use crate::scene::{Contents, Pool, Scene};

/// A call with these contents; what it only writes is often left as a random byte.
pub fn call_of(entry: Entry, contents: &Contents, random: &mut Random) -> Call {
    let mut call = Call::new(entry, random.byte());
    let written = matches!(entry, Entry::Start | Entry::WriteLog | Entry::WriteMessage)
        && random.chance(1, 2);
    if !written {
        call.bytes[LOG].put(&contents.log);
        call.bytes[MESSAGE].put(&contents.message);
    }
    if entry != Entry::KeyOn || random.chance(1, 2) {
        call.bytes[IMAGE].put(&contents.image);
    }
    match entry {
        Entry::WriteLog => call.fields.put(&format::fields(&contents.log, format::LOG)),
        Entry::WriteMessage => call
            .fields
            .put(&format::fields(&contents.message, format::MESSAGE)),
        _ => {}
    }
    if entry == Entry::Start {
        let settings = format::fields(&contents.log, format::LOG);
        call.numbers[..4].copy_from_slice(&settings[..4]);
    } else {
        call.numbers[0] = given_mileage(random);
    }
    call
}

/// A mileage to propose, seldom one that is out of range.
pub fn given_mileage(random: &mut Random) -> u32 {
    let greatest = greatest_mileage(random);
    let (good, wrong) = (
        random.between(0, greatest),
        random.one_of(&[MAX_MILEAGE + 1, SPLIT, BLANK]),
    );
    random.either((1, 20), wrong, good)
}

fn some_entry(random: &mut Random) -> Entry {
    match random.below(14) {
        0..=4 => Entry::Deliver,
        5 | 6 => Entry::Propose,
        _ => random.one_of(&ENTRIES),
    }
}

/// How calls at random are made: which entry, a call with contents, damage to it, and noise.
pub struct Maker {
    pub some_entry: fn(&mut Random) -> Entry,
    pub call_of: fn(Entry, &Contents, &mut Random) -> Call,
    pub damage: fn(&mut Call, &mut Random),
    pub noise: fn(Entry, &mut Random) -> Call,
}

/// A random call of any entry of one unit.
pub fn call(pool: &Pool, random: &mut Random) -> Call {
    const UNITS: Maker = Maker {
        some_entry,
        call_of,
        damage,
        noise,
    };
    made(&UNITS, pool, random)
}

/// A call with contents from a history or made up, as they are or damaged; or noise.
pub fn made(maker: &Maker, pool: &Pool, random: &mut Random) -> Call {
    let entry = (maker.some_entry)(random);
    let choice = random.below(20);
    if choice == 0 {
        return (maker.noise)(entry, random);
    }
    let contents = match choice {
        1..=4 => pool.contents(random),
        _ => Scene::new(random).contents(random),
    };
    let mut call = (maker.call_of)(entry, &contents, random);
    if choice > 12 || choice == 4 {
        for _ in 0..random.one_of(&[1, 1, 1, 2, 3]) {
            (maker.damage)(&mut call, random);
        }
    }
    call
}

fn noise(entry: Entry, random: &mut Random) -> Call {
    let mut call = Call::new(entry, random.byte());
    if random.chance(1, 2) {
        for lent in &mut call.bytes {
            lent.slice_mut()
                .iter_mut()
                .for_each(|byte| *byte = random.byte());
        }
        call.fields
            .slice_mut()
            .iter_mut()
            .for_each(|field| *field = any_number(random));
    }
    call.numbers = std::array::from_fn(|_| any_number(random));
    if random.chance(1, 4) {
        damage_length(&mut call, random);
    }
    call
}

pub fn any_number(random: &mut Random) -> u32 {
    let (small, any) = (random.below(20), random.number() as u32);
    random.either((1, 2), small, any)
}
