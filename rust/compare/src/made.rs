//! The ways to make a script that means something.

use crate::format::OLD_MAX_MILEAGE;
use crate::listed::{one_of, BAD_LINES};
use crate::play::{Play, Seen, PLACES};
use crate::random::{greatest_mileage, Random};

/// A way to make a script: its text, and what it does as far as it is played along.
pub type Make = fn(&mut Random) -> (Vec<u8>, Seen);

fn played(n: u32, random: &mut Random, how: impl Fn(&mut Play)) -> (Vec<u8>, Seen) {
    let mut play = Play::begin(n, greatest_mileage(random), random);
    how(&mut play);
    (play.text, play.seen)
}

pub fn any(random: &mut Random) -> (Vec<u8>, Seen) {
    let n = 3 + random.below(14);
    let count = 10 + random.below(50 * n);
    played(n, random, |play| play.moves(count))
}

/// Rounds one after the other, each with rivals of their own mileages, so that many split and later ones close.
pub fn rivals(random: &mut Random) -> (Vec<u8>, Seen) {
    let (n, count) = (3 + random.below(14), 2 + random.below(3));
    played(n, random, |play| play.rounds(count))
}

/// A play broken off anywhere; then it is seen what the units hold.
pub fn probed(random: &mut Random) -> (Vec<u8>, Seen) {
    let n = 3 + random.below(4);
    played(n, random, |play| {
        play.most_lines = 5 + play.random.index(20 * n as usize);
        play.deaf = play.random.below(n + 1);
        if play.random.chance(1, 3) {
            play.moves(25 * n);
        } else {
            play.rounds(2);
        }
        play.most_lines = usize::MAX;
        play.wake_up(1000);
        let first = if play.random.chance(2, 3) {
            play.raised()
        } else {
            play.ahead()
        };
        play.probe(first);
        let second = play.ahead();
        play.probe(second);
    })
}

/// Short, and with few units.
pub fn short(random: &mut Random) -> (Vec<u8>, Seen) {
    let (n, count) = (3 + random.below(3), random.below(50));
    played(n, random, |play| play.moves(count))
}

/// Until all places are full, and on for a while.
pub fn full(random: &mut Random) -> (Vec<u8>, Seen) {
    let n = 3 + random.below(14);
    played(n, random, |play| {
        play.proposals = play.proposals.max(20);
        for _ in 0..1500 {
            if play.world.sent.len() < PLACES {
                play.one_move();
            }
        }
        play.in_order = 200;
        play.cuts = 100;
        let more = 20 + play.random.below(100);
        play.moves(more);
    })
}

/// As long as a script may be, for the benchmark. Its proposals are accepted or refused as they were before request 3.
pub fn longest(random: &mut Random) -> Vec<u8> {
    let mut play = Play::begin(5, OLD_MAX_MILEAGE, random);
    (
        play.in_order,
        play.keys,
        play.cuts,
        play.slips,
        play.proposals,
    ) = (900, 20, 20, 20, 10);
    while play.text.len() < 32_700 {
        play.one_move();
    }
    play.text
}

/// Malformed lines between good ones.
pub fn bad_lines(random: &mut Random) -> (Vec<u8>, Seen) {
    played(3, random, |play| {
        play.slips = 0;
        for _ in 0..5 + play.random.below(40) {
            if play.random.chance(1, 2) {
                let line = one_of(BAD_LINES, play.random);
                play.text(line);
            } else {
                play.one_move();
            }
        }
    })
}
