//! Votes sent again: a FIRST or CHECK of the unit's round, met with the estimate there already, changes nothing and has the unit send
//! its CHECK or SECOND once more.

use independent::calls;
use independent::codec::{BLANK, SPLIT};
use unit::{broadcast, log_fields, message, Bytes, Unit, B, C, EMPTY, ENTRY, F, K, R, S};

mod unit;

const MILEAGES: [u32; 5] = [0, 6, 9, 10_000_000, 99_999_999];

impl Unit {
    fn key_off_and_on(&mut self) {
        self.image.fill(0xAA);
        assert_eq!(calls::key_on(&self.log, &mut self.image), 0);
    }

    /// A message of this kind from every unit of three, itself too, with every mileage: each time the unit stays and sends this.
    fn sends_again(&self, kind: u32, vote: Bytes) {
        let [engine, n, unit, _, round, ..] = self.current();
        assert!((n, unit) == (3, 1));
        for (sender, mileage) in (0..n).flat_map(|sender| MILEAGES.map(|mileage| (sender, mileage)))
        {
            let mut after = *self;
            let met = broadcast(kind, engine, n, sender, round, mileage, mileage);
            assert_eq!(after.deliver(&met), (0, vote, BLANK));
            assert_eq!(after, *self);
        }
    }
}

fn check(round: u32, estimate: u32) -> Bytes {
    broadcast(C, B, 3, 1, round, estimate, estimate)
}

fn second(engine: u32, round: u32, estimate: u32, proposal: u32) -> Bytes {
    broadcast(S, engine, 3, 1, round, estimate, proposal)
}

/// The unit's own first estimate, whatever its second one, its proposal and the FIRST's.
#[test]
fn b_sends_its_check_again() {
    for round in [0, 4, 9_999] {
        for later in [BLANK, 6, 9, SPLIT] {
            for proposal in [BLANK, 5, 6] {
                let unit = Unit::of_log([B, 3, 1, ENTRY, round, proposal, 6, later]);
                unit.sends_again(F, check(round, 6));
            }
        }
    }
}

#[test]
fn r_sends_its_second_again() {
    for round in [0, 4, 9_999] {
        for proposal in [BLANK, 0, 6, 99_999_999] {
            let unit = Unit::of_log([R, 3, 1, ENTRY, round, proposal, 7, BLANK]);
            unit.sends_again(F, second(R, round, 7, proposal));
        }
    }
}

/// Whatever the unit's first estimate, and a split second one too.
#[test]
fn b_sends_its_second_again() {
    for round in [0, 4, 9_999] {
        for (first, estimate) in [(BLANK, 6), (6, 6), (9, 6), (6, SPLIT), (BLANK, SPLIT)] {
            for proposal in [BLANK, 5] {
                let unit = Unit::of_log([B, 3, 1, ENTRY, round, proposal, first, estimate]);
                unit.sends_again(C, second(B, round, estimate, proposal));
            }
        }
    }
}

/// A unit gathers while it sends again: its marks stay.
#[test]
fn marks_stay() {
    let mut unit = Unit::of_log([B, 3, 1, ENTRY, 4, 5, 6, BLANK]);
    unit.deliver(&broadcast(C, B, 3, 2, 4, 6, 6));
    unit.deliver(&broadcast(S, B, 3, 0, 4, SPLIT, 6));
    assert_eq!(unit.marks(), (0b100, 0b001));
    unit.sends_again(F, check(4, 6));
    assert_eq!(
        unit.deliver(&broadcast(C, B, 3, 0, 4, 6, 6)),
        (0, second(B, 4, 6, 5), BLANK)
    );
    assert_eq!(unit.marks(), (0, 0b001));
    unit.sends_again(C, second(B, 4, 6, 5));
    let mut unit = Unit::of_log([R, 3, 1, ENTRY, 4, 5, 6, BLANK]);
    for sender in [2, 0] {
        unit.deliver(&broadcast(S, R, 3, sender, 4, 9, 9));
        unit.sends_again(F, second(R, 4, 6, 5));
    }
    assert_eq!(unit.marks(), (0, 0b101));
}

/// What the image holds now goes out, and not what is logged, until the key goes off.
#[test]
fn the_proposal_is_the_images() {
    let mut unit = Unit::start(R, 3, 1);
    let first = broadcast(F, R, 3, 0, 0, 7, 7);
    assert_eq!(unit.deliver(&first), (0, second(R, 0, 7, BLANK), BLANK));
    unit.propose(8);
    unit.sends_again(F, second(R, 0, 7, 8));
    assert_eq!(log_fields(&unit.log), [R, 3, 1, ENTRY, 0, BLANK, 7, BLANK]);
    unit.key_off_and_on();
    unit.sends_again(F, second(R, 0, 7, BLANK));
    unit.propose(9);
    unit.sends_again(F, second(R, 0, 7, 9));

    let mut unit = Unit::of_log([B, 3, 1, ENTRY, 4, BLANK, 6, SPLIT]);
    unit.propose(8);
    unit.sends_again(C, second(B, 4, SPLIT, 8));
    unit.sends_again(F, check(4, 6));
    unit.key_off_and_on();
    unit.sends_again(C, second(B, 4, SPLIT, BLANK));
}

/// A second estimate does not stand for the first one: that is taken, and only then sent again.
#[test]
fn a_blank_first_estimate_is_taken() {
    for later in [BLANK, 9, SPLIT] {
        let mut unit = Unit::of_log([B, 3, 1, ENTRY, 4, 5, BLANK, later]);
        let first = broadcast(F, B, 3, 0, 4, 6, 6);
        assert_eq!(unit.deliver(&first), (0, check(4, 6), BLANK));
        assert_eq!(log_fields(&unit.log), [B, 3, 1, ENTRY, 4, 5, 6, later]);
        unit.sends_again(F, check(4, 6));
    }
}

/// A first estimate does not stand for the second one.
#[test]
fn a_marked_sender_is_not_answered_without_a_second_estimate() {
    for first in [BLANK, 6] {
        let mut unit = Unit::of_log([B, 3, 1, ENTRY, 4, 5, first, BLANK]);
        unit.deliver(&broadcast(C, B, 3, 2, 4, 6, 6));
        let before = unit;
        for mileage in MILEAGES {
            let again = broadcast(C, B, 3, 2, 4, mileage, mileage);
            assert_eq!(unit.deliver(&again), (0, EMPTY, BLANK));
        }
        assert_eq!(unit, before);
    }
}

/// A SECOND or SKIP of the round has nothing sent again.
#[test]
fn other_kinds_are_not_answered() {
    let unit = Unit::of_log([B, 3, 1, ENTRY, 4, 5, 6, 6]);
    for met in [
        second(B, 4, 6, 5),
        message([K, B, 3, 0, 1, ENTRY, 4, BLANK, 5]),
    ] {
        assert_eq!({ unit }.deliver(&met), (0, EMPTY, BLANK));
    }
}

/// A message above blanks the estimates first; one below is answered with SKIP.
#[test]
fn only_of_the_units_round() {
    let mut unit = Unit::of_log([B, 3, 1, ENTRY, 4, 5, 6, 6]);
    for kind in [F, C] {
        assert_eq!(
            unit.deliver(&broadcast(kind, B, 3, 2, 3, 7, 7)),
            (0, message([K, B, 3, 1, 2, ENTRY, 4, BLANK, 5]), BLANK)
        );
    }
    assert_eq!(
        unit.deliver(&broadcast(C, B, 3, 2, 5, 7, 7)),
        (0, EMPTY, BLANK)
    );
    assert_eq!(unit.current(), [B, 3, 1, ENTRY, 5, 7, BLANK, BLANK]);
    assert_eq!(unit.marks(), (0b100, 0));
    // The image is above its log: the log's estimates are not those of the round.
    assert_eq!(log_fields(&unit.log), [B, 3, 1, ENTRY, 4, 5, 6, 6]);
    assert_eq!(
        unit.deliver(&broadcast(F, B, 3, 0, 5, 8, 8)),
        (0, check(5, 8), BLANK)
    );
    unit.sends_again(F, check(5, 8));
    // And of a FIRST above, the estimate is taken.
    assert_eq!(
        unit.deliver(&broadcast(F, B, 3, 0, 6, 9, 9)),
        (0, check(6, 9), BLANK)
    );
    assert_eq!(log_fields(&unit.log), [B, 3, 1, ENTRY, 6, 9, 9, BLANK]);
}

/// A closed round that was not logged comes back with the key, and with it what the unit sent in it.
#[test]
fn after_key_on() {
    let mut unit = Unit::start(B, 3, 1);
    let first = broadcast(F, B, 3, 0, 0, 6, 6);
    let checks = [0, 2].map(|sender| broadcast(C, B, 3, sender, 0, 6, 6));
    assert_eq!(unit.deliver(&first).1, check(0, 6));
    unit.key_off_and_on();
    assert_eq!(unit.deliver(&first).1, check(0, 6));
    unit.deliver(&checks[0]);
    assert_eq!(unit.deliver(&checks[1]).1, second(B, 0, 6, BLANK));
    for sender in [0, 2] {
        unit.deliver(&broadcast(S, B, 3, sender, 0, 6, 6));
    }
    assert_eq!(unit.current(), [B, 3, 1, ENTRY, 1, 6, BLANK, BLANK]);
    unit.key_off_and_on();
    unit.sends_again(F, check(0, 6));
    unit.sends_again(C, second(B, 0, 6, BLANK));
}

/// The request's bike: each of three logged its estimate and lost power before its SECOND left.
#[test]
fn a_silent_bike_of_three_closes() {
    let mut units = [0, 1, 2].map(|unit| Unit::start(R, 3, unit));
    let (_, first) = units[0].propose(31);
    let seconds = units.each_mut().map(|unit| {
        unit.deliver(&first);
        unit.key_off_and_on();
        unit.deliver(&first).1
    });
    for unit in &mut units {
        assert_eq!(unit.deliver(&seconds[0]), (0, EMPTY, BLANK));
        assert_eq!(unit.deliver(&seconds[1]), (0, EMPTY, BLANK));
        assert_eq!(unit.deliver(&seconds[2]), (0, EMPTY, 31));
    }
}
