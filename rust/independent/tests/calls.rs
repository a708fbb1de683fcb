//! The calls over byte buffers: refusals, the scope paper's [p] cases, hand-computed histories, round trips.

use independent::calls;
use independent::codec::{
    Engine, Settings, BLANK, EVERYONE, IMAGE_LENGTH, LOG_FIELDS, LOG_LENGTH, MESSAGE_FIELDS,
    MESSAGE_LENGTH, SPLIT,
};
use independent::step::{majority, quorum};
use std::collections::HashMap;
use unit::{broadcast, log_fields, message, Bytes, Unit, B, C, EMPTY, ENTRY, F, K, R, S};

mod unit;

impl Unit {
    fn round_and_proposal(&self) -> (u32, u32) {
        let fields = self.current();
        (fields[4], fields[5])
    }
}

fn skip(n: u32, sender: u32, receiver: u32, round: u32, proposal: u32) -> Bytes {
    message([K, B, n, sender, receiver, ENTRY, round, BLANK, proposal])
}

/// A refused delivery leaves the unit as it was, zeros the output and gives no decision.
fn assert_refused(unit: &Unit, message: &[u8], number: u32) {
    let mut after = *unit;
    assert_eq!(after.deliver(message), (number, EMPTY, BLANK));
    assert_eq!(after, *unit);
}

#[test]
fn quorum_table() {
    let rows = [
        (3, 2, 3, 2),
        (4, 3, 3, 2),
        (5, 3, 4, 3),
        (7, 4, 5, 3),
        (10, 6, 7, 4),
        (16, 9, 11, 6),
    ];
    for (n, b, r, r_majority) in rows {
        assert_eq!(quorum(Settings::new(Engine::B, n, ENTRY).unwrap()), b);
        assert_eq!(quorum(Settings::new(Engine::R, n, ENTRY).unwrap()), r);
        assert_eq!(majority(r), r_majority);
    }
}

#[test]
fn quorum_is_reached_exactly() {
    for n in 3..=16 {
        for (engine, letter) in [(Engine::B, B), (Engine::R, R)] {
            let needed = quorum(Settings::new(engine, n, ENTRY).unwrap());
            let mut unit = Unit::start(letter, n, 0);
            for sender in 0..needed {
                let (number, out, decision) =
                    unit.deliver(&broadcast(S, letter, n, n - 1 - sender, 0, 8, BLANK));
                assert_eq!((number, out), (0, EMPTY));
                assert_eq!(decision, if sender + 1 == needed { 8 } else { BLANK });
            }
            assert_eq!(unit.round_and_proposal(), (1, 8));
        }
    }
}

#[test]
fn start_bytes() {
    let unit = Unit::start(B, 3, 1);
    let mut log = [0xFF; LOG_LENGTH];
    log[..8].copy_from_slice(&[66, 3, 1, 0, 0, 7, 0, 0]);
    assert_eq!(unit.log, log);
    let mut image = [0xFF; IMAGE_LENGTH];
    image[..LOG_LENGTH].copy_from_slice(&log);
    image[20..22].fill(0);
    image[86..88].fill(0);
    assert_eq!(unit.image, image);
}

#[test]
fn start_ranges() {
    let number = |engine, n, unit, entry| {
        let (mut log, mut image) = ([0xAA; LOG_LENGTH], [0xAA; IMAGE_LENGTH]);
        let number = calls::start(engine, n, unit, entry, &mut log, &mut image);
        assert_eq!(number != 0, log == [0xAA; LOG_LENGTH]);
        assert_eq!(number != 0, image == [0xAA; IMAGE_LENGTH]);
        number
    };
    for accepted in [(B, 3, 2, 1), (R, 16, 15, 9_999)] {
        assert_eq!(number(accepted.0, accepted.1, accepted.2, accepted.3), 0);
    }
    let refused = [
        (B, 2, 0, 1),
        (B, 17, 0, 1),
        (B, 3, 3, 1),
        (B, 3, 0, 0),
        (B, 3, 0, 10_000),
        (B + 256, 3, 0, 1),
        (b'b' as u32, 3, 0, 1),
        (B, 3 + 256, 0, 1),
        (0, 3, 0, 1),
        (B, 3, u32::MAX, 1),
    ];
    for (engine, n, unit, entry) in refused {
        assert_eq!(number(engine, n, unit, entry), 2);
    }
}

#[test]
fn refusal_1_lengths() {
    let unit = Unit::start(B, 3, 0);
    let first = broadcast(F, B, 3, 0, 0, 5, 5);
    assert_refused(&unit, &first[..17], 1);
    assert_refused(&unit, &[], 1);

    // Wrong lengths come before everything else, and a wrong output buffer keeps its bytes.
    let (mut log, mut image, mut out, mut decision) = ([0; 21], unit.image, [0xAA; 19], 3);
    assert_eq!(
        calls::deliver(&mut log, &mut image, &first, &mut out, &mut decision),
        1
    );
    assert_eq!((out, decision), ([0xAA; 19], BLANK));
    let mut out = [0xAA; MESSAGE_LENGTH];
    assert_eq!(
        calls::deliver(&mut log, &mut image, &first, &mut out, &mut decision),
        1
    );
    assert_eq!(out, EMPTY);
    assert_eq!(
        calls::propose(&log, &mut image, 100_000_000, &mut out[..17]),
        1
    );
    assert_eq!(calls::propose(&unit.log, &mut image[..151], 5, &mut out), 1);
    assert_eq!(calls::start(B, 2, 0, 0, &mut log, &mut image), 1);
    assert_eq!(calls::key_on(&log, &mut image), 1);
    assert_eq!(calls::key_on(&unit.log, &mut image[1..]), 1);
    assert_eq!(calls::read_log(&unit.log, &mut [0; LOG_FIELDS + 1]), 1);
    assert_eq!(calls::read_log(&log, &mut [0; LOG_FIELDS]), 1);
    assert_eq!(
        calls::write_log(&[0; LOG_FIELDS - 1], &mut [0; LOG_LENGTH]),
        1
    );
    assert_eq!(calls::read_message(&first, &mut [0; MESSAGE_FIELDS - 1]), 1);
    let mut bytes = [0xAA; MESSAGE_LENGTH];
    assert_eq!(
        calls::write_message(&[0; MESSAGE_FIELDS + 1], &mut bytes),
        1
    );
    assert_eq!(bytes, EMPTY);
    let mut short = [0xAA; MESSAGE_LENGTH - 1];
    assert_eq!(calls::write_message(&[0; MESSAGE_FIELDS], &mut short), 1);
    assert_eq!(short, [0xAA; MESSAGE_LENGTH - 1]);
}

#[test]
fn refusal_2_log() {
    let good = [B, 3, 1, ENTRY, 4, 5, 6, SPLIT];
    let mut log = [0; LOG_LENGTH];
    assert_eq!(calls::write_log(&good, &mut log), 0);
    let written = log;
    let wrong: [(usize, u32); 17] = [
        (0, b'Z' as u32),
        (0, R), // the second estimate is not blank
        (0, B + 256),
        (1, 2),
        (1, 17),
        (1, 259),
        (2, 3),
        (3, 0),
        (3, 10_000),
        (4, 10_000),
        (4, 65_536),
        (5, 100_000_000),
        (5, SPLIT),
        (6, 100_000_000),
        (6, SPLIT),
        (7, 100_000_000),
        (7, SPLIT - 1),
    ];
    for (field, value) in wrong {
        let mut fields = good;
        fields[field] = value;
        assert_eq!(
            calls::write_log(&fields, &mut log),
            2,
            "field {field} of {value}"
        );
        assert_eq!(log, written);
    }
    assert_eq!(calls::write_log(&[R, 3, 1, ENTRY, 4, 5, 6, 6], &mut log), 2);

    // The zero byte, and a bad log before a bad image, message and mileage.
    let mut bad = written;
    bad[3] = 1;
    let mut fields = [1; LOG_FIELDS];
    assert_eq!(calls::read_log(&bad, &mut fields), 2);
    assert_eq!(fields, [1; LOG_FIELDS]);
    let mut unit = Unit {
        log: bad,
        image: [0; IMAGE_LENGTH],
    };
    assert_eq!(calls::key_on(&unit.log, &mut unit.image), 2);
    assert_refused(&unit, &EMPTY, 2);
    assert_eq!(unit.propose(100_000_000), (2, EMPTY));
}

#[test]
fn refusal_3_image() {
    let log = [B, 3, 1, ENTRY, 4, 5, 6, BLANK];
    let unit = Unit::of_log(log);
    let refused = |image: [u8; IMAGE_LENGTH]| {
        let log = unit.log;
        let mut unit = Unit { log, image };
        assert_refused(&unit, &EMPTY, 3);
        assert_eq!(unit.propose(100_000_000), (3, EMPTY));
    };

    // Log at round 4, image at 3; image at 5 with an estimate.
    for round in [3, 5] {
        refused(Unit::of_log([B, 3, 1, ENTRY, round, 5, 6, BLANK]).image);
    }
    // Another unit, engine, n, entry, first or second estimate.
    for fields in [
        [B, 3, 2, ENTRY, 4, 5, 6, BLANK],
        [R, 3, 1, ENTRY, 4, 5, 6, BLANK],
        [B, 4, 1, ENTRY, 4, 5, 6, BLANK],
        [B, 3, 1, ENTRY + 1, 4, 5, 6, BLANK],
        [B, 3, 1, ENTRY, 4, 5, BLANK, BLANK],
        [B, 3, 1, ENTRY, 4, 5, 6, 6],
    ] {
        refused(Unit::of_log(fields).image);
    }
    // A mark without an estimate, an estimate without a mark, a mark of unit 3 of 3, a quorum of marks, a split CHECK.
    let with = |changes: &[(usize, &[u8])]| {
        let mut image = unit.image;
        for (at, bytes) in changes {
            image[*at..*at + bytes.len()].copy_from_slice(bytes);
        }
        image
    };
    let five = &[0, 0, 0, 5][..];
    let split = &SPLIT.to_be_bytes()[..];
    refused(with(&[(21, &[1])]));
    refused(with(&[(22, five)]));
    refused(with(&[(87, &[8]), (100, five)]));
    refused(with(&[(21, &[3]), (22, five), (26, five)]));
    refused(with(&[(87, &[3]), (88, five), (92, five)]));
    refused(with(&[(21, &[1]), (22, split)]));

    // These are fine, and so the message is looked at next.
    for image in [
        with(&[(21, &[1]), (22, five)]),
        with(&[(87, &[4]), (96, split)]),
        with(&[(8, five)]),
        Unit::of_log([B, 3, 1, ENTRY, 9, BLANK, BLANK, BLANK]).image,
    ] {
        assert_refused(&Unit { image, ..unit }, &EMPTY, 4);
    }

    // CHECK marks beside a second estimate, CHECK marks in R, split SECONDs in R.
    let mut second = Unit::of_log([B, 3, 1, ENTRY, 4, 5, 6, SPLIT]);
    second.image[21..26].copy_from_slice(&[1, 0, 0, 0, 5]);
    assert_refused(&second, &EMPTY, 3);
    let mut second = Unit::start(R, 3, 0);
    second.image[21..26].copy_from_slice(&[1, 0, 0, 0, 5]);
    assert_refused(&second, &EMPTY, 3);
    let mut second = Unit::start(R, 3, 0);
    second.image[87] = 1;
    second.image[88..92].copy_from_slice(split);
    assert_refused(&second, &EMPTY, 3);
}

#[test]
fn refusal_4_message() {
    let unit = Unit::start(B, 3, 0);
    let mut zed = broadcast(F, B, 3, 0, 0, 5, 5);
    zed[0] = b'Z';
    assert_refused(&unit, &zed, 4);
    assert_refused(&unit, &EMPTY, 4);
    let mut not_zero = broadcast(F, B, 3, 0, 0, 5, 5);
    not_zero[5] = 1;
    assert_refused(&unit, &not_zero, 4);

    let all = EVERYONE;
    let wrong = [
        [0, 0, 0, 0, 0, 0, 0, 0, 0],
        [F, B, 3, 3, all, 7, 0, 5, 5],
        [F, B, 3, 0, 0, 7, 0, 5, 5],
        [F, B, 3, 0, all, 7, 0, 5, 6],
        [F, B, 3, 0, all, 7, 0, BLANK, BLANK],
        [F, B, 3, 0, all, 0, 0, 5, 5],
        [F, B, 3, 0, all, 7, 10_000, 5, 5],
        [F, B, 2, 0, all, 7, 0, 5, 5],
        [F + 256, B, 3, 0, all, 7, 0, 5, 5],
        [C, R, 3, 0, all, 7, 0, 5, 5],
        [C, B, 3, 0, all, 7, 0, SPLIT, SPLIT],
        [S, R, 3, 0, all, 7, 0, SPLIT, 5],
        [S, B, 3, 0, all, 7, 0, BLANK, 5],
        [S, B, 3, 0, all, 7, 0, 5, SPLIT],
        [S, B, 3, 0, all, 7, 0, 100_000_000, 5],
        [K, B, 3, 0, all, 7, 0, BLANK, 5],
        [K, B, 3, 0, 3, 7, 0, BLANK, 5],
        [K, B, 3, 0, 1, 7, 0, 5, 5],
        [K, B, 3, 0, 1, 7, 0, BLANK, SPLIT],
        [F, B, 3, 0, all + 256, 7, 0, 5, 5],
    ];
    for fields in wrong {
        let mut bytes = [0xAA; MESSAGE_LENGTH];
        assert_eq!(calls::write_message(&fields, &mut bytes), 4, "{fields:?}");
        assert_eq!(bytes, EMPTY);
    }
    let mut fields = [1; MESSAGE_FIELDS];
    assert_eq!(calls::read_message(&EMPTY, &mut fields), 4);
    assert_eq!(fields, [1; MESSAGE_FIELDS]);
}

#[test]
fn refusal_5_not_for_this_unit() {
    let unit = Unit::start(B, 3, 2);
    assert_refused(&unit, &skip(3, 0, 1, 4, 5), 5);
    assert_refused(&unit, &broadcast(F, R, 3, 0, 0, 5, 5), 5);
    assert_refused(&unit, &broadcast(F, B, 4, 0, 0, 5, 5), 5);
    assert_refused(
        &unit,
        &message([F, B, 3, 0, EVERYONE, ENTRY + 1, 0, 5, 5]),
        5,
    );
}

#[test]
fn refusal_6_mileage() {
    let mut unit = Unit::start(B, 3, 0);
    let fresh = unit;
    for mileage in [100_000_000, SPLIT, BLANK] {
        assert_eq!(unit.propose(mileage), (6, EMPTY));
        assert_eq!(unit, fresh);
    }
    assert_eq!(
        unit.propose(99_999_999),
        (0, broadcast(F, B, 3, 0, 0, 99_999_999, 99_999_999))
    );
    // Also where the unit has a proposal, which stays.
    assert_eq!(unit.propose(100_000_000), (6, EMPTY));
    assert_eq!(
        unit.propose(4),
        (0, broadcast(F, B, 3, 0, 0, 99_999_999, 99_999_999))
    );
    assert_eq!(unit.log, fresh.log);
}

/// Mileages beside the bound that was before request 3 and at today's; and numbers beyond it.
const MILEAGES: [u32; 4] = [9_999_999, 10_000_000, 10_000_001, 99_999_999];
const BEYOND: [u32; 3] = [100_000_000, 100_000_001, 999_999_999];

fn with_number<const N: usize>(mut bytes: [u8; N], at: usize, number: u32) -> [u8; N] {
    bytes[at..at + 4].copy_from_slice(&number.to_be_bytes());
    bytes
}

#[test]
fn the_bound_of_a_proposal() {
    let propose = |mileage| Unit::start(B, 3, 0).propose(mileage);
    for mileage in MILEAGES {
        let first = broadcast(F, B, 3, 0, 0, mileage, mileage);
        assert_eq!(propose(mileage), (0, first));
    }
    for number in BEYOND {
        assert_eq!(propose(number), (6, EMPTY));
    }
}

/// Of its proposal, its first and its second estimate. Beyond the bound each call that reads or writes the log gives 2.
#[test]
fn the_bound_in_a_log() {
    let good = [B, 3, 1, ENTRY, 4, 5, 6, 7];
    for (field, at) in [(5, 8), (6, 12), (7, 16)] {
        let with = |number| {
            let mut fields = good;
            fields[field] = number;
            fields
        };
        for mileage in MILEAGES {
            let mut unit = Unit::of_log(with(mileage));
            assert_eq!(log_fields(&unit.log), with(mileage));
            assert_eq!(unit.current(), with(mileage));
            assert_refused(&unit, &EMPTY, 4);
            assert_eq!(unit.propose(1).0, 0);
        }
        for number in BEYOND {
            let mut unit = Unit::of_log(good);
            unit.log = with_number(unit.log, at, number);
            assert_eq!(calls::write_log(&with(number), &mut [0; LOG_LENGTH]), 2);
            assert_eq!(calls::read_log(&unit.log, &mut [0; LOG_FIELDS]), 2);
            assert_eq!(calls::key_on(&unit.log, &mut [0; IMAGE_LENGTH]), 2);
            assert_refused(&unit, &EMPTY, 2);
            assert_eq!(unit.propose(1), (2, EMPTY));
        }
    }
}

/// Of what an image holds beside its log: another proposal, and an estimate under each kind of marks.
#[test]
fn the_bound_in_an_image() {
    let unit = Unit::of_log([B, 3, 1, ENTRY, 4, 5, 6, BLANK]);
    for (marks, at) in [(None, 8), (Some(21), 22), (Some(87), 88)] {
        let with = |number| {
            let mut other = unit;
            other.image = with_number(unit.image, at, number);
            if let Some(marks) = marks {
                other.image[marks] = 1;
            }
            other
        };
        for mileage in MILEAGES {
            assert_refused(&with(mileage), &EMPTY, 4);
            assert_eq!(with(mileage).propose(1).0, 0);
        }
        for number in BEYOND {
            assert_refused(&with(number), &EMPTY, 3);
            assert_eq!(with(number).propose(1), (3, EMPTY));
        }
    }
}

/// Of estimate and proposal of each kind. Beyond the bound each call that reads or writes the message gives 4.
#[test]
fn the_bound_in_a_message() {
    let kinds = |number| {
        [
            [F, B, 3, 0, EVERYONE, ENTRY, 4, number, number],
            [C, B, 3, 0, EVERYONE, ENTRY, 4, number, number],
            [S, B, 3, 0, EVERYONE, ENTRY, 4, number, 5],
            [S, B, 3, 0, EVERYONE, ENTRY, 4, SPLIT, number],
            [K, B, 3, 0, 1, ENTRY, 9, BLANK, number],
        ]
    };
    let unit = Unit::of_log([B, 3, 1, ENTRY, 4, 5, BLANK, BLANK]);
    for fields in MILEAGES.into_iter().flat_map(kinds) {
        let mut read = [0; MESSAGE_FIELDS];
        assert_eq!(calls::read_message(&message(fields), &mut read), 0);
        assert_eq!(read, fields);
        assert_eq!({ unit }.deliver(&message(fields)).0, 0);
    }
    for number in BEYOND {
        for (fields, good) in kinds(number).into_iter().zip(kinds(5)) {
            let bytes = with_number(with_number(message(good), 10, fields[7]), 14, fields[8]);
            assert_eq!(calls::write_message(&fields, &mut [0; MESSAGE_LENGTH]), 4);
            assert_eq!(calls::read_message(&bytes, &mut [0; MESSAGE_FIELDS]), 4);
            assert_refused(&unit, &bytes, 4);
        }
    }
}

#[test]
fn refusal_7_last_round() {
    let mut unit = Unit::of_log([B, 3, 1, ENTRY, 9_999, 5, BLANK, BLANK]);
    let from_0 = broadcast(S, B, 3, 0, 9_999, 5, 5);
    assert_eq!(unit.deliver(&from_0), (0, EMPTY, BLANK));
    assert_eq!(unit.marks(), (0, 1));
    assert_refused(&unit, &broadcast(S, B, 3, 2, 9_999, 5, 5), 7);
    // The same sender again closes nothing; other entries come first.
    assert_eq!(unit.deliver(&from_0), (0, EMPTY, BLANK));
    assert_refused(
        &unit,
        &message([S, B, 3, 2, EVERYONE, ENTRY + 1, 9_999, 5, 5]),
        5,
    );
    assert_eq!(unit.propose(6), (0, broadcast(F, B, 3, 1, 9_999, 5, 5)));
    // Round 9,998 can be closed.
    let mut unit = Unit::of_log([B, 3, 1, ENTRY, 9_998, 5, BLANK, BLANK]);
    unit.deliver(&broadcast(S, B, 3, 0, 9_998, 5, 5));
    assert_eq!(
        unit.deliver(&broadcast(S, B, 3, 2, 9_998, 5, 5)),
        (0, EMPTY, 5)
    );
    assert_eq!(unit.round_and_proposal(), (9_999, 5));
}

#[test]
fn r_majority_of_those_gathered() {
    for (estimates, proposal) in [
        ([5, 5, 9], 5),
        ([9, 5, 5], 5),
        ([5, 9, 5], 5),
        ([5, 9, 2], BLANK),
    ] {
        let mut unit = Unit::of_log([R, 4, 3, ENTRY, 0, 77, 5, BLANK]);
        for (sender, estimate) in (0..).zip(estimates) {
            let second = broadcast(S, R, 4, sender, 0, estimate, BLANK);
            assert_eq!(unit.deliver(&second), (0, EMPTY, BLANK));
        }
        assert_eq!(unit.current(), [R, 4, 3, ENTRY, 1, proposal, BLANK, BLANK]);
        assert_eq!(unit.marks(), (0, 0));
        assert_eq!(log_fields(&unit.log), [R, 4, 3, ENTRY, 0, 77, 5, BLANK]);
    }
}

#[test]
fn b_split_and_two_splits() {
    let mut unit = Unit::start(B, 3, 0);
    assert_eq!(
        unit.deliver(&broadcast(C, B, 3, 1, 0, 5, 5)),
        (0, EMPTY, BLANK)
    );
    assert_eq!(unit.marks(), (2, 0));
    assert_eq!(
        unit.deliver(&broadcast(C, B, 3, 2, 0, 9, 9)),
        (0, broadcast(S, B, 3, 0, 0, SPLIT, BLANK), BLANK)
    );
    assert_eq!(unit.marks(), (0, 0));
    assert_eq!(
        log_fields(&unit.log),
        [B, 3, 0, ENTRY, 0, BLANK, BLANK, SPLIT]
    );
    // Once set, the second estimate stays: any CHECK has it sent again.
    let before = unit;
    assert_eq!(
        unit.deliver(&broadcast(C, B, 3, 0, 0, 5, 5)),
        (0, broadcast(S, B, 3, 0, 0, SPLIT, BLANK), BLANK)
    );
    assert_eq!(unit, before);

    assert_eq!(unit.propose(8).0, 0);
    for sender in [0, 2] {
        assert_eq!(
            unit.deliver(&broadcast(S, B, 3, sender, 0, SPLIT, 4)),
            (0, EMPTY, BLANK)
        );
    }
    assert_eq!(unit.current(), [B, 3, 0, ENTRY, 1, 8, BLANK, BLANK]);
}

#[test]
fn b_mileage_seen_is_the_lowest_senders() {
    // One split and one mileage: no decision, the mileage becomes the proposal.
    let mut unit = Unit::start(B, 3, 0);
    unit.deliver(&broadcast(S, B, 3, 2, 0, 6, BLANK));
    assert_eq!(
        unit.deliver(&broadcast(S, B, 3, 1, 0, SPLIT, BLANK)),
        (0, EMPTY, BLANK)
    );
    assert_eq!(unit.round_and_proposal(), (1, 6));
    // Several mileages: the lowest sender's, the one delivered last included.
    let mut unit = Unit::start(B, 5, 0);
    for (sender, estimate) in [(4, 6), (3, 7)] {
        unit.deliver(&broadcast(S, B, 5, sender, 0, estimate, BLANK));
    }
    assert_eq!(
        unit.deliver(&broadcast(S, B, 5, 2, 0, 9, BLANK)),
        (0, EMPTY, BLANK)
    );
    assert_eq!(unit.round_and_proposal(), (1, 9));
}

#[test]
fn b_decides_in_three_steps() {
    let mut units = [
        Unit::start(B, 3, 0),
        Unit::start(B, 3, 1),
        Unit::start(B, 3, 2),
    ];
    let (_, first) = units[0].propose(412_077);
    assert_eq!(
        first,
        [70, 66, 3, 0, 255, 0, 0, 7, 0, 0, 0, 6, 0x49, 0xAD, 0, 6, 0x49, 0xAD]
    );
    let checks: Vec<Bytes> = units
        .iter_mut()
        .map(|unit| unit.deliver(&first).1)
        .collect();
    assert_eq!(checks[2], broadcast(C, B, 3, 2, 0, 412_077, 412_077));
    // Unit 1 has no proposal of its own: what it received is its first estimate alone.
    assert_eq!(
        log_fields(&units[1].log),
        [B, 3, 1, ENTRY, 0, BLANK, 412_077, BLANK]
    );
    assert_eq!(units[1].deliver(&checks[1]).1, EMPTY);
    assert_eq!(units[1].deliver(&checks[1]).1, EMPTY);
    let (_, second, _) = units[1].deliver(&checks[2]);
    assert_eq!(second, broadcast(S, B, 3, 1, 0, 412_077, BLANK));
    let mut log = [0xFF; LOG_LENGTH];
    log[..8].copy_from_slice(&[66, 3, 1, 0, 0, 7, 0, 0]);
    log[12..].copy_from_slice(&[0, 6, 0x49, 0xAD, 0, 6, 0x49, 0xAD]);
    assert_eq!(units[1].log, log);
    units[0].deliver(&checks[0]);
    let (_, second_of_0, _) = units[0].deliver(&checks[2]);
    assert_eq!(second_of_0, broadcast(S, B, 3, 0, 0, 412_077, 412_077));

    // Closing the round leaves the log as it is, and the unit goes on from both.
    assert_eq!(units[1].deliver(&second), (0, EMPTY, BLANK));
    assert_eq!(units[1].deliver(&second_of_0), (0, EMPTY, 412_077));
    assert_eq!(units[1].log, log);
    assert_eq!(
        units[1].current(),
        [B, 3, 1, ENTRY, 1, 412_077, BLANK, BLANK]
    );

    // Late messages are answered with SKIP; unit 2 follows it to round 1.
    let (_, answer, _) = units[1].deliver(&checks[2]);
    assert_eq!(answer, skip(3, 1, 2, 1, 412_077));
    assert_eq!(units[2].deliver(&answer), (0, EMPTY, BLANK));
    assert_eq!(
        units[2].current(),
        [B, 3, 2, ENTRY, 1, 412_077, BLANK, BLANK]
    );
    assert_eq!(
        log_fields(&units[2].log),
        [B, 3, 2, ENTRY, 0, BLANK, 412_077, BLANK]
    );
    assert_eq!(
        units[2].propose(1),
        (0, broadcast(F, B, 3, 2, 1, 412_077, 412_077))
    );

    // Key-on takes unit 1 back to round 0 with both estimates, and any CHECK then has it send its SECOND again.
    let Unit { log, image } = &mut units[1];
    assert_eq!(calls::key_on(log, image), 0);
    assert_eq!(
        units[1].current(),
        [B, 3, 1, ENTRY, 0, BLANK, 412_077, 412_077]
    );
    for check in &checks {
        assert_eq!(units[1].deliver(check), (0, second, BLANK));
    }
    assert_eq!(units[1].marks(), (0, 0));
}

#[test]
fn r_decides_in_two_steps() {
    let mut units = [0, 1, 2, 3].map(|unit| Unit::start(R, 4, unit));
    let (_, first) = units[3].propose(31);
    let seconds = [0, 1, 3].map(|unit| units[unit].deliver(&first).1);
    assert_eq!(seconds[0], broadcast(S, R, 4, 0, 0, 31, BLANK));
    assert_eq!(seconds[2], broadcast(S, R, 4, 3, 0, 31, 31));
    // A second FIRST of the round changes nothing: the estimate taken is sent again.
    assert_eq!(
        units[0].deliver(&broadcast(F, R, 4, 1, 0, 9, 9)),
        (0, seconds[0], BLANK)
    );
    assert_eq!(
        log_fields(&units[0].log),
        [R, 4, 0, ENTRY, 0, BLANK, 31, BLANK]
    );
    assert_eq!(units[2].deliver(&seconds[0]), (0, EMPTY, BLANK));
    assert_eq!(units[2].deliver(&seconds[2]), (0, EMPTY, BLANK));
    assert_eq!(units[2].marks(), (0, 0b1001));
    assert_eq!(units[2].deliver(&seconds[1]), (0, EMPTY, 31));
    assert_eq!(units[2].current(), [R, 4, 2, ENTRY, 1, 31, BLANK, BLANK]);
    // A late FIRST is answered with SKIP to its sender.
    assert_eq!(
        units[2].deliver(&first).1,
        message([K, R, 4, 2, 3, ENTRY, 1, BLANK, 31])
    );
}

#[test]
fn a_message_from_above_takes_the_unit_along() {
    let mut unit = Unit::of_log([B, 3, 0, ENTRY, 2, 5, 6, BLANK]);
    unit.deliver(&broadcast(C, B, 3, 1, 2, 6, 6));
    unit.deliver(&broadcast(S, B, 3, 1, 2, 6, 6));
    assert_eq!(unit.marks(), (2, 2));
    // A SECOND with a blank proposal blanks the unit's; its own mark is the only one left.
    assert_eq!(
        unit.deliver(&broadcast(S, B, 3, 2, 4, 9, BLANK)),
        (0, EMPTY, BLANK)
    );
    assert_eq!(unit.current(), [B, 3, 0, ENTRY, 4, BLANK, BLANK, BLANK]);
    assert_eq!(unit.marks(), (0, 4));
    assert_eq!(
        unit.image[88..100],
        [[0xFF; 4], [0xFF; 4], [0, 0, 0, 9]].concat()
    );
    assert_eq!(log_fields(&unit.log), [B, 3, 0, ENTRY, 2, 5, 6, BLANK]);
    // A FIRST from above is taken as proposal and as first estimate, and logged with its round.
    let check = broadcast(C, B, 3, 0, 7, 3, 3);
    assert_eq!(
        unit.deliver(&broadcast(F, B, 3, 1, 7, 3, 3)),
        (0, check, BLANK)
    );
    assert_eq!(log_fields(&unit.log), [B, 3, 0, ENTRY, 7, 3, 3, BLANK]);
    // A SKIP from below is answered like any other message, one to itself too.
    assert_eq!(
        unit.deliver(&skip(3, 2, 0, 5, 1)),
        (0, skip(3, 0, 2, 7, 3), BLANK)
    );
    assert_eq!(
        unit.deliver(&skip(3, 0, 0, 5, 1)),
        (0, skip(3, 0, 0, 7, 3), BLANK)
    );
    // A SKIP of the same round does nothing.
    let before = unit;
    assert_eq!(unit.deliver(&skip(3, 2, 0, 7, 1)), (0, EMPTY, BLANK));
    assert_eq!(unit, before);
}

#[test]
fn read_then_write_gives_the_same_bytes() {
    let log = [
        66, 16, 15, 0, 0x27, 0x0F, 0x27, 0x0E, 5, 0xF5, 0xE0, 0xFF, 0, 0, 1, 2, 255, 255, 255, 254,
    ];
    let mut fields = [0; LOG_FIELDS];
    assert_eq!(calls::read_log(&log, &mut fields), 0);
    assert_eq!(fields, [B, 16, 15, 9_999, 9_998, 99_999_999, 258, SPLIT]);
    let mut again = [0xAA; LOG_LENGTH];
    assert_eq!(calls::write_log(&fields, &mut again), 0);
    assert_eq!(again, log);

    let bytes = [
        75, 82, 4, 3, 2, 0, 0, 1, 0x27, 0x0F, 255, 255, 255, 255, 0, 1, 0, 0,
    ];
    let mut fields = [0; MESSAGE_FIELDS];
    assert_eq!(calls::read_message(&bytes, &mut fields), 0);
    assert_eq!(fields, [K, R, 4, 3, 2, 1, 9_999, BLANK, 65_536]);
    assert_eq!(message(fields), bytes);
}

#[test]
fn write_then_read_gives_the_same_fields() {
    for estimate in [0, 99_999_999, SPLIT, BLANK] {
        let fields = [B, 9, 8, 1, 0, BLANK, 0, estimate];
        let mut log = [0xAA; LOG_LENGTH];
        assert_eq!(calls::write_log(&fields, &mut log), 0);
        assert_eq!(log_fields(&log), fields);
    }
    for fields in [
        [F, R, 3, 0, EVERYONE, 1, 0, 0, 0],
        [C, B, 16, 15, EVERYONE, 9_999, 9_999, 99_999_999, 99_999_999],
        [S, B, 5, 4, EVERYONE, 300, 256, SPLIT, BLANK],
        [S, R, 5, 4, EVERYONE, 300, 256, 1, 2],
        [K, B, 5, 4, 4, 300, 256, BLANK, BLANK],
    ] {
        let mut read = [0; MESSAGE_FIELDS];
        assert_eq!(calls::read_message(&message(fields), &mut read), 0);
        assert_eq!(read, fields);
    }
}

/// A small generator of numbers, so that the run is the same each time.
struct Random(u64);

impl Random {
    fn below(&mut self, bound: u32) -> u32 {
        self.0 ^= self.0 << 13;
        self.0 ^= self.0 >> 7;
        self.0 ^= self.0 << 17;
        (self.0 >> 32) as u32 % bound
    }
}

#[test]
fn random_histories_agree_and_stay_well_formed() {
    let mut random = Random(0x9E37_79B9_7F4A_7C15);
    let (mut decided, mut again) = (0, 0);
    for history in 0..300 {
        let engine = if history % 2 == 0 { B } else { R };
        let n = 3 + random.below(3);
        let mut units: Vec<Unit> = (0..n).map(|unit| Unit::start(engine, n, unit)).collect();
        let mut sent = vec![units[0].propose(1).1];
        let (mut decision, mut votes) = (None, HashMap::new());
        for _ in 0..400 {
            let unit = &mut units[random.below(n) as usize];
            let out = match random.below(20) {
                0 => unit.propose(random.below(4)).1,
                1 => {
                    assert_eq!(calls::key_on(&unit.log, &mut unit.image), 0);
                    EMPTY
                }
                _ => {
                    let message = sent[random.below(sent.len() as u32) as usize];
                    let (number, out, mileage) = unit.deliver(&message);
                    assert!(number == 0 || (number == 5 && message[0] == b'K'));
                    if mileage != BLANK {
                        assert_eq!(*decision.get_or_insert(mileage), mileage);
                        decided += 1;
                    }
                    out
                }
            };
            if out != EMPTY {
                let mut fields = [0; MESSAGE_FIELDS];
                assert_eq!(calls::read_message(&out, &mut fields), 0);
                sent.push(out);
                // However often a unit votes in a round, it has one estimate of each kind.
                let [kind, _, _, sender, _, _, round, estimate, _] = fields;
                if let C | S = kind {
                    let before = votes.insert((kind, sender, round), estimate);
                    again += u32::from(before.is_some());
                    assert_eq!(before.unwrap_or(estimate), estimate);
                }
            }
            // The image still fits its log: what is refused now is the mileage alone.
            assert_eq!(unit.propose(100_000_000).0, 6);
        }
    }
    assert!(decided > 50, "only {decided} decisions");
    assert!(again > 1_000, "only {again} votes again");
}

#[test]
fn any_bytes_are_answered() {
    let mut random = Random(0x2545_F491_4F6C_DD1D);
    let mut counts = [0; 8];
    let base = Unit::of_log([B, 3, 1, ENTRY, 4, 5, 6, BLANK]);
    for _ in 0..50_000 {
        let mut unit = base;
        let mut bytes = broadcast(S, B, 3, 0, 4, 6, 6);
        for _ in 0..random.below(3) {
            let byte = random.below(256) as u8;
            match random.below(3) {
                0 => unit.log[random.below(LOG_LENGTH as u32) as usize] = byte,
                1 => unit.image[random.below(IMAGE_LENGTH as u32) as usize] = byte,
                _ => bytes[random.below(MESSAGE_LENGTH as u32) as usize] = byte,
            }
        }
        let before = unit;
        let (number, out, decision) = unit.deliver(&bytes);
        if number != 0 {
            assert_eq!((unit, out, decision), (before, EMPTY, BLANK));
        }
        counts[number as usize] += 1;
    }
    assert!(
        [0, 2, 3, 4, 5]
            .iter()
            .all(|&number: &usize| counts[number] > 0),
        "{counts:?}"
    );
}
