//! The calls over a card's rows: each refusal with everything after it in the order bad too, the limits, worked histories.

use independent::card::{self, Contents, Marks, Row, ROW_NUMBERS};
use independent::codec::{
    Message, BLANK, EVERYONE, LOG_FIELDS, MAX_UNITS, MESSAGE_FIELDS, MESSAGE_LENGTH, SPLIT,
};

const B: u32 = b'B' as u32;
const R: u32 = b'R' as u32;
const F: u32 = b'F' as u32;
const C: u32 = b'C' as u32;
const S: u32 = b'S' as u32;
const K: u32 = b'K' as u32;
const EMPTY: Bytes = [0; MESSAGE_LENGTH];
const NO_MARKS: Marks = Marks {
    marks: 0,
    estimates: [BLANK; MAX_UNITS],
};
/// Malformed throughout.
const GARBAGE: Row = Row {
    log: contents([7; LOG_FIELDS]),
    image: contents([SPLIT; LOG_FIELDS]),
    checks: Marks {
        marks: 65_536,
        estimates: [100_000_000; MAX_UNITS],
    },
    seconds: Marks {
        marks: u32::MAX,
        estimates: [SPLIT; MAX_UNITS],
    },
};
/// Unit 1 of three in engine B, and what is out of range.
const BESIDE: [u32; 3] = [B, 3, 1];
const BAD_BESIDE: [u32; 3] = [B, 259, 1];

type Bytes = [u8; MESSAGE_LENGTH];

const fn contents(fields: [u32; LOG_FIELDS]) -> Contents {
    let [engine, n, unit, entry, round, proposal, first, second] = fields;
    Contents {
        engine,
        n,
        unit,
        entry,
        round,
        proposal,
        first,
        second,
    }
}

/// A row keyed on from a log of these contents.
const fn row(fields: [u32; LOG_FIELDS]) -> Row {
    Row {
        log: contents(fields),
        image: contents(fields),
        checks: NO_MARKS,
        seconds: NO_MARKS,
    }
}

/// Row 2 of unit 1: round 4, proposal 5, first estimate 6.
const GOOD: Row = row([B, 3, 1, 2, 4, 5, 6, BLANK]);

fn message(fields: [u32; MESSAGE_FIELDS]) -> Bytes {
    let mut bytes = [0; MESSAGE_LENGTH];
    Message::from_fields(fields)
        .expect("a message")
        .write(&mut bytes);
    bytes
}

/// To everyone, of three units in engine B.
fn broadcast(kind: u32, sender: u32, entry: u32, round: u32, estimate: u32) -> Bytes {
    message([
        kind, B, 3, sender, EVERYONE, entry, round, estimate, estimate,
    ])
}

/// Garbage, but for row 2.
fn card(count: usize, second: Row) -> Vec<Row> {
    let mut rows = vec![GARBAGE; count];
    if let Some(row) = rows.get_mut(1) {
        *row = second;
    }
    rows
}

#[derive(Clone, Copy)]
enum Act<'a> {
    Start(u32),
    KeyOn(u32),
    Propose(u32, u32),
    Deliver(&'a [u8]),
}

use Act::{Deliver, KeyOn, Propose, Start};

/// The number, the message and the decision; `out` and `decision` held something before.
fn call([engine, n, unit]: [u32; 3], rows: &mut [Row], act: Act) -> (u32, Bytes, u32) {
    let (mut out, mut decision) = ([0xAA; MESSAGE_LENGTH], 1);
    let number = match act {
        Start(row) => card::start(engine, n, unit, rows, row),
        KeyOn(row) => card::key_on(engine, n, unit, rows, row),
        Propose(row, mileage) => card::propose(engine, n, unit, rows, row, mileage, &mut out),
        Deliver(message) => card::deliver(engine, n, unit, rows, message, &mut out, &mut decision),
    };
    (number, out, decision)
}

/// A refused call leaves every row, zeros the output and gives no decision.
fn assert_refused(beside: [u32; 3], rows: &[Row], act: Act, number: u32) {
    let mut after = rows.to_vec();
    let wanted = match act {
        Start(_) | KeyOn(_) => (number, [0xAA; MESSAGE_LENGTH], 1),
        Propose(..) => (number, EMPTY, 1),
        Deliver(_) => (number, EMPTY, BLANK),
    };
    assert_eq!(call(beside, &mut after, act), wanted);
    assert_eq!(after, rows);
}

#[test]
fn a_row_is_fifty_numbers_one_after_the_other() {
    assert_eq!(size_of::<Row>(), 4 * ROW_NUMBERS);
    assert_eq!(size_of::<Row>(), 200);
    assert_eq!(std::mem::offset_of!(Row, image), 32);
    assert_eq!(std::mem::offset_of!(Row, checks), 64);
    assert_eq!(std::mem::offset_of!(Row, seconds), 132);
}

#[test]
fn a_start_reads_no_row_and_writes_one() {
    for (count, number) in [(1, 1), (2, 1), (2, 2), (64, 1), (64, 33), (64, 64)] {
        for [engine, n, unit] in [[B, 3, 0], [R, 16, 15]] {
            let mut rows = vec![GARBAGE; count];
            assert_eq!(call([engine, n, unit], &mut rows, Start(number)).0, 0);
            let mut wanted = vec![GARBAGE; count];
            wanted[number as usize - 1] = row([engine, n, unit, number, 0, BLANK, BLANK, BLANK]);
            assert_eq!(rows, wanted);
        }
    }
}

#[test]
fn key_on_reads_the_log_alone() {
    let logged = contents([B, 3, 1, 2, 4, 5, 6, SPLIT]);
    let mut rows = card(
        3,
        Row {
            log: logged,
            ..GARBAGE
        },
    );
    assert_eq!(call(BESIDE, &mut rows, KeyOn(2)).0, 0);
    assert_eq!(rows, card(3, row([B, 3, 1, 2, 4, 5, 6, SPLIT])));
}

/// 1: a count of rows, before a row that is not there, settings out of range, and a mileage out of range.
#[test]
fn refusal_1_count_and_lengths() {
    let good = broadcast(F, 0, 2, 4, 5);
    for count in [0, 65, 256 + 2] {
        let rows = card(count, GOOD);
        for (beside, number, mileage, bytes) in
            [(BESIDE, 2, 5, &good), (BAD_BESIDE, 0, BLANK, &EMPTY)]
        {
            assert_refused(beside, &rows, Start(number), 1);
            assert_refused(beside, &rows, KeyOn(number), 1);
            assert_refused(beside, &rows, Propose(number, mileage), 1);
            assert_refused(beside, &rows, Deliver(bytes), 1);
        }
    }
    let rows = card(2, GOOD);
    assert_refused(BESIDE, &rows, Deliver(&good[..17]), 1);
    assert_refused(BAD_BESIDE, &rows, Deliver(&[0; 19]), 1);
    assert_refused(BAD_BESIDE, &rows, Deliver(&[]), 1);
}

/// An output buffer of another length is 1 and keeps its bytes.
#[test]
fn refusal_1_output() {
    for length in [0, 17, 19, 256 + 18] {
        let (mut rows, mut out, mut decision) = (card(2, GOOD), vec![0xAA; length], 1);
        assert_eq!(
            card::propose(0, 0, 0, &mut rows, 0, BLANK, &mut out),
            1,
            "{length}"
        );
        assert_eq!(
            card::deliver(0, 0, 0, &mut rows, &EMPTY, &mut out, &mut decision),
            1
        );
        assert_eq!((out, decision), (vec![0xAA; length], BLANK));
        assert_eq!(rows, card(2, GOOD));
    }
}

/// 4 comes before a row that is not there, and before settings out of range; entries 0 and 10,000 are malformed.
#[test]
fn refusal_4_message() {
    for entry in [0, 10_000, 65_535_u32] {
        let mut bytes = broadcast(F, 0, 2, 4, 5);
        bytes[6..8].copy_from_slice(&entry.to_be_bytes()[2..]);
        assert_refused(BESIDE, &card(2, GOOD), Deliver(&bytes), 4);
        assert_refused(BAD_BESIDE, &card(2, GARBAGE), Deliver(&bytes), 4);
    }
    let mut bytes = broadcast(F, 0, 65, 4, 5);
    bytes[0] = b'Z';
    assert_refused(BAD_BESIDE, &card(64, GARBAGE), Deliver(&bytes), 4);
    assert_refused(BAD_BESIDE, &card(64, GARBAGE), Deliver(&EMPTY), 4);
}

/// 12 comes before settings out of range and a garbage row. Numbers are not cut.
#[test]
fn refusal_12_no_row() {
    for count in [1, 2, 63, 64] {
        let rows = card(count, GOOD);
        let above = count as u32 + 1;
        for number in [0, above, 65, 256 + 1, 65_536 + 1, u32::MAX] {
            for beside in [BESIDE, BAD_BESIDE] {
                assert_refused(beside, &rows, Start(number), 12);
                assert_refused(beside, &rows, KeyOn(number), 12);
                assert_refused(beside, &rows, Propose(number, BLANK), 12);
            }
        }
        for entry in [above, 65, 9_999] {
            let bytes = message([S, R, 16, 0, EVERYONE, entry, 9_999, 5, 5]);
            assert_refused(BESIDE, &rows, Deliver(&bytes), 12);
            assert_refused(BAD_BESIDE, &rows, Deliver(&bytes), 12);
        }
    }
    let mut rows = card(64, GOOD);
    rows[63] = row([B, 3, 1, 64, 4, 5, 6, BLANK]);
    let first = broadcast(F, 1, 64, 4, 5);
    assert_eq!(call(BESIDE, &mut rows, Propose(64, 5)), (0, first, 1));
}

/// The message is of another engine and n; the image is garbage; the mileage is out of range.
fn assert_row_refused(beside: [u32; 3], row: Row, number: u32) {
    let other = message([S, R, 4, 0, EVERYONE, 2, 9_999, 5, 5]);
    for count in [2, 64] {
        let rows = card(count, row);
        assert_refused(beside, &rows, Propose(2, BLANK), number);
        assert_refused(beside, &rows, Deliver(&other), number);
    }
}

#[test]
fn refusal_2_settings_beside() {
    for beside in [
        [0, 3, 1],
        [b'b' as u32, 3, 1],
        [B + 256, 3, 1],
        [B, 2, 1],
        [B, 17, 1],
        [B, 259, 1],
        [B, 3, 3],
        [B, 3, u32::MAX],
        [R, 16, 16],
        [R, 65_539, 0],
    ] {
        for second in [GOOD, GARBAGE] {
            assert_row_refused(beside, second, 2);
            assert_refused(beside, &card(2, second), Start(2), 2);
            assert_refused(beside, &card(2, second), KeyOn(2), 2);
        }
    }
}

#[test]
fn refusal_2_log_of_the_row() {
    let good = [B, 3, 1, 2, 4, 5, 6, SPLIT];
    let wrong: [(usize, u32); 19] = [
        (0, 0),
        (0, R), // the second estimate is not blank
        (0, B + 256),
        (1, 2),
        (1, 17),
        (1, 259),
        (2, 3),
        (2, 256 + 1),
        (3, 0),
        (3, 10_000),
        (3, 65_536 + 2),
        (4, 10_000),
        (4, 65_536 + 4),
        (5, 100_000_000),
        (5, SPLIT),
        (6, SPLIT),
        (6, 100_000_000),
        (7, SPLIT - 1),
        (7, 100_000_000),
    ];
    for (field, value) in wrong {
        let mut fields = good;
        fields[field] = value;
        let bad = Row {
            log: contents(fields),
            ..GARBAGE
        };
        // Malformed comes first, beside other settings too.
        for beside in [BESIDE, [R, 4, 0]] {
            assert_row_refused(beside, bad, 2);
            assert_refused(beside, &card(2, bad), KeyOn(2), 2);
        }
    }
}

/// A well-formed log of another engine, n, unit or entry: 3, at key-on too.
#[test]
fn refusal_3_other_settings() {
    for log in [
        [R, 3, 1, 2, 4, 5, 6, BLANK],
        [B, 5, 1, 2, 4, 5, 6, BLANK],
        [B, 3, 0, 2, 4, 5, 6, BLANK],
        [B, 3, 1, 1, 4, 5, 6, BLANK],
        [B, 3, 1, 3, 4, 5, 6, BLANK],
        [B, 3, 1, 256 + 2, 4, 5, 6, BLANK],
    ] {
        for bad in [
            row(log),
            Row {
                log: contents(log),
                ..GARBAGE
            },
        ] {
            assert_row_refused(BESIDE, bad, 3);
            assert_refused(BESIDE, &card(64, bad), KeyOn(2), 3);
        }
    }
}

/// The good row with another image.
fn with(change: impl FnOnce(&mut Row)) -> Row {
    let mut row = GOOD;
    change(&mut row);
    row
}

fn mark(marks: &mut Marks, sender: usize, estimate: u32) {
    marks.marks |= 1 << sender;
    marks.estimates[sender] = estimate;
}

#[test]
fn refusal_3_image() {
    let image = |fields| with(|row| row.image = contents(fields));
    let rows = [
        // Malformed, of other settings, or not fitting.
        image([0, 3, 1, 2, 4, 5, 6, BLANK]),
        image([B + 256, 3, 1, 2, 4, 5, 6, BLANK]),
        image([B, 259, 1, 2, 4, 5, 6, BLANK]),
        image([B, 3, 1, 2, 65_536 + 4, 5, 6, BLANK]),
        image([B, 3, 1, 2, 4, SPLIT, 6, BLANK]),
        image([R, 3, 1, 2, 4, 5, 6, BLANK]),
        image([B, 4, 1, 2, 4, 5, 6, BLANK]),
        image([B, 3, 2, 2, 4, 5, 6, BLANK]),
        image([B, 3, 1, 1, 4, 5, 6, BLANK]),
        image([B, 3, 1, 2, 3, 5, 6, BLANK]),
        image([B, 3, 1, 2, 5, 5, 6, BLANK]),
        image([B, 3, 1, 2, 4, 5, BLANK, BLANK]),
        image([B, 3, 1, 2, 4, 5, 6, 6]),
        // A mark without an estimate, an estimate without a mark, unit 3 of 3, bits 16 and 31, a quorum, a split CHECK.
        with(|row| row.checks.marks = 1),
        with(|row| row.seconds.estimates[0] = 5),
        with(|row| row.checks.estimates[15] = 5),
        with(|row| mark(&mut row.seconds, 3, 5)),
        with(|row| row.checks.marks = 65_536),
        with(|row| row.seconds.marks = 65_536),
        with(|row| row.seconds.marks = 1 << 31),
        with(|row| [0, 1].iter().for_each(|&at| mark(&mut row.checks, at, 5))),
        with(|row| [0, 1].iter().for_each(|&at| mark(&mut row.seconds, at, 5))),
        with(|row| mark(&mut row.checks, 0, SPLIT)),
        with(|row| mark(&mut row.seconds, 0, 100_000_000)),
    ];
    for bad in rows {
        assert_row_refused(BESIDE, bad, 3);
        // Key-on does not read it.
        let mut keyed = card(2, bad);
        assert_eq!(call(BESIDE, &mut keyed, KeyOn(2)).0, 0);
        assert_eq!(keyed, card(2, GOOD));
    }
    // These are fine, and so 5 or 6 comes next.
    let other = message([S, R, 4, 0, EVERYONE, 2, 9_999, 5, 5]);
    for good in [
        GOOD,
        image([B, 3, 1, 2, 4, 77, 6, BLANK]),
        image([B, 3, 1, 2, 9, 5, BLANK, BLANK]),
        with(|row| mark(&mut row.checks, 2, 99_999_999)),
        with(|row| mark(&mut row.seconds, 0, SPLIT)),
    ] {
        assert_refused(BESIDE, &card(2, good), Propose(2, 100_000_000), 6);
        assert_refused(BESIDE, &card(2, good), Deliver(&other), 5);
    }
}

#[test]
fn refusal_5_not_for_this_unit() {
    // The SECOND would close the last round too, were it for this unit.
    let last = with(|row| {
        row.log = contents([B, 3, 1, 2, 9_999, 5, 6, BLANK]);
        row.image = row.log;
        mark(&mut row.seconds, 0, 5);
    });
    let rows = card(3, last);
    for other in [
        message([S, R, 3, 2, EVERYONE, 2, 9_999, 5, 5]),
        message([S, B, 4, 2, EVERYONE, 2, 9_999, 5, 5]),
        message([K, B, 3, 2, 0, 2, 9_999, BLANK, 5]),
    ] {
        assert_refused(BESIDE, &rows, Deliver(&other), 5);
    }
    assert_refused(BESIDE, &rows, Deliver(&broadcast(S, 2, 2, 9_999, 5)), 7);
    assert_refused(BESIDE, &rows, Deliver(&broadcast(S, 2, 2, 9_999, 0)), 7);
}

#[test]
fn refusal_6_mileage() {
    for mileage in [100_000_000, SPLIT, BLANK] {
        assert_refused(BESIDE, &card(2, GOOD), Propose(2, mileage), 6);
    }
    let fresh = [B, 3, 1, 2, 0, BLANK, BLANK, BLANK];
    let mut rows = card(2, row(fresh));
    let first = broadcast(F, 1, 2, 0, 99_999_999);
    assert_eq!(
        call(BESIDE, &mut rows, Propose(2, 99_999_999)),
        (0, first, 1)
    );
    let mut wanted = row(fresh);
    wanted.image.proposal = 99_999_999;
    assert_eq!(rows, card(2, wanted));
}

/// Mileages beside the bound that was before request 3 and at today's; and numbers beyond it.
const MILEAGES: [u32; 4] = [9_999_999, 10_000_000, 10_000_001, 99_999_999];
const BEYOND: [u32; 3] = [100_000_000, 100_000_001, 999_999_999];

/// Row 2 with the number in its log, and so in its image; then in its image alone.
fn with_number(number: u32) -> [Row; 6] {
    [
        row([B, 3, 1, 2, 4, number, 6, BLANK]),
        row([B, 3, 1, 2, 4, 5, number, BLANK]),
        row([B, 3, 1, 2, 4, 5, 6, number]),
        with(|row| row.image.proposal = number),
        with(|row| mark(&mut row.checks, 2, number)),
        with(|row| mark(&mut row.seconds, 0, number)),
    ]
}

#[test]
fn the_bound_in_a_row() {
    let second = broadcast(S, 2, 2, 3, 5);
    for row in MILEAGES.into_iter().flat_map(with_number) {
        for act in [KeyOn(2), Propose(2, 1), Deliver(&second)] {
            assert_eq!(call(BESIDE, &mut card(2, row), act).0, 0);
        }
    }
    for number in BEYOND {
        let [logs @ .., proposal, check, second] = with_number(number);
        for row in logs {
            assert_row_refused(BESIDE, row, 2);
            assert_refused(BESIDE, &card(2, row), KeyOn(2), 2);
        }
        for row in [proposal, check, second] {
            assert_row_refused(BESIDE, row, 3);
        }
    }
}

#[test]
fn the_bound_of_a_proposal_and_a_message() {
    let fresh = row([B, 3, 1, 2, 0, BLANK, BLANK, BLANK]);
    for mileage in MILEAGES {
        let first = broadcast(F, 1, 2, 0, mileage);
        let check = broadcast(C, 1, 2, 0, mileage);
        let mut rows = card(2, fresh);
        assert_eq!(call(BESIDE, &mut rows, Propose(2, mileage)), (0, first, 1));
        assert_eq!(call(BESIDE, &mut rows, Deliver(&first)), (0, check, BLANK));
        assert_eq!(rows[1].log.first, mileage);
    }
    for number in BEYOND {
        let mut first = broadcast(F, 1, 2, 0, 5);
        first[10..14].copy_from_slice(&number.to_be_bytes());
        first[14..].copy_from_slice(&number.to_be_bytes());
        assert_refused(BESIDE, &card(2, fresh), Propose(2, number), 6);
        assert_refused(BESIDE, &card(2, fresh), Deliver(&first), 4);
    }
}

/// Two entries of unit 1 on one card, their messages in turn: each goes to the row of its entry.
#[test]
fn two_entries_on_one_card() {
    let mut rows = vec![GARBAGE; 3];
    for number in [3, 1] {
        assert_eq!(call(BESIDE, &mut rows, Start(number)).0, 0);
    }
    let mut hear = |bytes: Bytes| call(BESIDE, &mut rows, Deliver(&bytes));
    let quiet = (0, EMPTY, BLANK);
    let told = |bytes| (0, bytes, BLANK);
    assert_eq!(
        hear(broadcast(F, 0, 1, 0, 5)),
        told(broadcast(C, 1, 1, 0, 5))
    );
    assert_eq!(
        hear(broadcast(F, 0, 3, 0, 8)),
        told(broadcast(C, 1, 3, 0, 8))
    );
    assert_eq!(hear(broadcast(C, 0, 1, 0, 5)), quiet);
    assert_eq!(hear(broadcast(C, 0, 3, 0, 8)), quiet);
    let second = message([S, B, 3, 1, EVERYONE, 3, 0, 8, BLANK]);
    assert_eq!(hear(broadcast(C, 1, 3, 0, 8)), told(second));
    assert_eq!(hear(broadcast(S, 0, 3, 0, 8)), quiet);
    assert_eq!(hear(second), (0, EMPTY, 8));
    assert_eq!(hear(broadcast(S, 0, 2, 0, 8)).0, 2);

    let mut one = row([B, 3, 1, 1, 0, BLANK, 5, BLANK]);
    mark(&mut one.checks, 0, 5);
    let mut three = row([B, 3, 1, 3, 0, BLANK, 8, 8]);
    three.image = contents([B, 3, 1, 3, 1, 8, BLANK, BLANK]);
    assert_eq!(rows, [one, GARBAGE, three]);

    // Key-on takes row 3 back to its log, and leaves the others.
    assert_eq!(call(BESIDE, &mut rows, KeyOn(3)).0, 0);
    assert_eq!(rows, [one, GARBAGE, row([B, 3, 1, 3, 0, BLANK, 8, 8])]);
}

/// Beside a row whose image has another proposal than its log, and CHECKs or SECONDs gathered: what goes out again is the image's.
#[test]
fn a_vote_again_leaves_every_row() {
    let with_proposal = |fields| {
        let mut row = row(fields);
        row.image.proposal = 77;
        mark(&mut row.seconds, 2, 5);
        row
    };
    let split = with_proposal([B, 3, 1, 2, 4, 5, 6, SPLIT]);
    let first = broadcast(F, 0, 2, 4, 9);
    for (beside, row, met, vote) in [
        (BESIDE, split, first, broadcast(C, 1, 2, 4, 6)),
        (
            BESIDE,
            split,
            broadcast(C, 1, 2, 4, 9),
            message([S, B, 3, 1, EVERYONE, 2, 4, SPLIT, 77]),
        ),
        (
            [R, 3, 1],
            with_proposal([R, 3, 1, 2, 4, 5, 6, BLANK]),
            message([F, R, 3, 2, EVERYONE, 2, 4, 9, 9]),
            message([S, R, 3, 1, EVERYONE, 2, 4, 6, 77]),
        ),
    ] {
        for count in [2, 64] {
            let mut rows = card(count, row);
            for _ in 0..2 {
                assert_eq!(call(beside, &mut rows, Deliver(&met)), (0, vote, BLANK));
                assert_eq!(rows, card(count, row));
            }
        }
    }
    // Without a second estimate a CHECK is gathered, and its sender's next one is not answered.
    let mut rows = card(2, GOOD);
    for _ in 0..2 {
        let check = broadcast(C, 0, 2, 4, 9);
        assert_eq!(call(BESIDE, &mut rows, Deliver(&check)), (0, EMPTY, BLANK));
    }
    assert_eq!(rows, card(2, with(|row| mark(&mut row.checks, 0, 9))));
}
