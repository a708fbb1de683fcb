//! The last rounds: the number 7 and its neighbours, histories that begin near round 9,999, and one that climbs there from round 0.

use crate::call::{Call, Entry, IMAGE, LOG, MESSAGE, OUT};
use crate::format::{image_of, log_of, message_of, put_mark, quorum};
use crate::format::{
    ACCEPTED, BLANK, CHECK_MARKS, EVERYONE, LAST_ROUND, MAX_ROUND, MAX_UNITS, MIN_UNITS,
    SECOND_MARKS, SPLIT,
};
use crate::histories;
use crate::history::{Run, Tally};
use crate::manner::random_setting;
use crate::random::Random;
use crate::side::Pair;
use crate::trouble::agreed;
use crate::world::{Setting, What};

/// A delivery near the last round: the unit's round, estimates and SECOND marks, counted from the quorum; the message's kind, round and
/// estimate, and whether its sender is marked; the number wanted, and whether a CHECK or SECOND is.
struct Row {
    name: &'static str,
    round: u32,
    held: [u32; 2],
    short: u32,
    kind: u8,
    message_round: u32,
    estimate: u32,
    again: bool,
    number: u32,
    votes: bool,
}

const CLOSING: Row = Row {
    name: "closes round 9,999",
    round: MAX_ROUND,
    held: [BLANK, BLANK],
    short: 1,
    kind: b'S',
    message_round: MAX_ROUND,
    estimate: 5,
    again: false,
    number: LAST_ROUND,
    votes: false,
};

fn rows() -> Vec<Row> {
    let near = |name| Row {
        name,
        number: ACCEPTED,
        ..CLOSING
    };
    vec![
        CLOSING,
        Row {
            name: "closes it undecided",
            estimate: 9,
            ..CLOSING
        },
        Row {
            name: "closes it with split",
            estimate: SPLIT,
            ..CLOSING
        },
        Row {
            short: 2,
            ..near("one mark short")
        },
        Row {
            again: true,
            ..near("the same sender again")
        },
        Row {
            round: MAX_ROUND - 1,
            message_round: MAX_ROUND - 1,
            ..near("round 9,998 closes")
        },
        Row {
            round: MAX_ROUND - 1,
            ..near("a SECOND above")
        },
        Row {
            message_round: MAX_ROUND - 1,
            ..near("a SECOND below")
        },
        Row {
            kind: b'F',
            votes: true,
            ..near("FIRST at 9,999")
        },
        Row {
            kind: b'C',
            votes: true,
            ..near("CHECK at 9,999")
        },
        Row {
            kind: b'F',
            held: [9, BLANK],
            votes: true,
            ..near("FIRST at 9,999 again")
        },
        Row {
            kind: b'C',
            held: [9, SPLIT],
            votes: true,
            ..near("CHECK at 9,999 again")
        },
        Row {
            kind: b'K',
            ..near("SKIP at 9,999")
        },
    ]
}

/// The row as a call of unit 1, with as many CHECK marks as there can be; none where the engine has no such message.
fn row_call(row: &Row, engine: u8, n: u32) -> Option<Call> {
    if engine == b'R' && (row.kind == b'C' || row.estimate == SPLIT) {
        return None;
    }
    let quorum = quorum(engine, n);
    let [first, second] = row.held;
    let record = [engine.into(), n, 1, 7, row.round, 5, first, second];
    let mut image = image_of(record);
    for unit in 0..quorum - row.short {
        put_mark(&mut image, SECOND_MARKS, unit, 5);
    }
    let gathers = engine == b'B' && second == BLANK;
    for unit in 0..if gathers { quorum - 1 } else { 0 } {
        put_mark(&mut image, CHECK_MARKS, unit, 5);
    }
    let sender = if row.again { 0 } else { quorum - 1 };
    let (receiver, estimate) = if row.kind == b'K' {
        (1, BLANK)
    } else {
        (EVERYONE, row.estimate)
    };
    let mut call = Call::new(Entry::Deliver, 170);
    call.bytes[LOG].put(&log_of(record));
    call.bytes[IMAGE].put(&image);
    let (kind, engine) = (row.kind.into(), engine.into());
    let numbers = [
        kind,
        engine,
        n,
        sender,
        receiver,
        7,
        row.message_round,
        estimate,
        5,
    ];
    call.bytes[MESSAGE].put(&message_of(numbers));
    Some(call)
}

fn neighbours(pair: &Pair) -> Result<u64, String> {
    let mut count = 0;
    for (engine, n) in [b'B', b'R']
        .into_iter()
        .flat_map(|engine| (MIN_UNITS..=MAX_UNITS).map(move |n| (engine, n)))
    {
        for row in rows() {
            let Some(call) = row_call(&row, engine, n) else {
                continue;
            };
            let answer = agreed(pair, &call)
                .map_err(|trouble| format!("FAILED, {}: {trouble}", row.name))?;
            let votes = matches!(answer.after.bytes[OUT].slice()[0], b'C' | b'S');
            if (answer.number, votes) != (row.number, row.votes) {
                return Err(format!(
                    "FAILED, {}: {} wanted, {} given; a CHECK or SECOND: {} wanted, {votes} given\n  {call}",
                    row.name, row.number, answer.number, row.votes
                ));
            }
            count += 1;
        }
    }
    Ok(count)
}

/// All in one round, or each in its own.
fn late_setting(random: &mut Random) -> Setting {
    let mut setting = random_setting(random);
    let one = random.between(9_990, MAX_ROUND);
    let alike = random.chance(2, 3);
    setting.rounds = (0..setting.n)
        .map(|_| {
            if alike {
                one
            } else {
                random.between(9_990, MAX_ROUND)
            }
        })
        .collect();
    setting
}

fn histories(pair: &Pair, count: u64, random: &mut Random) -> Result<Tally, String> {
    let mut tally = Tally::default();
    for _ in 0..count {
        histories::one(pair, &late_setting(random), random, &mut tally)?;
    }
    let (seven, again) = (tally.numbers[LAST_ROUND as usize], tally.again.last);
    if seven == 0 || again == 0 || tally.greatest_round != MAX_ROUND || tally.decisions == 0 {
        return Err(format!(
            "never reached: 7 {seven}, greatest round {}, votes sent again in round 9,999 {again}, decisions {}",
            tally.greatest_round, tally.decisions
        ));
    }
    Ok(tally)
}

/// From round 0 to 9,999, which never closes; every message to all three units, in the order sent. Every round decides the first mileage.
fn climb(pair: &Pair, engine: u8) -> Result<Tally, String> {
    let mut tally = Tally::default();
    let setting = Setting {
        engine,
        n: 3,
        entry: 7,
        rounds: Vec::new(),
    };
    let mut run = Run::new(pair, &setting, &mut tally)
        .map_err(|trouble| format!("FAILED at the start: {trouble}"))?;
    let mut next = 0;
    for round in 0..=MAX_ROUND {
        let sevens = tally.numbers[LAST_ROUND as usize];
        climb_round(&mut run, round, &mut next, &mut tally)
            .map_err(|trouble| format!("FAILED in round {round} of a climb: {trouble}"))?;
        let closed = run
            .world
            .units
            .iter()
            .all(|unit| unit.round() == MAX_ROUND.min(round + 1));
        if !closed || (tally.numbers[LAST_ROUND as usize] > sevens) != (round == MAX_ROUND) {
            return Err(format!(
                "FAILED: round {round} of a climb does not close, or 9,999 does"
            ));
        }
    }
    if tally.decisions != 3 * u64::from(MAX_ROUND) {
        return Err(format!(
            "FAILED: a round of a climb did not decide: {} decisions",
            tally.decisions
        ));
    }
    Ok(tally)
}

fn climb_round(
    run: &mut Run,
    round: u32,
    next: &mut usize,
    tally: &mut Tally,
) -> Result<(), crate::trouble::Trouble> {
    run.step(
        round % 3,
        What::Propose(if round == 0 { 412_077 } else { round }),
        tally,
    )?;
    while *next < run.world.sent.len() {
        let by = run.world.name_of(*next);
        for unit in 0..3 {
            run.step(unit, What::Deliver(by), tally)?;
        }
        *next += 1;
    }
    Ok(())
}

pub fn run(pair: &Pair, count: u64, random: &mut Random) -> Result<String, String> {
    let rows = neighbours(pair)?;
    let near = histories(pair, count, random)?;
    let calls: u64 = [climb(pair, b'B')?, climb(pair, b'R')?]
        .iter()
        .map(|tally| tally.calls)
        .sum();
    Ok(format!(
        "{rows} neighbours of 7; {} histories near round 9,999, {} calls, numbers 0 to 7: {:?}, decisions {}, \
         votes sent again in round 9,999 {}; two climbs from round 0, {calls} calls",
        near.histories,
        near.calls,
        near.unit_numbers(),
        near.decisions,
        near.again.last
    ))
}
