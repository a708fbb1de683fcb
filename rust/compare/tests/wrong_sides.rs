//! Every comparison of calls and histories can fail: sides with one wrong behaviour are found, and the case is shrunk.

use compare::call::{Call, Entry, ENTRIES};
use compare::demand3;
use compare::differential::{self, Amount};
use compare::format::*;
use compare::histories;
use compare::history::Tally;
use compare::last_rounds;
use compare::random::Random;
use compare::side::{Deliver, Pair, Side, INDEPENDENT};
use compare::world::Setting;
use independent::calls;
use wrong::{against_itself, against_right, assert_has, events, failed};
use wrong_reports::{calls_report, histories_report, FEW};

mod wrong;
mod wrong_reports;

type Image = [u8; IMAGE_LENGTH];

/// What stood in the buffers before the call, where their lengths are right.
fn before(log: &[u8], image: &[u8]) -> Option<([u8; LOG_LENGTH], Image)> {
    Some((log.try_into().ok()?, image.try_into().ok()?))
}

fn count(image: &[u8], marks: Field) -> u32 {
    get(image, marks).count_ones()
}

/// R's majority counted against n, as the source's listing has it, and not against the quorum gathered.
const MAJORITY_OF_N: Deliver = |log, image, message, out, decision| {
    let old = before(log, image);
    let number = calls::deliver(log, image, message, out, decision);
    if let (Some((_, old)), ACCEPTED, b'S') = (old, number, message.first().copied().unwrap_or(0)) {
        let closed = get(image, ROUND) == get(&old, ROUND) + 1
            && get(message, MESSAGE_ROUND) == get(&old, ROUND);
        let mileage = get(image, PROPOSAL);
        let gathered = (0..16)
            .filter(|&unit| is_marked(&old, SECOND_MARKS, unit))
            .map(|unit| get(&old, estimate(SECOND_MARKS, unit)));
        let votes = gathered
            .chain([get(message, ESTIMATE)])
            .filter(|&vote| vote == mileage)
            .count() as u32;
        if closed && old[0] == b'R' && votes < (u32::from(old[1]) + 1).div_ceil(2) {
            put(image, PROPOSAL, BLANK);
        }
    }
    number
};

/// One CHECK or SECOND too few makes a quorum: the last one counts again, as if another unit had sent it.
const QUORUM_TOO_LOW: Deliver = |log, image, message, out, decision| {
    let number = calls::deliver(log, image, message, out, decision);
    if number != ACCEPTED || !matches!(message[0], b'C' | b'S') {
        return number;
    }
    let marks = marks_of(message[0]);
    let (sender, n) = (get(message, SENDER), u32::from(image[1]));
    if count(image, marks) + 1 == quorum(image[0], n)
        && is_marked(image, marks, sender)
        && get(image, ROUND) < MAX_ROUND
    {
        let mut other = message.to_vec();
        let unmarked = (0..n)
            .find(|&unit| !is_marked(image, marks, unit))
            .unwrap_or(0);
        put(&mut other, SENDER, unmarked);
        return calls::deliver(log, image, &other, out, decision);
    }
    number
};

const OTHER_BEFORE_MALFORMED: Deliver =
    |log, image, message, out, decision| match calls::deliver(log, image, message, out, decision) {
        MALFORMED_MESSAGE
            if message[1] != log[0] || message[2] != log[1] || message[6..8] != log[4..6] =>
        {
            NOT_FOR_UNIT
        }
        number => number,
    };

fn out_not_zeroed(log: &[u8], image: &mut [u8], mileage: u32, out: &mut [u8]) -> u32 {
    let old = out.to_vec();
    let number = calls::propose(log, image, mileage, out);
    if number != ACCEPTED {
        out.copy_from_slice(&old);
    }
    number
}

fn key_on_keeps_marks(log: &[u8], image: &mut [u8]) -> u32 {
    let old = image.to_vec();
    let number = calls::key_on(log, image);
    if number == ACCEPTED && old[0] == log[0] {
        image[LOG_LENGTH..].copy_from_slice(&old[LOG_LENGTH..]);
    }
    number
}

const CHECK_QUORUM_NOT_LOGGED: Deliver = |log, image, message, out, decision| {
    let old = log.to_vec();
    let number = calls::deliver(log, image, message, out, decision);
    if number == ACCEPTED && message[0] == b'C' {
        log.copy_from_slice(&old);
    }
    number
};

const SEVEN_NOT_ANSWERED: Deliver =
    |log, image, message, out, decision| match calls::deliver(log, image, message, out, decision) {
        LAST_ROUND => ACCEPTED,
        number => number,
    };

const DECISION_ONE_MORE: Deliver = |log, image, message, out, decision| {
    let number = calls::deliver(log, image, message, out, decision);
    if *decision != BLANK {
        *decision += 1;
    }
    number
};

const NEVER_DECIDES: Deliver = |log, image, message, out, decision| {
    let number = calls::deliver(log, image, message, out, decision);
    *decision = BLANK;
    number
};

fn log_too_long(log: &[u8], fields: &mut [u32]) -> u32 {
    calls::read_log(&log[..log.len().min(LOG_LENGTH)], fields)
}

fn unit_not_below_n(fields: &[u32], log: &mut [u8]) -> u32 {
    let mut other = fields.to_vec();
    if fields.len() == LOG_FIELDS && fields[2] == fields[1] {
        other[2] -= 1;
    }
    calls::write_log(&other, log)
}

fn writes_another_round(fields: &[u32], log: &mut [u8]) -> u32 {
    let number = calls::write_log(fields, log);
    if number == ACCEPTED {
        put(log, ROUND, get(log, ROUND) / 2);
    }
    number
}

/// The comparison of calls finds the side, and says so.
fn assert_found(pair: Pair, words: &[&str]) {
    assert_has(&calls_report(pair), words);
}

/// It finds that the side differs from the right one in this entry.
fn assert_differs(change: impl Fn(&mut Side), entry: &str) {
    let differ = format!("the sides differ: {entry}");
    assert_found(against_right(change), &["shrunk", &differ]);
}

/// A history that needs no more than so many events, and is printed as a script.
fn assert_events(report: &str, most: usize) {
    let (count, rest) = events(report);
    assert!(count <= most, "{report}");
    let script = rest.trim_start_matches(":\n");
    assert!(
        script.starts_with("B,") || script.starts_with("R,"),
        "{report}"
    );
}

#[test]
fn the_right_side_agrees_with_itself() {
    let pair = Pair(INDEPENDENT, INDEPENDENT);
    differential::run(&pair, &FEW, &mut Random::new(1)).unwrap();
    histories::run(&pair, 2_000, &mut Random::new(1)).unwrap();
    last_rounds::run(&pair, 100, &mut Random::new(1)).unwrap();
}

#[test]
fn a_majority_of_n_is_found() {
    let change = |side: &mut Side| side.deliver = MAJORITY_OF_N;
    assert_differs(change, "deliver");
    assert_events(&histories_report(against_right(change)), 30);
}

/// As the scope paper says where it reads the source: at n = 4 the listing's majority loses a decision.
#[test]
fn a_majority_of_n_breaks_demand_3() {
    let pair = against_itself(|side| side.deliver = MAJORITY_OF_N);
    let setting = Setting {
        engine: b'R',
        n: 4,
        entry: 1,
        rounds: Vec::new(),
    };
    let (random, tally) = (&mut Random::new(1), &mut Tally::default());
    let many = (0..2_000).try_for_each(|_| histories::one(&pair, &setting, random, tally));
    let report = failed(many.map(|()| String::new()));
    assert_has(&report, &[demand3::OTHER_PROPOSAL, "R,4,1\n"]);
    assert_events(&report, 14);
}

#[test]
fn a_quorum_too_low_is_found() {
    let change = |side: &mut Side| side.deliver = QUORUM_TOO_LOW;
    assert_differs(change, "deliver");
    assert_events(&histories_report(against_right(change)), 6);
}

#[test]
fn a_quorum_too_low_breaks_demand_3() {
    let report = histories_report(against_itself(|side| side.deliver = QUORUM_TOO_LOW));
    assert!(
        report.contains(demand3::DIFFER) || report.contains(demand3::OTHER_PROPOSAL),
        "{report}"
    );
    assert_events(&report, 20);
}

#[test]
fn a_decision_never_proposed_breaks_demand_3() {
    let report = histories_report(against_itself(|side| side.deliver = DECISION_ONE_MORE));
    assert_has(&report, &[demand3::NOT_PROPOSED]);
    assert_events(&report, 12);
}

#[test]
fn another_order_of_refusals_is_found() {
    assert_found(
        against_right(|side| side.deliver = OTHER_BEFORE_MALFORMED),
        &["shrunk", "wrong: number 5", "independent: number 4"],
    );
}

#[test]
fn an_output_buffer_not_zeroed_is_found() {
    let change = |side: &mut Side| side.propose = out_not_zeroed;
    assert_differs(change, "propose");
    assert_found(
        against_itself(change),
        &["a refusal changed something: propose"],
    );
}

#[test]
fn marks_kept_at_key_on_are_found() {
    assert_differs(|side| side.key_on = key_on_keeps_marks, "key_on");
}

#[test]
fn a_missing_log_write_is_found() {
    let change = |side: &mut Side| side.deliver = CHECK_QUORUM_NOT_LOGGED;
    assert_differs(change, "deliver");
    assert_events(&histories_report(against_right(change)), 6);
}

#[test]
fn a_missing_seven_is_found() {
    let change = |side: &mut Side| side.deliver = SEVEN_NOT_ANSWERED;
    let rounds = |pair: Pair| {
        last_rounds::run(&pair, 100, &mut Random::new(1)).expect_err("the wrong side is found")
    };
    assert_has(
        &rounds(against_right(change)),
        &["wrong: number 0", "independent: number 7"],
    );
    assert_has(&rounds(against_itself(change)), &["7 wanted, 0 given"]);
    assert_found(
        against_itself(change),
        &["never reached: number 7 of deliver"],
    );
}

#[test]
fn a_branch_never_found_is_a_failure() {
    assert_found(
        against_itself(|side| side.deliver = NEVER_DECIDES),
        &["no delivery found for the branch BS=d"],
    );
}

#[test]
fn wrong_readings_and_writings_are_found() {
    assert_differs(|side| side.read_log = log_too_long, "read_log");
    assert_differs(|side| side.write_log = unit_not_below_n, "write_log");
    assert_found(
        against_itself(|side| side.write_log = writes_another_round),
        &["the way back gives something else"],
    );
}

#[test]
fn one_mileage_refused_is_found() {
    fn refuses_one(log: &[u8], image: &mut [u8], mileage: u32, out: &mut [u8]) -> u32 {
        let other = if mileage == 1_234_567 { BLANK } else { mileage };
        calls::propose(log, image, other, out)
    }
    let amount = Amount {
        calls: 0,
        mileages: Some([127, 1_000]),
        ..FEW
    };
    let change = |side: &mut Side| side.propose = refuses_one;
    let run = |pair: Pair| failed(differential::run(&pair, &amount, &mut Random::new(1)));
    assert_has(
        &run(against_right(change)),
        &["shrunk", "propose", "numbers [1234567", "wrong: number 6"],
    );
    assert_has(
        &run(against_itself(change)),
        &["of 198743 good mileages 198742 are accepted"],
    );
}

/// Two calls with the same slices and other guards are not the same. Their buffers begin alike, as 9 is 1 and 8.
#[test]
fn a_write_outside_is_seen() {
    for entry in ENTRIES {
        let (mut one, mut other) = (Call::new(entry, 1), Call::new(entry, 9));
        other.decision = one.decision;
        for buffer in entry.buffers() {
            for at in 0..entry.lengths()[buffer] {
                one.put_item(buffer, at, 7);
                other.put_item(buffer, at, 7);
            }
            assert_eq!(one.items(buffer), other.items(buffer));
        }
        assert_ne!(one, other);
    }
}

#[test]
fn buffers_begin_at_every_address() {
    for buffer in 0..4 {
        let begin = |filler| {
            Call::new(Entry::Deliver, filler).bytes[buffer]
                .slice()
                .as_ptr() as usize
                % 8
        };
        let mut begins: Vec<usize> = (0..8).map(begin).collect();
        begins.sort_unstable();
        assert_eq!(begins, [0, 1, 2, 3, 4, 5, 6, 7]);
    }
}

#[test]
fn a_panic_is_found() {
    fn panics(log: &[u8], image: &mut [u8]) -> u32 {
        assert!(log.len() < 300, "too long");
        calls::key_on(log, image)
    }
    assert_differs(|side| side.key_on = panics, "key_on");
}
