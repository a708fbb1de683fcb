//! Every comparison of cards can fail: cards with one wrong behaviour are found, by calls and by histories, and the case is shrunk.

use compare::alone::INDEPENDENT_ALONE;
use compare::call::{Call, CARD_ENTRIES, ROWS};
use compare::card_differential::{self, Amount, Cards};
use compare::card_histories;
use compare::demand3;
use compare::format::ROW_NUMBERS;
use compare::random::Random;
use compare::side::{CardDeliver, CardPropose, CardRow, Pair, Side, INDEPENDENT};
use independent::card;
use wrong::{against_itself, against_right, assert_has, events, failed};
use wrong_rows::*;

mod wrong;
mod wrong_rows;

const FEW: Amount = Amount {
    calls: 60_000,
    swept: 0,
};

fn calls_report(pair: Pair) -> String {
    let cards = Cards {
        pair,
        alone: INDEPENDENT_ALONE,
    };
    failed(card_differential::run(&cards, &FEW, &mut Random::new(1)))
}

fn histories_report(pair: Pair) -> String {
    failed(card_histories::run(&pair, 500, &mut Random::new(1)))
}

/// Found beside the right side; and beside itself, by the calls for one unit or by what every call must keep.
fn assert_found(change: impl Fn(&mut Side), entry: &str) {
    let differ = format!("the sides differ: {entry}");
    assert_has(
        &calls_report(against_right(&change)),
        &["shrunk", &differ, "wrong: number"],
    );
    assert_has(
        &calls_report(against_itself(&change)),
        &["shrunk", entry, "wrong: number"],
    );
}

fn assert_deliver_found(deliver: CardDeliver) {
    assert_found(|side| side.card_deliver = deliver, "card_deliver");
}

fn assert_propose_found(propose: CardPropose) {
    assert_found(|side| side.card_propose = propose, "card_propose");
}

fn assert_start_found(start: CardRow) {
    assert_found(|side| side.card_start = start, "card_start");
}

fn assert_key_on_found(key_on: CardRow) {
    assert_found(|side| side.card_key_on = key_on, "card_key_on");
}

#[test]
fn the_right_card_agrees_with_itself() {
    let cards = Cards {
        pair: Pair(INDEPENDENT, INDEPENDENT),
        alone: INDEPENDENT_ALONE,
    };
    let amount = Amount { swept: 3, ..FEW };
    card_differential::run(&cards, &amount, &mut Random::new(1)).unwrap();
    card_histories::run(&cards.pair, 2_000, &mut Random::new(1)).unwrap();
}

#[test]
fn another_order_of_refusals_is_found() {
    assert_propose_found(SETTINGS_BEFORE_ROW);
    assert_deliver_found(SETTINGS_BEFORE_MESSAGES_ROW);
    assert_deliver_found(LOG_BEFORE_MESSAGE);
    assert_deliver_found(ROW_BEFORE_MESSAGE);
    assert_start_found(NO_ROWS_IS_NO_ROW);
}

#[test]
fn another_numbering_of_rows_is_found() {
    assert_start_found(ROWS_FROM_0);
    assert_key_on_found(LAST_ROW_REFUSED);
    assert_propose_found(ROW_PAST_COUNT);
    assert_start_found(SIXTY_FIVE_ROWS);
    assert_start_found(ROW_CUT_TO_A_BYTE);
    assert_deliver_found(TO_ROW_1);
}

#[test]
fn reading_what_is_not_to_be_read_is_found() {
    assert_key_on_found(KEY_ON_READS_IMAGE);
    assert_key_on_found(KEY_ON_KEEPS_MARKS);
    assert_start_found(START_READS_ROW);
    assert_deliver_found(WHOLE_CARD_CHECKED);
}

#[test]
fn a_row_taken_that_is_none_of_this_card_is_found() {
    assert_key_on_found(OTHER_SETTINGS);
    assert_deliver_found(OTHER_SETTINGS_HEARD);
    assert_propose_found(ENTRY_NOT_COMPARED);
    assert_deliver_found(IMAGE_OF_OTHERS);
    assert_deliver_found(IMAGE_NOT_FITTING);
}

#[test]
fn numbers_cut_are_found() {
    assert_deliver_found(MARKS_CUT);
    assert_deliver_found(N_CUT);
}

#[test]
fn a_wrong_write_is_found() {
    assert_propose_found(PROPOSAL_LOGGED);
    assert_deliver_found(STEP_NOT_LOGGED);
    assert_propose_found(OUT_OF_ANY_LENGTH);
}

/// Even where both sides are wrong alike.
#[test]
fn what_every_call_must_keep_is_asked() {
    let kept = |change: &dyn Fn(&mut Side), claim: &str| {
        let differ = "the sides differ";
        assert_has(&calls_report(against_right(change)), &["shrunk", differ]);
        assert_has(&calls_report(against_itself(change)), &["shrunk", claim]);
    };
    let refused = "a refusal changed something";
    kept(&|side| side.card_propose = REFUSED_CLEARS, refused);
    kept(&|side| side.card_propose = OUT_KEPT, refused);
    kept(&|side| side.card_deliver = DECISION_KEPT, refused);
    kept(
        &|side| side.card_deliver = OTHER_ROW_CHANGED,
        "another row changed",
    );
}

/// A shrunk history of no more than so many events, told one by one.
fn assert_events(report: &str, most: usize) {
    let (count, rest) = events(report);
    assert!(count <= most, "{report}");
    assert_has(rest, &[" on cards:\nengine ", "\nunit "]);
}

#[test]
fn histories_find_what_calls_find() {
    for (deliver, most) in [
        (TO_ROW_1 as CardDeliver, 6),
        (OTHER_ROW_CHANGED, 4),
        (STEP_NOT_LOGGED, 8),
        (WHOLE_CARD_CHECKED, 4),
    ] {
        let report = histories_report(against_right(|side| side.card_deliver = deliver));
        assert_has(&report, &["the sides differ: card_deliver"]);
        assert_events(&report, most);
    }
    let report = histories_report(against_right(|side| side.card_key_on = KEY_ON_KEEPS_MARKS));
    assert_events(&report, 5);
}

/// The mileage was proposed, but for another entry of the same card.
#[test]
fn a_decision_of_another_entry_breaks_demand_3() {
    let report = histories_report(against_itself(|side| {
        side.card_deliver = DECIDES_ANOTHER_ROW
    }));
    assert_has(&report, &[demand3::NOT_PROPOSED]);
    assert_events(&report, 24);
    // Both rows have a proposal, and so the mileage decided was proposed, but for the other one.
    let mut rows: Vec<&str> = report
        .lines()
        .filter(|line| line.contains(": proposes "))
        .filter_map(|line| line.rsplit_once("for row ").map(|(_, row)| row))
        .collect();
    rows.sort_unstable();
    rows.dedup();
    assert_eq!(rows.len(), 2, "{report}");
}

#[test]
fn a_quorum_too_low_breaks_demand_3() {
    let report = histories_report(against_itself(|side| side.card_deliver = QUORUM_TOO_LOW));
    assert!(
        report.contains(demand3::DIFFER) || report.contains(demand3::OTHER_PROPOSAL),
        "{report}"
    );
    assert_events(&report, 24);
}

#[test]
fn a_write_outside_the_rows_is_seen() {
    for entry in CARD_ENTRIES {
        let (mut one, mut other) = (Call::new(entry, 1), Call::new(entry, 9));
        for at in 0..ROW_NUMBERS {
            one.put_item(ROWS, at, 7);
            other.put_item(ROWS, at, 7);
        }
        assert_eq!(one.items(ROWS), other.items(ROWS));
        assert_ne!(one.rows, other.rows);
    }
}

#[test]
fn a_panic_is_found() {
    const PANICS: CardRow = |engine, n, unit, rows, row| {
        assert!(rows.len() < 300, "too many");
        card::start(engine, n, unit, rows, row)
    };
    assert_start_found(PANICS);
}
