//! Another bound for mileages is found, in all places and in each one alone: the bound that was before request 3, and one less or one
//! more than today's. And so is another answer than the one before request 3, where today's sides are wrong alike too.

use compare::alone::INDEPENDENT_ALONE;
use compare::card_differential::{self, Cards};
use compare::card_histories;
use compare::differential::{self, Amount};
use compare::format::*;
use compare::old_bound::HUNDRED_METRES;
use compare::program::{Failure, Feed};
use compare::random::Random;
use compare::scripts::{self, Player, Players};
use compare::side::{Pair, Side, INDEPENDENT};
use compare::{same_calls, same_listings};
use independent::bench::listing;
use independent::calls;
use wrong::{against_itself, against_right, assert_has, events, failed, wrong};
use wrong_bench::listed;
use wrong_places::*;
use wrong_reports::{calls_report, histories_report, FEW};
use wrong_units::CHANGES;

mod wrong;
mod wrong_bench;
mod wrong_places;
mod wrong_reports;
mod wrong_units;

type Propose = fn(&[u8], &mut [u8], u32, &mut [u8]) -> u32;

const ONE_LESS: u32 = MAX_MILEAGE - 1;
const ONE_MORE: u32 = MAX_MILEAGE + 1;

/// An entry with that bound in each of these places is found: 0 to 2 are the log's, 3 to 7 the image's, 8 and 9 the message's.
macro_rules! assert_each {
    ($found:ident, $entry:ident, $bound:ident, $($at:literal)*) => {
        $($found(|side| side.$entry = $entry::<$at, $bound>, stringify!($entry));)*
    };
}

/// At every limit of a call, without random ones.
fn limits_report(pair: Pair) -> String {
    let amount = Amount { calls: 0, ..FEW };
    failed(differential::run(&pair, &amount, &mut Random::new(1)))
}

fn cards_report(pair: Pair, calls: u64, swept: usize) -> String {
    let alone = INDEPENDENT_ALONE;
    let amount = card_differential::Amount { calls, swept };
    let cards = Cards { pair, alone };
    failed(card_differential::run(&cards, &amount, &mut Random::new(1)))
}

fn right(script: &[u8], _: Feed) -> Result<Vec<u8>, Failure> {
    Ok(listing(script))
}

fn before(script: &[u8]) -> Vec<u8> {
    hundred_metres::bench::listing(script)
}

/// Among random calls, and among the limits.
fn assert_found(change: impl Fn(&mut Side), entry: &str) {
    let pair = against_right(change);
    let differ = format!("the sides differ: {entry}\n");
    assert_has(&calls_report(pair), &["shrunk", &differ]);
    assert_has(&limits_report(pair), &["shrunk", &differ]);
}

/// Among random calls on cards.
fn assert_card_found(change: impl Fn(&mut Side), entry: &str) {
    let differ = format!("the sides differ: {entry}\n");
    let report = cards_report(against_right(change), 60_000, 0);
    assert_has(&report, &["shrunk", &differ]);
}

#[test]
fn the_old_bound_in_all_places_is_found() {
    let old = HUNDRED_METRES;
    assert_found(|side| side.key_on = old.key_on, "key_on");
    assert_found(|side| side.propose = old.propose, "propose");
    assert_found(|side| side.deliver = old.deliver, "deliver");
    assert_found(|side| side.read_log = old.read_log, "read_log");
    assert_found(|side| side.write_log = old.write_log, "write_log");
    assert_found(|side| side.read_message = old.read_message, "read_message");
    assert_found(
        |side| side.write_message = old.write_message,
        "write_message",
    );
    assert_card_found(|side| side.card_key_on = old.card_key_on, "card_key_on");
    assert_card_found(|side| side.card_propose = old.card_propose, "card_propose");
    assert_card_found(|side| side.card_deliver = old.card_deliver, "card_deliver");
    let limits = cards_report(against_right(|side| *side = old), 0, 12);
    assert_has(&limits, &["shrunk", "the sides differ: card_"]);
}

#[test]
fn histories_find_the_old_bound() {
    let pair = against_right(|side| *side = HUNDRED_METRES);
    let cards = failed(card_histories::run(&pair, 500, &mut Random::new(1)));
    for report in [histories_report(pair), cards] {
        assert_has(&report, &["the sides differ: ", "propose"]);
        assert!(events(&report).0 <= 2, "{report}");
    }
}

#[test]
fn another_bound_of_a_proposal_is_found() {
    for propose in [
        propose_up_to::<OLD_MAX_MILEAGE>,
        propose_up_to::<ONE_LESS>,
        propose_up_to::<ONE_MORE>,
    ] {
        assert_found(|side| side.propose = propose, "propose");
    }
    for propose in [
        card_propose_up_to::<OLD_MAX_MILEAGE>,
        card_propose_up_to::<ONE_LESS>,
        card_propose_up_to::<ONE_MORE>,
    ] {
        assert_card_found(|side| side.card_propose = propose, "card_propose");
    }
}

/// Even where both sides are wrong alike: by how many of the mileages are accepted.
#[test]
fn another_bound_of_both_sides_is_found() {
    let amount = Amount {
        calls: 0,
        mileages: Some([1_000, 1_000]),
        ..FEW
    };
    for (propose, more) in [
        (propose_up_to::<OLD_MAX_MILEAGE> as Propose, 20_001),
        (propose_up_to::<ONE_LESS>, 130_001),
        (propose_up_to::<ONE_MORE>, 130_003),
    ] {
        let pair = against_itself(|side| side.propose = propose);
        let report = failed(differential::run(&pair, &amount, &mut Random::new(1)));
        assert_eq!(
            report,
            format!("FAILED: of 130002 good mileages {more} are accepted")
        );
    }
}

fn assert_logs_found<const BOUND: u32>() {
    assert_each!(assert_found, key_on, BOUND, 0 1 2);
    assert_each!(assert_found, read_log, BOUND, 0 1 2);
    assert_each!(assert_found, write_log, BOUND, 0 1 2);
}

fn assert_messages_found<const BOUND: u32>() {
    assert_each!(assert_found, read_message, BOUND, 8 9);
    assert_each!(assert_found, write_message, BOUND, 8 9);
}

/// In the log, in the image, and for a delivery in the message.
fn assert_steps_found<const BOUND: u32>() {
    assert_each!(assert_found, propose, BOUND, 0 1 2 3 4 5 6 7);
    assert_each!(assert_found, deliver, BOUND, 0 1 2 3 4 5 6 7 8 9);
}

fn assert_cards_found<const BOUND: u32>() {
    assert_each!(assert_card_found, card_key_on, BOUND, 0 1 2);
    assert_each!(assert_card_found, card_propose, BOUND, 0 1 2 3 4 5 6 7);
    assert_each!(assert_card_found, card_deliver, BOUND, 0 1 2 3 4 5 6 7 8 9);
}

#[test]
fn the_old_bound_in_one_place_is_found() {
    assert_logs_found::<OLD_MAX_MILEAGE>();
    assert_messages_found::<OLD_MAX_MILEAGE>();
    assert_steps_found::<OLD_MAX_MILEAGE>();
}

#[test]
fn the_old_bound_in_one_place_of_a_card_is_found() {
    assert_cards_found::<OLD_MAX_MILEAGE>();
}

#[test]
fn one_less_in_one_place_is_found() {
    assert_logs_found::<ONE_LESS>();
    assert_messages_found::<ONE_LESS>();
    assert_steps_found::<ONE_LESS>();
    assert_cards_found::<ONE_LESS>();
}

/// An image's estimates are not tried alone: to fit, its log would have to be out of range too.
#[test]
fn one_more_in_one_place_is_found() {
    assert_logs_found::<ONE_MORE>();
    assert_messages_found::<ONE_MORE>();
    assert_each!(assert_found, propose, ONE_MORE, 0 3 6 7);
    assert_each!(assert_found, deliver, ONE_MORE, 0 3 6 7 8 9);
    assert_each!(assert_card_found, card_key_on, ONE_MORE, 0 1 2);
    assert_each!(assert_card_found, card_propose, ONE_MORE, 0 3 6 7);
    assert_each!(assert_card_found, card_deliver, ONE_MORE, 0 3 6 7 8 9);
}

/// A bench meets the bound at a proposal alone.
#[test]
fn another_bound_of_the_bench_is_found() {
    let found = |wrong: Player, number: &str| {
        let players = Players(wrong, &right);
        let report = failed(scripts::run(&players, 4, &mut Random::new(1)));
        assert_has(
            &report,
            &["FAILED, shrunk from", &format!("P,0,{number}\\n\n")],
        );
        assert!(
            report.contains(" to 18 bytes") || report.contains(" to 19 bytes"),
            "{report}"
        );
    };
    let with = |propose| Side {
        propose,
        ..INDEPENDENT
    };
    found(
        &|script, _| Ok(hundred_metres::bench::listing(script)),
        "99999999",
    );
    found(
        &|script, _| Ok(listed(&with(propose_up_to::<OLD_MAX_MILEAGE>), script)),
        "99999999",
    );
    found(
        &|script, _| Ok(listed(&with(propose_up_to::<ONE_LESS>), script)),
        "99999999",
    );
    found(
        &|script, _| Ok(listed(&with(propose_up_to::<ONE_MORE>), script)),
        "100000000",
    );
}

/// The report of a side beside the one from before.
fn same_report(side: Side) -> String {
    let pair = Pair(side, HUNDRED_METRES);
    failed(same_calls::run(&pair, 100_000, &mut Random::new(1)))
}

#[test]
fn what_was_accepted_before_is_the_same_and_counted() {
    let pair = Pair(INDEPENDENT, HUNDRED_METRES);
    let calls = same_calls::run(&pair, 50_000, &mut Random::new(1)).unwrap();
    let names: Vec<&str> = CHANGES.iter().map(|(entry, _)| entry.name()).collect();
    assert_has(&calls, &names);
    let scripts = same_listings::run(&right, &before, 4, &mut Random::new(1)).unwrap();
    assert_has(&scripts, &["by hand 6", "at limits", "stored", "made"]);
    assert!(!scripts.ends_with("gave 6: 0"), "{scripts}");
}

#[test]
fn another_answer_of_each_entry_is_found() {
    for (entry, change) in CHANGES {
        let differ = format!("the sides differ: {}\n", entry.name());
        let report = same_report(wrong(change));
        assert_has(&report, &["shrunk", &differ, "hundred metres: number 0"]);
    }
}

#[test]
fn another_byte_of_an_answer_is_found() {
    fn one_byte(log: &[u8], image: &mut [u8]) -> u32 {
        let number = calls::key_on(log, image);
        if number == ACCEPTED {
            image[IMAGE_LENGTH - 1] ^= 1;
        }
        number
    }
    let report = same_report(wrong(|side| side.key_on = one_byte));
    let words = ["shrunk", "wrong: number 0", "hundred metres: number 0"];
    assert_has(&report, &words);
}

/// Both sides of today refuse unit 15, and so agree.
#[test]
fn sides_wrong_alike_are_found_by_what_was_before() {
    let all = |side: &mut Side| CHANGES.iter().for_each(|(_, change)| change(side));
    differential::run(&against_itself(all), &FEW, &mut Random::new(1)).unwrap();
    assert_has(&same_report(wrong(all)), &["shrunk", "wrong: number"]);
}

#[test]
fn an_entry_that_accepted_nothing_before_is_a_failure() {
    let before = Side {
        read_log: |_, _| MALFORMED_LOG,
        ..HUNDRED_METRES
    };
    let pair = Pair(INDEPENDENT, before);
    let report = failed(same_calls::run(&pair, 20_000, &mut Random::new(1)));
    assert_eq!(report, "never accepted before: read_log");
}

/// As if a unit that is down looked at the mileage first, on the program and on the independent bench alike.
#[test]
fn benches_wrong_alike_are_found_by_what_was_before() {
    let looks = |script: &[u8], _: Feed| {
        let text = String::from_utf8(listing(script)).expect("a listing is text");
        let lines = text.split_inclusive('\n').map(|line| match line {
            line if line.contains(",P,") => line.replace(",9,-,-", ",6,-,-"),
            line => line.to_string(),
        });
        Ok(lines.collect::<String>().into_bytes())
    };
    let random = &mut Random::new(1);
    scripts::run(&Players(&looks, &looks), 10, random).unwrap();
    let report = failed(same_listings::run(&looks, &before, 1, random));
    assert_has(&report, &["shrunk from", " to 15 bytes", "K,0\\n\nP,0,"]);
}

#[test]
fn scripts_of_which_none_is_compared_are_a_failure() {
    let refused = |_: &[u8]| b"B,3,7\n1,P,0,6,-,-\nend,1,0\n".to_vec();
    let report = failed(same_listings::run(&right, &refused, 1, &mut Random::new(1)));
    assert_eq!(
        report,
        "never compared: by hand, at limits, stored, made, proposals above the old bound to a unit that is down"
    );
}
