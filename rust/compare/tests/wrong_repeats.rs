//! Votes sent again: sides and a card that do it wrongly are found, and the case is shrunk.

use compare::alone::INDEPENDENT_ALONE;
use compare::card_differential::{self, Cards};
use compare::card_histories;
use compare::format::*;
use compare::last_rounds;
use compare::random::Random;
use compare::side::{CardDeliver, Deliver, Side};
use compare::votes::OTHER_ESTIMATE;
use independent::{calls, card};
use wrong::{against_itself, against_right, assert_has, events, failed};
use wrong_reports::{calls_report, histories_report};

mod wrong;
mod wrong_reports;

/// What a vote sent again is made of: the log and the image, the message met, and the vote to be changed.
struct Again<'a> {
    log: &'a mut [u8],
    image: &'a mut [u8],
    met: &'a [u8],
    vote: &'a mut [u8],
}

/// A delivery; and where it sends a vote again, that, or the unit, is changed.
fn deliver_with(
    change: fn(Again),
    [log, image]: [&mut [u8]; 2],
    met: &[u8],
    out: &mut [u8],
    decision: &mut u32,
) -> u32 {
    let before = [log.to_vec(), image.to_vec()];
    let number = calls::deliver(log, image, met, out, decision);
    let stays = *log == before[0] && *image == before[1];
    if number == ACCEPTED && stays && matches!(out[0], b'C' | b'S') {
        let vote = out;
        change(Again {
            log,
            image,
            met,
            vote,
        });
    }
    number
}

/// As before request 2.
const SILENT: Deliver = |log, image, met, out, decision| {
    let change = |again: Again| again.vote.fill(0);
    deliver_with(change, [log, image], met, out, decision)
};

const ESTIMATE_MET: Deliver = |log, image, met, out, decision| {
    let change = |again: Again| {
        let estimate = get(again.met, ESTIMATE);
        put(again.vote, ESTIMATE, estimate);
        if again.vote[0] == b'C' {
            put(again.vote, MESSAGE_PROPOSAL, estimate);
        }
    };
    deliver_with(change, [log, image], met, out, decision)
};

fn put_proposal(again: Again, proposal: u32) {
    if again.vote[0] == b'S' {
        put(again.vote, MESSAGE_PROPOSAL, proposal);
    }
}

const PROPOSAL_LOGGED: Deliver = |log, image, met, out, decision| {
    let change = |again: Again| {
        let logged = get(again.log, PROPOSAL);
        put_proposal(again, logged);
    };
    deliver_with(change, [log, image], met, out, decision)
};

const PROPOSAL_BLANK: Deliver = |log, image, met, out, decision| {
    let change = |again: Again| put_proposal(again, BLANK);
    deliver_with(change, [log, image], met, out, decision)
};

/// The whole record, as if the estimate were taken again: the image's proposal too.
const LOGS_AGAIN: Deliver = |log, image, met, out, decision| {
    let change = |again: Again| again.log.copy_from_slice(&again.image[..LOG_LENGTH]);
    deliver_with(change, [log, image], met, out, decision)
};

/// A FIRST's sender is marked as that of a CHECK, where one more makes no quorum.
const MARKS_AGAIN: Deliver = |log, image, met, out, decision| {
    let change = |again: Again| {
        let (image, sender) = (again.image, get(again.met, SENDER));
        let count = get(image, CHECK_MARKS).count_ones() + 1;
        let gathers = image[0] == b'B' && get(image, SECOND_ESTIMATE) == BLANK;
        if gathers && count < quorum(b'B', image[1].into()) {
            put_mark(image, CHECK_MARKS, sender, get(again.met, ESTIMATE));
        }
    };
    deliver_with(change, [log, image], met, out, decision)
};

const SECOND_FOR_FIRST: Deliver = |log, image, met, out, decision| {
    let change = |again: Again| {
        let Again { image, vote, .. } = again;
        let estimate = get(image, SECOND_ESTIMATE);
        if vote[0] == b'C' && estimate != BLANK {
            vote[0] = b'S';
            put(vote, ESTIMATE, estimate);
            put(vote, MESSAGE_PROPOSAL, get(image, PROPOSAL));
        }
    };
    deliver_with(change, [log, image], met, out, decision)
};

/// As before request 2.
const SILENT_CARD: CardDeliver = |engine, n, unit, rows, met, out, decision| {
    let before = rows.to_vec();
    let number = card::deliver(engine, n, unit, rows, met, out, decision);
    if number == ACCEPTED && *rows == before && matches!(out[0], b'C' | b'S') {
        out.fill(0);
    }
    number
};

fn assert_events(report: &str, most: usize) {
    let (count, _) = events(report);
    assert!(count <= most, "{report}");
}

/// Beside the right side: by calls, and by a history of no more than so many events.
fn assert_found(deliver: Deliver, most: usize) {
    let pair = against_right(|side| side.deliver = deliver);
    let differ = "the sides differ: deliver";
    assert_has(&calls_report(pair), &["shrunk", differ]);
    let report = histories_report(pair);
    assert_has(&report, &[differ]);
    assert_events(&report, most);
}

#[test]
fn a_silent_unit_is_found() {
    assert_found(SILENT, 4);
}

/// Where no side sends again, that is a failure too.
#[test]
fn a_vote_never_sent_again_is_a_failure() {
    let pair = against_itself(|side| side.deliver = SILENT);
    assert_has(
        &calls_report(pair),
        &["no delivery found for the branch BF=a"],
    );
    assert_has(
        &last_rounds::run(&pair, 100, &mut Random::new(1)).expect_err("the wrong side is found"),
        &["FIRST at 9,999 again: 0 wanted, 0 given; a CHECK or SECOND: true wanted, false given"],
    );
    assert_has(
        &histories_report(pair),
        &[
            "never reached: CHECKs sent again, SECONDs sent again in B, SECONDs sent again in R, \
             sent again that had not left before, sent again with another proposal, not sent again as the key went off",
        ],
    );
}

#[test]
fn anothers_estimate_is_found() {
    assert_found(ESTIMATE_MET, 5);
}

/// Even where both sides are wrong alike: a unit that votes twice, and differently, is found by what it sent.
#[test]
fn anothers_estimate_breaks_agreement() {
    let pair = against_itself(|side| side.deliver = ESTIMATE_MET);
    let report = histories_report(pair);
    assert_has(&report, &[OTHER_ESTIMATE]);
    assert_events(&report, 6);
}

#[test]
fn another_proposal_is_found() {
    assert_found(PROPOSAL_LOGGED, 11);
    assert_found(PROPOSAL_BLANK, 11);
}

#[test]
fn a_change_of_log_or_image_is_found() {
    assert_found(LOGS_AGAIN, 5);
    assert_found(MARKS_AGAIN, 5);
}

#[test]
fn a_second_for_a_first_is_found() {
    assert_found(SECOND_FOR_FIRST, 11);
}

#[test]
fn a_silent_card_is_found() {
    let change = |side: &mut Side| side.card_deliver = SILENT_CARD;
    let amount = card_differential::Amount {
        calls: 60_000,
        swept: 0,
    };
    let report = |pair| {
        let alone = INDEPENDENT_ALONE;
        let cards = Cards { pair, alone };
        failed(card_differential::run(&cards, &amount, &mut Random::new(1)))
    };
    let histories = |pair| failed(card_histories::run(&pair, 500, &mut Random::new(1)));
    let differ = "the sides differ: card_deliver";
    assert_has(&report(against_right(change)), &["shrunk", differ]);
    assert_has(&report(against_itself(change)), &["shrunk", differ]);
    let found = histories(against_right(change));
    assert_has(&found, &[differ]);
    assert_events(&found, 5);
    let never = histories(against_itself(change));
    assert_has(&never, &["never reached: CHECKs sent again"]);
}
