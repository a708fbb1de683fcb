//! Sides with one wrong behaviour, and what a report of them says.

use compare::side::{Pair, Side, INDEPENDENT};

pub fn wrong(change: impl Fn(&mut Side)) -> Side {
    let mut side = INDEPENDENT;
    side.name = "wrong";
    change(&mut side);
    side
}

/// The wrong side against the right one, and against itself.
pub fn against_right(change: impl Fn(&mut Side)) -> Pair {
    Pair(wrong(change), INDEPENDENT)
}

pub fn against_itself(change: impl Fn(&mut Side)) -> Pair {
    Pair(wrong(&change), wrong(&change))
}

/// The report of a run that must fail. `cargo test -- --nocapture` shows it.
pub fn failed(result: Result<String, String>) -> String {
    let report = result.expect_err("the wrong side is found");
    println!("{report}\n");
    report
}

pub fn assert_has(report: &str, words: &[&str]) {
    words
        .iter()
        .for_each(|word| assert!(report.contains(word), "no {word:?} in: {report}"));
}

/// How many events a shrunk history has, and what follows.
pub fn events(report: &str) -> (usize, &str) {
    let (events, rest) = report
        .split_once("shrunk to ")
        .and_then(|(_, rest)| rest.split_once(" events"))
        .unwrap_or_else(|| panic!("not shrunk: {report}"));
    (events.parse().expect("a number"), rest)
}
