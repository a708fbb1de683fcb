//! The comparison of listings can fail: players with one wrong behaviour are found, and the script is shrunk.

use compare::program::{printed, Failure, Feed};
use compare::random::Random;
use compare::scripts::{run, Player, Players};
use compare::side::{Side, INDEPENDENT};
use independent::bench::listing;
use independent::calls;
use std::cell::Cell;
use std::path::Path;
use wrong_bench::listed;

mod wrong_bench;

fn right(script: &[u8], _: Feed) -> Result<Vec<u8>, Failure> {
    Ok(listing(script))
}

/// The listing with a text replaced wherever it stands.
fn replaced(script: &[u8], from: &str, to: &str) -> Result<Vec<u8>, Failure> {
    let text = String::from_utf8(listing(script)).expect("a listing is text");
    Ok(text.replace(from, to).into_bytes())
}

/// The report of a run that must fail. `cargo test -- --nocapture` shows it.
fn report(wrong: Player) -> String {
    let report = run(&Players(wrong, &right), 4, &mut Random::new(1))
        .expect_err("the wrong player is found");
    println!("{report}\n");
    report
}

/// Shrunk to no more than so many bytes.
fn assert_bytes(report: &str, most: usize) {
    let bytes = report
        .split_once("shrunk from ")
        .and_then(|(_, rest)| rest.split_once(" bytes"));
    let to = bytes
        .and_then(|(numbers, _)| numbers.split_once(" to "))
        .and_then(|(_, to)| to.parse::<usize>().ok());
    assert!(to.is_some_and(|to| to <= most), "{report}");
}

#[test]
fn the_right_player_agrees_with_itself() {
    run(&Players(&right, &right), 10, &mut Random::new(1)).unwrap();
}

#[test]
fn another_number_is_found() {
    assert_bytes(
        &report(&|script, _| replaced(script, ",11,-", ",10,-")),
        800,
    );
    assert_bytes(
        &report(&|script, _| replaced(script, ",9,-,-", ",8,-,-")),
        14,
    );
}

#[test]
fn another_final_line_is_found() {
    assert_bytes(
        &report(&|script, _| replaced(script, "end,1,1\n", "end,1,0\n")),
        12,
    );
}

#[test]
fn a_missing_last_newline_is_found() {
    let ended = |script: &[u8]| {
        if script.ends_with(b"\n") {
            script.to_vec()
        } else {
            [script, b"\n"].concat()
        }
    };
    assert_bytes(&report(&|script, _| Ok(listing(&ended(script)))), 8);
}

#[test]
fn another_longest_script_is_found() {
    let wrong = |script: &[u8], _: Feed| {
        Ok(listing(if script.len() == 32_769 {
            &script[..32_768]
        } else {
            script
        }))
    };
    assert_bytes(&report(&wrong), 32_769);
}

#[test]
fn a_player_that_minds_pieces_is_found() {
    let wrong = |script: &[u8], feed: Feed| match feed {
        Feed::Bytes => Ok(listing(script.get(1..).unwrap_or_default())),
        _ => Ok(listing(script)),
    };
    let found = report(&wrong);
    assert!(found.contains("fed Bytes"), "{found}");
    assert_bytes(&found, 8);
}

#[test]
fn a_player_that_fails_is_found() {
    let found = report(&|script, _| {
        if script.contains(&0) {
            Err(Failure::Other("it stopped".to_string()))
        } else {
            Ok(listing(script))
        }
    });
    assert!(found.contains("it stopped"), "{found}");
    assert_bytes(&found, 1);
}

#[test]
fn what_is_never_reached_is_a_failure() {
    let never = |script: &[u8], _: Feed| replaced(script, ",10,-,-", ",9,-,-");
    let found = run(&Players(&never, &never), 10, &mut Random::new(1)).unwrap_err();
    assert!(found.contains("never reached: number 10"), "{found}");
}

/// A delivery as before request 2: no CHECK or SECOND goes out again.
fn silent(log: &mut [u8], image: &mut [u8], met: &[u8], out: &mut [u8], decision: &mut u32) -> u32 {
    let before = [log.to_vec(), image.to_vec()];
    let number = calls::deliver(log, image, met, out, decision);
    if *log == before[0] && *image == before[1] && matches!(out[0], b'C' | b'S') {
        out.fill(0);
    }
    number
}

/// With the right units the bench of these tests is a right one.
#[test]
fn a_bench_of_silent_units_is_found() {
    let plays = |side| move |script: &[u8], _: Feed| Ok(listed(&side, script));
    let right_units = plays(INDEPENDENT);
    run(&Players(&right_units, &right), 10, &mut Random::new(1)).unwrap();
    let deliver = silent;
    let silent_units = plays(Side {
        deliver,
        ..INDEPENDENT
    });
    assert_bytes(&report(&silent_units), 27);
}

/// It is not played again on smaller scripts.
#[test]
fn a_player_that_hangs_is_found_at_once() {
    let hung = Cell::new(0);
    let found = report(&|script, _| {
        if script.ends_with(b"\n") {
            hung.set(hung.get() + 1);
            return Err(Failure::Hangs("it hangs".to_string()));
        }
        Ok(listing(script))
    });
    assert!(found.contains("it hangs; the script"), "{found}");
    assert_eq!(hung.get(), 1);
}

/// Of long listings only the lines around the first difference are shown.
#[test]
fn a_long_report_is_cut() {
    let wrong = |script: &[u8], _: Feed| {
        let mut text = listing(script);
        if text.len() > 20_000 {
            text[10_000] ^= 1;
        }
        Ok(text)
    };
    let found = report(&wrong);
    assert!(found.contains("at byte 10000 of the listing"), "{found}");
    assert!(found.lines().count() < 200, "{found}");
}

#[test]
fn a_program_must_end_well_and_without_complaint() {
    let shell = |script: &str| printed(Path::new("/bin/sh"), script.as_bytes(), Feed::Whole);
    assert_eq!(shell("echo yes").unwrap(), b"yes\n");
    let complaint = shell("echo yes; echo no >&2").unwrap_err().to_string();
    assert!(
        complaint.ends_with("standard error: \"no\\n\""),
        "{complaint}"
    );
    let status = shell("echo yes; exit 3").unwrap_err().to_string();
    assert!(status.contains("exit status: 3"), "{status}");
}
