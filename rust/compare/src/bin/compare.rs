//! Compares the core with the independent implementation: `compare [--long] [--seed N | --seed random] [--program PATH]`.
//! Exit 0: all agreed, and all that should be reached was reached.

use compare::old_bound::HUNDRED_METRES;
use compare::program::{printed, Feed};
use compare::random::Random;
use compare::side::{Pair, BOTH, CORE};
use compare::{alone, card_differential, card_histories, same_calls, same_listings};
use compare::{differential, histories, last_rounds, names, places, scripts};
use std::path::{Path, PathBuf};
use std::process::ExitCode;
use std::time::{Instant, SystemTime, UNIX_EPOCH};

const SEED: u64 = 412_077;
const LONG: u64 = 100;

struct Options {
    times: u64,
    seed: u64,
    program: PathBuf,
}

fn seed_from_clock() -> u64 {
    SystemTime::now()
        .duration_since(UNIX_EPOCH)
        .map_or(1, |time| time.as_nanos() as u64)
}

fn options() -> Result<Options, String> {
    let mut options = Options {
        times: 1,
        seed: SEED,
        program: places::program(),
    };
    let mut words = std::env::args().skip(1);
    while let Some(word) = words.next() {
        let mut value = || words.next().ok_or(format!("{word} wants a value"));
        match word.as_str() {
            "--long" => options.times = LONG,
            "--program" => options.program = value()?.into(),
            "--seed" => {
                let text = value()?;
                let number = text.parse().map_err(|_| format!("no seed: {text}"));
                options.seed = if text == "random" {
                    seed_from_clock()
                } else {
                    number?
                };
            }
            _ => {
                return Err(format!(
                    "unknown: {word}; compare [--long] [--seed N | --seed random] [--program PATH]"
                ))
            }
        }
    }
    Ok(options)
}

/// One part: its summary with its time, or why it failed.
fn part(
    name: &str,
    seed: u64,
    run: impl FnOnce(&mut Random) -> Result<String, String>,
) -> Result<(), String> {
    let begin = Instant::now();
    let result = run(&mut Random::new(seed));
    let seconds = begin.elapsed().as_secs_f64();
    let text = result.map_err(|report| format!("{name}, seed {seed}: {report}"))?;
    println!("{name}: {text}; {seconds:.1} s");
    Ok(())
}

fn play_scripts(program: &Path, hundreds: u64, random: &mut Random) -> Result<String, String> {
    if !program.exists() {
        return Err(format!(
            "FAILED: no program {}: run `make all` in the repository's root first",
            program.display()
        ));
    }
    let independent = |script: &[u8], _: Feed| Ok(independent::bench::listing(script));
    let program = |script: &[u8], feed: Feed| printed(program, script, feed);
    scripts::run(&scripts::Players(&program, &independent), hundreds, random)
}

/// Beside the listings with the bound that was before request 3.
fn play_as_before(program: &Path, hundreds: u64, random: &mut Random) -> Result<String, String> {
    let before = hundred_metres::bench::listing;
    let program = |script: &[u8], feed: Feed| printed(program, script, feed);
    same_listings::run(&program, &before, hundreds, random)
}

fn run() -> Result<(), String> {
    let Options {
        times,
        seed,
        program,
    } = options()?;
    println!(
        "compare: seed {seed}{}",
        if times > 1 { ", long" } else { "" }
    );
    part("names", seed, |_| names::check())?;
    let amount = differential::Amount {
        calls: 3_000_000 * times,
        swept: 10 * times as usize,
        mileages: Some(if times > 1 { [1, 1] } else { [1, 23] }),
    };
    part("differential", seed, |random| {
        differential::run(&BOTH, &amount, random)
    })?;
    part("histories", seed, |random| {
        histories::run(&BOTH, 10_000 * times, random)
    })?;
    part("last rounds", seed, |random| {
        last_rounds::run(&BOTH, 2_000 * times, random)
    })?;
    let cards = card_differential::Cards {
        pair: BOTH,
        alone: alone::CORE_ALONE,
    };
    let amount = card_differential::Amount {
        calls: 300_000 * times,
        swept: 12 * times as usize,
    };
    part("cards", seed, |random| {
        card_differential::run(&cards, &amount, random)
    })?;
    part("histories of cards", seed, |random| {
        card_histories::run(&BOTH, 3_000 * times, random)
    })?;
    part("calls as before request 3", seed, |random| {
        same_calls::run(&Pair(CORE, HUNDRED_METRES), 500_000 * times, random)
    })?;
    part("scripts", seed, |random| {
        play_scripts(&program, 30 * times, random)
    })?;
    part("scripts as before request 3", seed, |random| {
        play_as_before(&program, 10 * times, random)
    })
}

fn main() -> ExitCode {
    match run() {
        Ok(()) => println!("compare: all agree"),
        Err(report) => {
            println!("{report}");
            return ExitCode::FAILURE;
        }
    }
    ExitCode::SUCCESS
}
