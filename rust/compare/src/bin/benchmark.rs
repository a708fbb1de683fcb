//! Times the core and the independent implementation side by side; nothing is asserted on times.
//! `benchmark`: the table. `benchmark --count SIDE CASE N`: exactly N calls of one case, to be counted by another program.
//! `benchmark --script`: the script that the bench is timed with, on standard output.

use compare::cases::{all, Case, Room};
use compare::made::longest;
use compare::places;
use compare::program::{printed, Failure, Feed};
use compare::random::Random;
use compare::side::{Side, CORE, INDEPENDENT};
use std::io::{Read, Write};
use std::path::Path;
use std::process::ExitCode;
use std::time::Instant;

const SAMPLES: usize = 101;
const CALLS: u64 = 2_000;
const PROCESSES: usize = 201;
/// Where this is set in its environment, this program is the independent bench: a script in, its listing out.
const PLAYS: &str = "BENCHMARK_PLAYS";
const USAGE: &str = "benchmark [--script | --count core|independent|copy CASE N]";

/// The median of each of these, in nanoseconds; one after the other in every sample.
fn medians(samples: usize, runs: &mut [&mut dyn FnMut()]) -> Vec<f64> {
    let mut times = vec![Vec::new(); runs.len()];
    for _ in 0..samples {
        for (run, times) in runs.iter_mut().zip(&mut times) {
            let begin = Instant::now();
            run();
            times.push(begin.elapsed().as_nanos() as f64);
        }
    }
    times
        .iter_mut()
        .for_each(|times| times.sort_by(f64::total_cmp));
    times.iter().map(|times| times[times.len() / 2]).collect()
}

fn row(name: &str, core: f64, independent: f64) {
    println!(
        "{name:<34} {core:>12.1} {independent:>12.1} {:>8.2}",
        core / independent
    );
}

fn time_calls(case: &Case) -> f64 {
    let (mut one, mut two, mut three) = (Room::default(), Room::default(), Room::default());
    let times = medians(
        SAMPLES,
        &mut [
            &mut || case.run(Some(&CORE), CALLS, &mut one),
            &mut || case.run(Some(&INDEPENDENT), CALLS, &mut two),
            &mut || case.run(None, CALLS, &mut three),
        ],
    );
    row(&case.name, times[0] / CALLS as f64, times[1] / CALLS as f64);
    times[2] / CALLS as f64
}

fn calls_tables() -> Result<(), String> {
    let [units, cards] = all()?;
    calls_table("calls", "log and image", &units)?;
    println!();
    calls_table("calls on a card of 64 rows", "the row", &cards)
}

fn calls_table(title: &str, copied: &str, cases: &[Case]) -> Result<(), String> {
    println!("{title}: nanoseconds a call, copying {copied} first; median of {SAMPLES} runs of {CALLS} calls, the sides in turn");
    println!(
        "{:<34} {:>12} {:>12} {:>8}",
        "case-engine-n", "core", "independent", "ratio"
    );
    let mut copying = Vec::new();
    for case in cases {
        let numbers = [case.number(&CORE), case.number(&INDEPENDENT)];
        if numbers != [0, 0] {
            return Err(format!("{} is not accepted: {numbers:?}", case.name));
        }
        copying.push(time_calls(case));
    }
    copying.sort_by(f64::total_cmp);
    let copy = copying[copying.len() / 2];
    row("copying alone, in every row above", copy, copy);
    Ok(())
}

fn time_processes(program: &Path, player: &Path, script: &[u8]) -> Result<Vec<f64>, String> {
    // The first failure stays, and after it there are no more runs.
    let run = |path: &Path, failure: &mut Option<Failure>| {
        if failure.is_none() {
            *failure = printed(path, script, Feed::Whole).err();
        }
    };
    let (mut core, mut independent) = (None, None);
    let times = medians(
        PROCESSES,
        &mut [&mut || run(program, &mut core), &mut || {
            run(player, &mut independent)
        }],
    );
    match core.or(independent) {
        None => Ok(times),
        Some(failure) => Err(failure.to_string()),
    }
}

fn timed_script() -> Vec<u8> {
    longest(&mut Random::new(412_077))
}

fn bench_table() -> Result<(), String> {
    let program = places::program();
    let player = std::env::current_exe().map_err(|error| error.to_string())?;
    std::env::set_var(PLAYS, "1");
    if !program.exists() {
        return Err(format!(
            "no program {}: run `make all` first",
            program.display()
        ));
    }
    let script = timed_script();
    let lines = script.iter().filter(|&&byte| byte == b'\n').count() as f64 - 1.0;
    let (empty, long) = (
        time_processes(&program, &player, b"")?,
        time_processes(&program, &player, &script)?,
    );
    println!("\nbench: both as a process, script and listing through pipes; median of {PROCESSES} runs, the sides in turn; nanoseconds");
    println!(
        "{:<34} {:>12} {:>12} {:>8}",
        "", "core", "independent", "ratio"
    );
    row("an empty script", empty[0], empty[1]);
    row(&format!("a script of {lines} lines"), long[0], long[1]);
    row(
        "a line, process start included",
        long[0] / lines,
        long[1] / lines,
    );
    row(
        "a line, less an empty script",
        (long[0] - empty[0]) / lines,
        (long[1] - empty[1]) / lines,
    );
    let inside = medians(
        PROCESSES,
        &mut [&mut || drop(std::hint::black_box(independent::bench::listing(&script)))],
    );
    println!(
        "{:<34} {:>12} {:>12.1}",
        "a line, listing without a process",
        "-",
        inside[0] / lines
    );
    Ok(())
}

fn count(words: &[String]) -> Result<(), String> {
    let [side, case, calls] = words else {
        return Err(USAGE.to_string());
    };
    let side: Option<Side> = match side.as_str() {
        "core" => Some(CORE),
        "independent" => Some(INDEPENDENT),
        "copy" => None,
        _ => return Err(USAGE.to_string()),
    };
    let calls = calls.parse().map_err(|_| USAGE.to_string())?;
    let cases = all()?.into_iter().flatten().collect::<Vec<_>>();
    let found = cases.iter().find(|one| one.name == *case);
    let names = || {
        cases
            .iter()
            .map(|case| case.name.as_str())
            .collect::<Vec<_>>()
            .join(" ")
    };
    found
        .ok_or_else(|| format!("no such case; there are: {}", names()))?
        .run(side.as_ref(), calls, &mut Room::default());
    Ok(())
}

fn play() -> Result<(), String> {
    let mut script = Vec::new();
    std::io::stdin()
        .lock()
        .read_to_end(&mut script)
        .and_then(|_| {
            let listing = independent::bench::listing(&script);
            std::io::stdout().lock().write_all(&listing)
        })
        .map_err(|error| error.to_string())
}

fn run() -> Result<(), String> {
    if std::env::var_os(PLAYS).is_some() {
        return play();
    }
    let words: Vec<String> = std::env::args().skip(1).collect();
    match words.split_first() {
        None => calls_tables().and_then(|()| bench_table()),
        Some((word, rest)) if word == "--count" => count(rest),
        Some((word, [])) if word == "--script" => std::io::stdout()
            .write_all(&timed_script())
            .map_err(|error| error.to_string()),
        _ => Err(USAGE.to_string()),
    }
}

fn main() -> ExitCode {
    match run() {
        Ok(()) => ExitCode::SUCCESS,
        Err(trouble) => {
            eprintln!("benchmark: {trouble}");
            ExitCode::FAILURE
        }
    }
}
