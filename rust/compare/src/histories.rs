//! Random histories: many of them compared, and one taken for its contents or its deliveries.

use crate::call::Call;
use crate::format::OLD_MAX_MILEAGE;
use crate::history::{Run, Tally};
use crate::history_shrink::report;
use crate::manner::{play, random_setting};
use crate::random::{greatest_mileage, Random};
use crate::scene::Pool;
use crate::side::{Pair, Side};
use crate::trouble::Trouble;
use crate::world::{Setting, What};

/// Units and messages of a history.
pub fn pool(side: &Side, random: &mut Random) -> Pool {
    let pair = Pair(*side, *side);
    let mut setting = random_setting(random);
    if random.chance(1, 3) {
        setting.rounds = vec![random.between(9_990, 9_999); setting.n as usize];
    }
    let mut pool = Pool::default();
    let mut tally = Tally::default();
    while pool.units.is_empty() || pool.messages.is_empty() {
        let Ok(mut run) = Run::new(&pair, &setting, &mut tally) else {
            continue;
        };
        let greatest = greatest_mileage(random);
        let _ = play(&mut run, 60 * setting.n, greatest, random, &mut tally);
        pool.units
            .extend(run.world.units.iter().map(|unit| (unit.log, unit.image)));
        pool.messages
            .extend(run.world.sent.iter().map(|sent| sent.bytes));
    }
    pool
}

/// The deliveries of a history as calls, for the benchmark. Its mileages were good before request 3 too.
pub fn deliveries(
    side: &Side,
    setting: &Setting,
    random: &mut Random,
) -> Result<Vec<Call>, Trouble> {
    let pair = Pair(*side, *side);
    let tally = &mut Tally::default();
    let mut first = Run::new(&pair, setting, tally)?;
    play(&mut first, 200 * setting.n, OLD_MAX_MILEAGE, random, tally)?;
    let mut again = Run::new(&pair, setting, tally)?;
    let mut calls = Vec::new();
    for &event in &first.events {
        if let (What::Deliver(_), Some(call)) = (event.what, again.world.call(&event)) {
            calls.push(call);
        }
        again.step_event(event, tally)?;
    }
    Ok(calls)
}

/// A random history from this setting. To close a round, each unit must hear every other.
pub fn one(
    pair: &Pair,
    setting: &Setting,
    random: &mut Random,
    tally: &mut Tally,
) -> Result<(), String> {
    let mut run = Run::new(pair, setting, tally)
        .map_err(|trouble| format!("FAILED at the start: {trouble}"))?;
    let events = setting.n * (15 + random.below(30 + 5 * setting.n));
    let greatest = greatest_mileage(random);
    play(&mut run, events, greatest, random, tally).map_err(|trouble| report(pair, &run, &trouble))
}

pub fn run(pair: &Pair, histories: u64, random: &mut Random) -> Result<String, String> {
    let mut tally = Tally::default();
    for _ in 0..histories {
        one(pair, &random_setting(random), random, &mut tally)?;
    }
    tally
        .summary()
        .map_err(|missing| format!("never reached: {missing}"))
}
