//! Random histories of cards, many of them compared.

use crate::card_history::CardRun;
use crate::card_manner::{play, random_setting};
use crate::card_shrink::report;
use crate::card_tally::CardTally;
use crate::random::Random;
use crate::side::Pair;

fn one(pair: &Pair, random: &mut Random, tally: &mut CardTally) -> Result<(), String> {
    let mut run = CardRun::new(pair, &random_setting(random));
    play(&mut run, random, tally).map_err(|trouble| report(pair, &run, &trouble))?;
    run.count_whole(tally);
    Ok(())
}

pub fn run(pair: &Pair, histories: u64, random: &mut Random) -> Result<String, String> {
    let mut tally = CardTally::default();
    for _ in 0..histories {
        one(pair, random, &mut tally)?;
    }
    tally
        .summary()
        .map_err(|missing| format!("never reached: {missing}"))
}
