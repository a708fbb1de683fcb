//! Every call that was accepted with the bound that was before request 3 is answered the same, to the last byte.

use crate::call::{Answer, Call, CARD_ENTRIES, ENTRIES};
use crate::differential::report;
use crate::format::ACCEPTED;
use crate::history::{in_words, missing};
use crate::random::Random;
use crate::scene::Pool;
use crate::side::Pair;
use crate::trouble::{judged, Trouble};
use crate::{card_generate, generate, histories};

/// Calls made with one pool of contents from a history.
const CALLS_PER_POOL: u64 = 2_000;

/// What the second side answers, the one from before; where it accepts, the first must answer the same.
fn check(pair: &Pair, call: &Call) -> Result<Answer, Trouble> {
    let before = call.on(&pair.1);
    if before.number != ACCEPTED {
        return Ok(before);
    }
    judged(pair, call, [call.on(&pair.0), before])
}

/// So many random, damaged and reachable calls for one unit, and as many on cards. Says how many of each entry were accepted before.
pub fn run(pair: &Pair, calls: u64, random: &mut Random) -> Result<String, String> {
    let mut accepted = [0; ENTRIES.len() + CARD_ENTRIES.len()];
    let mut one = |call: &Call| match check(pair, call) {
        Ok(before) => {
            accepted[call.entry as usize] += u64::from(before.number == ACCEPTED);
            Ok(())
        }
        Err(trouble) => Err(report(&|call| check(pair, call), call, &trouble)),
    };
    let mut pool = Pool::default();
    for at in 0..calls {
        if at % CALLS_PER_POOL == 0 {
            pool = histories::pool(&pair.1, random);
        }
        one(&generate::call(&pool, random))?;
        one(&card_generate::call(&pool, random))?;
    }
    let entries = ENTRIES.iter().chain(&CARD_ENTRIES);
    let counts: Vec<(&str, u64)> = entries
        .map(|&entry| (entry.name(), accepted[entry as usize]))
        .collect();
    let missing = missing(&counts);
    if !missing.is_empty() {
        return Err(format!("never accepted before: {}", missing.join(", ")));
    }
    Ok(format!(
        "{} of {} calls were accepted before, and are answered the same: {}",
        accepted.iter().sum::<u64>(),
        2 * calls,
        in_words(&counts)
    ))
}
