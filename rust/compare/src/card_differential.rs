//! Every entry of the card on random, damaged and reachable rows: the sides must do the same, to the last number of the last
//! row; and the card must do what the first side's calls for one unit do with the unit of the row.

use crate::call::{Answer, Call, CARD_ENTRIES};
use crate::card_generate;
use crate::differential::report;
use crate::histories;
use crate::random::Random;
use crate::reached::Reached;
use crate::scene::{Contents, Pool};
use crate::side::{Pair, Side};
use crate::sweep;
use crate::trouble::{agreed, judged, Trouble};

/// Calls made with one pool of contents from a history.
const CALLS_PER_POOL: u64 = 2_000;

/// Two sides, and the card's calls made of a side's calls for one unit.
#[derive(Clone, Copy)]
pub struct Cards {
    pub pair: Pair,
    pub alone: Side,
}

/// How much is compared: random calls, and deliveries swept with every limit of every number and every set of lengths.
pub struct Amount {
    pub calls: u64,
    pub swept: usize,
}

fn check(cards: &Cards, call: &Call) -> Result<Answer, Trouble> {
    let answer = agreed(&cards.pair, call)?;
    let alone = call.on(&cards.alone);
    if alone == answer {
        return Ok(answer);
    }
    judged(&Pair(cards.pair.0, cards.alone), call, [answer, alone])
}

fn calls_of(contents: &Contents, random: &mut Random) -> [Call; 4] {
    CARD_ENTRIES.map(|entry| card_generate::call_of(entry, contents, random))
}

/// A card with a delivery for each branch, one after the other, beginning anywhere.
fn sweep_some(
    cards: &Cards,
    swept: usize,
    random: &mut Random,
    one: sweep::Check<String>,
) -> Result<(), String> {
    let bases = sweep::bases(&cards.pair.1, random)?;
    let first = random.index(bases.len());
    for base in bases.iter().cycle().skip(first).take(swept) {
        sweep::every_limit(&calls_of(base, random), one)?;
        sweep::every_length(&calls_of(base, random), one)?;
    }
    Ok(())
}

pub fn run(cards: &Cards, amount: &Amount, random: &mut Random) -> Result<String, String> {
    let mut reached = Reached::default();
    let mut one = |call: &Call| match check(cards, call) {
        Ok(answer) => {
            reached.count(call, &answer);
            Ok(())
        }
        Err(trouble) => Err(report(&|call| check(cards, call), call, &trouble)),
    };
    let mut pool = Pool::default();
    for at in 0..amount.calls {
        if at % CALLS_PER_POOL == 0 {
            pool = histories::pool(&cards.pair.1, random);
        }
        one(&card_generate::call(&pool, random))?;
    }
    sweep_some(cards, amount.swept, random, &mut one)?;
    let text = reached.summary(&CARD_ENTRIES)?;
    Ok(format!(
        "{} calls on cards, of them {} random; {} cards swept with every limit and every set of lengths{text}",
        reached.calls, amount.calls, amount.swept
    ))
}
