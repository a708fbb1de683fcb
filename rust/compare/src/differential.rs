//! Every entry of one unit on random, damaged and reachable contents: both sides must do the same, to the last byte.

use crate::call::{Answer, Call, Entry, ENTRIES, IMAGE, LOG, MESSAGE};
use crate::format::{image_of, log_of, ACCEPTED, BLANK, MAX_MILEAGE, OLD_MAX_MILEAGE};
use crate::generate;
use crate::histories;
use crate::random::Random;
use crate::reached::Reached;
use crate::scene::{Contents, Pool};
use crate::shrink_call;
use crate::side::Pair;
use crate::sweep;
use crate::trouble::{agreed, judged, Trouble};

/// Calls made with one pool of contents from a history.
const CALLS_PER_POOL: u64 = 10_000;

/// How much is compared: random calls; deliveries swept with every byte and every set of lengths; and mileages proposed one after the
/// other, one in so many of those that were good before request 3, and one in so many above.
pub struct Amount {
    pub calls: u64,
    pub swept: usize,
    pub mileages: Option<[u32; 2]>,
}

/// What was read, written again, gives the same bytes; what was written, read again, gives the same fields.
fn way_back(pair: &Pair, answer: &Answer) -> Result<(), Trouble> {
    let call = &answer.after;
    let (back, buffer) = match call.entry {
        Entry::ReadLog => (Entry::WriteLog, LOG),
        Entry::WriteLog => (Entry::ReadLog, LOG),
        Entry::ReadMessage => (Entry::WriteMessage, MESSAGE),
        Entry::WriteMessage => (Entry::ReadMessage, MESSAGE),
        _ => return Ok(()),
    };
    let mut other = Call::new(back, 0);
    other.bytes[buffer].put(call.bytes[buffer].slice());
    other.fields.put(call.fields.slice());
    let there = agreed(pair, &other)?;
    if there.number == ACCEPTED && there.after == other {
        Ok(())
    } else {
        Err(Trouble::Claim("the way back gives something else", None))
    }
}

fn check(pair: &Pair, call: &Call) -> Result<Answer, Trouble> {
    let answer = agreed(pair, call)?;
    if answer.number == ACCEPTED {
        way_back(pair, &answer)?;
    }
    Ok(answer)
}

/// The trouble with a smaller call that has the same; with the check that found it.
pub fn report(
    check: &dyn Fn(&Call) -> Result<Answer, Trouble>,
    call: &Call,
    trouble: &Trouble,
) -> String {
    let mut like = |tried: &Call| {
        check(tried)
            .err()
            .is_some_and(|other| other.is_like(trouble))
    };
    let least = shrink_call::call(call, &mut like);
    let shown = check(&least).err().unwrap_or_else(|| trouble.clone());
    match shown {
        Trouble::Claim(_, None) => {
            format!("FAILED, shrunk: {shown}: {} {least}", least.entry.name())
        }
        _ => format!("FAILED, shrunk: {shown}"),
    }
}

fn calls_of(contents: &Contents, random: &mut Random) -> [Call; 8] {
    ENTRIES.map(|entry| generate::call_of(entry, contents, random))
}

/// A delivery for each branch at every limit; then one after the other, beginning anywhere, with every byte and every set of lengths.
fn sweep_all(
    pair: &Pair,
    swept: usize,
    random: &mut Random,
    one: sweep::Check<String>,
) -> Result<String, String> {
    let bases = sweep::bases(&pair.1, random)?;
    for base in &bases {
        sweep::every_limit(&calls_of(base, random), one)?;
    }
    let first = random.index(bases.len());
    for base in bases.iter().cycle().skip(first).take(swept) {
        sweep::every_byte(base, random, one)?;
        sweep::every_length(&calls_of(base, random), one)?;
    }
    let (limits, whole) = (bases.len(), swept.min(bases.len()));
    Ok(format!(
        "{limits} deliveries at every limit, {whole} of them with every byte and every set of lengths"
    ))
}

/// One in so many up to the old bound, one in so many above it, all that are near a bound, some of them beyond, and the last numbers.
fn swept_mileages(steps: [u32; 2]) -> impl Iterator<Item = u32> {
    const NEAR: u32 = 10_000;
    let near = [OLD_MAX_MILEAGE, MAX_MILEAGE].map(|bound| bound - NEAR..=bound + NEAR);
    let [old, new] = steps.map(|step| step as usize);
    (0..=OLD_MAX_MILEAGE)
        .step_by(old)
        .chain((OLD_MAX_MILEAGE + 1..=MAX_MILEAGE).step_by(new))
        .chain(near.into_iter().flatten())
        .chain(u32::MAX - 1_000..=u32::MAX)
}

/// These proposed by a fresh unit one after the other, without new memory for each. Says how many.
fn propose_each(
    pair: &Pair,
    mileages: impl Iterator<Item = u32>,
    random: &mut Random,
) -> Result<u32, String> {
    let record = [b'B'.into(), 3, 0, 1, 0, BLANK, BLANK, BLANK];
    let mut call = Call::new(Entry::Propose, random.byte());
    call.bytes[LOG].put(&log_of(record));
    call.bytes[IMAGE].put(&image_of(record));
    let mut answers = [call.on(&pair.0), call.on(&pair.1)];
    let (mut count, mut good, mut accepted) = (0, 0, 0);
    for mileage in mileages {
        call.numbers[0] = mileage;
        call.on_again(&pair.0, &mut answers[0]);
        call.on_again(&pair.1, &mut answers[1]);
        if answers[0] != answers[1] || answers[0].number != ACCEPTED {
            judged(pair, &call, answers.clone())
                .map_err(|trouble| report(&|call| check(pair, call), &call, &trouble))?;
        }
        count += 1;
        good += u32::from(mileage <= MAX_MILEAGE);
        accepted += u32::from(answers[0].number == ACCEPTED);
    }
    if accepted != good {
        return Err(format!(
            "FAILED: of {good} good mileages {accepted} are accepted"
        ));
    }
    Ok(count)
}

fn one_in(step: u32) -> String {
    match step {
        1 => "each".to_string(),
        _ => format!("one in {step}"),
    }
}

pub fn run(pair: &Pair, amount: &Amount, random: &mut Random) -> Result<String, String> {
    let mut reached = Reached::default();
    let mut one = |call: &Call| match check(pair, call) {
        Ok(answer) => {
            reached.count(call, &answer);
            Ok(())
        }
        Err(trouble) => Err(report(&|call| check(pair, call), call, &trouble)),
    };
    let mut pool = Pool::default();
    for at in 0..amount.calls {
        if at % CALLS_PER_POOL == 0 {
            pool = histories::pool(&pair.1, random);
        }
        one(&generate::call(&pool, random))?;
    }
    let swept = sweep_all(pair, amount.swept, random, &mut one)?;
    let mileages = match amount.mileages {
        None => "none".to_string(),
        Some(steps) => {
            let count = propose_each(pair, swept_mileages(steps), random)?;
            let [old, new] = steps.map(one_in);
            format!("{count}, {old} up to {OLD_MAX_MILEAGE}, {new} above and all near both bounds")
        }
    };
    let text = reached.summary(&ENTRIES)?;
    Ok(format!(
        "{} calls, of them {} random; {swept}; besides, mileages proposed one after the other: {mileages}{text}",
        reached.calls, amount.calls
    ))
}
