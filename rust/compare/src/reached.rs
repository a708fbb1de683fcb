//! What calls reached: each number of each entry; and of accepted deliveries engine, kind, round and effect.

use crate::call::{Answer, Call, Entry, IMAGE, LOG, MESSAGE, OUT};
use crate::format::{
    get, is_marked, marks_of, ACCEPTED, BLANK, ESTIMATE, IMAGE_LENGTH, LOG_LENGTH,
    MESSAGE_PROPOSAL, MESSAGE_ROUND, NO_ROW, PROPOSAL, ROUND, SECOND_ESTIMATE, SECOND_MARKS,
    SENDER, SPLIT,
};
use crate::rows;
use std::collections::BTreeMap;
use std::fmt::Write;

/// Engine, kind, round below, at or above the unit's, effect. Effects: n none as marked, N none as SKIP, m mark, w log and message,
/// W the same with split, k SKIP, d decision; of a round closed without one, in B how many mileages were seen (2 for more), in R 1 for
/// a majority; of a vote sent again, b CHECK beside a second estimate, p with another proposal than the log's, A with split, a any other.
pub const BRANCHES: [&str; 40] = [
    "BF<k", "BC<k", "BS<k", "BK<k", "BF>w", "BC>m", "BS>m", "BK>m", "BF=w", "BF=a", "BF=b", "BC=n",
    "BC=a", "BC=A", "BC=p", "BC=m", "BC=w", "BC=W", "BS=n", "BS=m", "BS=d", "BS=0", "BS=1", "BS=2",
    "BK=N", "RF<k", "RS<k", "RK<k", "RF>w", "RS>m", "RK>m", "RF=w", "RF=a", "RF=p", "RS=n", "RS=m",
    "RS=d", "RS=0", "RS=1", "RK=N",
];

#[derive(Default)]
pub struct Reached {
    pub calls: u64,
    numbers: [[u64; NO_ROW as usize + 1]; 12],
    branches: BTreeMap<[u8; 4], u64>,
}

impl Reached {
    pub fn count(&mut self, before: &Call, answer: &Answer) {
        self.calls += 1;
        self.numbers[before.entry as usize][answer.number as usize] += 1;
        if let Some(branch) = branch(before, answer) {
            *self.branches.entry(branch).or_default() += 1;
        }
    }

    /// How often each was reached, of these entries, in words; or what was never reached.
    pub fn summary(&self, entries: &[Entry]) -> Result<String, String> {
        let mut text = String::new();
        let mut missing = Vec::new();
        for &entry in entries {
            let _ = write!(text, "\n  {}:", entry.name());
            for &number in entry.answers() {
                let count = self.numbers[entry as usize][number as usize];
                let _ = write!(text, " {number}: {count}");
                if count == 0 {
                    missing.push(format!("number {number} of {}", entry.name()));
                }
            }
        }
        let _ = write!(text, "\n  deliver, by engine, kind, round and effect:");
        for branch in BRANCHES {
            let count = self.branches.get(branch.as_bytes()).copied().unwrap_or(0);
            let _ = write!(text, " {branch} {count}");
            if count == 0 {
                missing.push(format!("branch {branch}"));
            }
        }
        if missing.is_empty() {
            Ok(text)
        } else {
            Err(format!("never reached: {}{text}", missing.join(", ")))
        }
    }
}

/// An accepted delivery: the log before it, the image before and after it, message and answer.
struct Delivery<'a> {
    log: [u8; LOG_LENGTH],
    before: [u8; IMAGE_LENGTH],
    after: [u8; IMAGE_LENGTH],
    message: &'a [u8],
    out: &'a [u8],
    decided: bool,
}

/// The log and image that a delivery is lent, as bytes.
fn unit(call: &Call) -> Option<([u8; LOG_LENGTH], [u8; IMAGE_LENGTH])> {
    match call.entry {
        Entry::Deliver => {
            let [log, image] = [LOG, IMAGE].map(|at| call.bytes[at].slice());
            Some((log.try_into().ok()?, image.try_into().ok()?))
        }
        Entry::CardDeliver => {
            let row = call.place().and_then(|at| call.rows.slice().get(at));
            row.map(rows::bytes_of)
        }
        _ => None,
    }
}

/// The branch of an accepted delivery.
pub fn branch(before: &Call, answer: &Answer) -> Option<[u8; 4]> {
    if answer.number != ACCEPTED {
        return None;
    }
    let (log, image) = unit(before)?;
    let delivery = Delivery {
        log,
        before: image,
        after: unit(&answer.after)?.1,
        message: before.bytes[MESSAGE].slice(),
        out: answer.after.bytes[OUT].slice(),
        decided: answer.after.decided().is_some(),
    };
    let Delivery {
        before, message, ..
    } = &delivery;
    let order = match get(message, MESSAGE_ROUND).cmp(&get(before, ROUND)) {
        std::cmp::Ordering::Less => b'<',
        std::cmp::Ordering::Equal => b'=',
        std::cmp::Ordering::Greater => b'>',
    };
    Some([before[0], message[0], order, effect(&delivery)])
}

fn effect(delivery: &Delivery) -> u8 {
    let Delivery {
        after,
        message,
        out,
        ..
    } = delivery;
    let marked = || {
        matches!(message[0], b'C' | b'S')
            && is_marked(after, marks_of(message[0]), get(message, SENDER))
    };
    match out[0] {
        b'K' => b'k',
        0 if delivery.decided => b'd',
        0 if get(after, ROUND) != get(message, MESSAGE_ROUND) => closing(delivery),
        0 if *after != delivery.before => b'm',
        0 if marked() => b'n',
        0 => b'N',
        _ if *after == delivery.before => again(delivery),
        _ if get(out, ESTIMATE) == SPLIT => b'W',
        _ => b'w',
    }
}

/// A vote sent again.
fn again(delivery: &Delivery) -> u8 {
    let out = delivery.out;
    match out[0] {
        b'C' if get(&delivery.before, SECOND_ESTIMATE) != BLANK => b'b',
        b'S' if get(out, MESSAGE_PROPOSAL) != get(&delivery.log, PROPOSAL) => b'p',
        _ if get(out, ESTIMATE) == SPLIT => b'A',
        _ => b'a',
    }
}

/// A round closed without a decision.
fn closing(delivery: &Delivery) -> u8 {
    let image = &delivery.before;
    if image[0] == b'R' {
        return if get(&delivery.after, PROPOSAL) == BLANK {
            b'0'
        } else {
            b'1'
        };
    }
    let gathered = (0..16)
        .filter(|&unit| is_marked(image, SECOND_MARKS, unit))
        .map(|unit| get(image, crate::format::estimate(SECOND_MARKS, unit)));
    let mut seen: Vec<u32> = gathered
        .chain([get(delivery.message, ESTIMATE)])
        .filter(|&number| number != SPLIT)
        .collect();
    seen.sort_unstable();
    seen.dedup();
    b'0' + seen.len().min(2) as u8
}
