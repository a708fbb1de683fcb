//! The CHECKs and SECONDs that units sent in a history, and how often they sent one again.

use crate::call::{Answer, Call, OUT};
use crate::format::{get, ACCEPTED, ESTIMATE, MAX_ROUND};
use crate::format::{MESSAGE_ENTRY, MESSAGE_PROPOSAL, MESSAGE_ROUND, SENDER};
use std::collections::HashMap;

/// How often a vote was sent again. `lost`: votes that had not left before, as the key went off. `changed`: SECONDs with another
/// proposal than the one sent before. `cut`: votes that did not leave this time. `last`: votes of the last round.
#[derive(Default)]
pub struct Again {
    checks: u64,
    seconds: [u64; 2],
    lost: u64,
    changed: u64,
    cut: u64,
    pub last: u64,
}

impl Again {
    /// What every run of histories reaches; the last round is for those that begin near it.
    pub fn counts(&self) -> [(&'static str, u64); 6] {
        [
            ("CHECKs sent again", self.checks),
            ("SECONDs sent again in B", self.seconds[0]),
            ("SECONDs sent again in R", self.seconds[1]),
            ("sent again that had not left before", self.lost),
            ("sent again with another proposal", self.changed),
            ("not sent again as the key went off", self.cut),
        ]
    }

    fn count(&mut self, out: &[u8], before: Option<&Vote>, vote: &Vote) {
        match out[0] {
            b'C' => self.checks += 1,
            _ => self.seconds[usize::from(out[1] == b'R')] += 1,
        }
        self.lost += u64::from(before.is_none());
        self.changed += u64::from(before.is_some_and(|before| before.proposal != vote.proposal));
        self.last += u64::from(get(out, MESSAGE_ROUND) == MAX_ROUND);
    }
}

struct Vote {
    estimate: u32,
    proposal: u32,
}

/// The latest vote of each kind, entry, sender and round.
#[derive(Default)]
pub struct Votes(HashMap<[u32; 4], Vote>);

pub const OTHER_ESTIMATE: &str = "a unit sent votes of one kind and round with two estimates";

impl Votes {
    /// An accepted delivery. However often a unit votes, agreement rests on its having one estimate of a kind in a round.
    pub fn after(
        &mut self,
        cut: bool,
        call: &Call,
        answer: &Answer,
        again: &mut Again,
    ) -> Result<(), &'static str> {
        if cut {
            again.cut += u64::from(is_again(call, answer));
            return Ok(());
        }
        let out = answer.after.bytes[OUT].slice();
        if !is_vote(out) {
            return Ok(());
        }
        let [entry, sender, round] =
            [MESSAGE_ENTRY, SENDER, MESSAGE_ROUND].map(|field| get(out, field));
        let [estimate, proposal] = [ESTIMATE, MESSAGE_PROPOSAL].map(|field| get(out, field));
        let vote = Vote { estimate, proposal };
        let key = [out[0].into(), entry, sender, round];
        let before = self.0.get(&key);
        if is_again(call, answer) {
            again.count(out, before, &vote);
        }
        if before.is_some_and(|before| before.estimate != estimate) {
            return Err(OTHER_ESTIMATE);
        }
        self.0.insert(key, vote);
        Ok(())
    }
}

fn is_vote(out: &[u8]) -> bool {
    matches!(out.first(), Some(b'C' | b'S'))
}

/// Whether a call sends a vote, and leaves log and image as they were.
pub fn is_again(call: &Call, answer: &Answer) -> bool {
    answer.number == ACCEPTED
        && is_vote(answer.after.bytes[OUT].slice())
        && call.has_unit_of(&answer.after)
}
