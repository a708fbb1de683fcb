//! A call made on both sides and compared, and what can be wrong with it.

use crate::buffers::Lent;
use crate::call::{Answer, Call};
use crate::format::ACCEPTED;
use crate::row_text::write_rows;
use crate::side::Pair;
use std::fmt::{Display, Formatter, LowerHex, Result as Written};

const NAMES: [&str; 4] = ["log", "image", "message", "out"];

/// Of a longer part no more items are written.
const MOST_ITEMS: usize = 200;

/// Why a call, or a history, is not as it should be.
#[derive(Clone, Debug)]
pub enum Trouble {
    Difference(Box<Difference>),
    Claim(&'static str, Option<Box<Difference>>),
}

impl Trouble {
    /// Whether both are about the same thing, so that one may stand for the other.
    pub fn is_like(&self, other: &Trouble) -> bool {
        match (self, other) {
            (Trouble::Difference(_), Trouble::Difference(_)) => true,
            (Trouble::Claim(one, _), Trouble::Claim(two, _)) => one == two,
            _ => false,
        }
    }
}

#[derive(Clone, Debug)]
pub struct Difference {
    pub before: Call,
    pub names: [&'static str; 2],
    pub answers: [Answer; 2],
}

/// Both sides do the same; and a number other than those the entry has, a refusal that changes something, or another row that
/// changed, is trouble too.
pub fn agreed(pair: &Pair, call: &Call) -> Result<Answer, Trouble> {
    judged(pair, call, [call.on(&pair.0), call.on(&pair.1)])
}

/// The same of answers already there.
pub fn judged(pair: &Pair, call: &Call, answers: [Answer; 2]) -> Result<Answer, Trouble> {
    let same = answers[0] == answers[1];
    let known = call.entry.answers().contains(&answers[0].number);
    let accepted = answers[0].number == ACCEPTED;
    let kept = if accepted {
        call.has_other_rows_of(&answers[0].after)
    } else {
        answers[0].after == call.refused()
    };
    if same && known && kept {
        let [answer, _] = answers;
        return Ok(answer);
    }
    let difference = Box::new(Difference {
        before: call.clone(),
        names: [pair.0.name, pair.1.name],
        answers,
    });
    Err(match (same, known) {
        (false, _) => Trouble::Difference(difference),
        (true, false) => {
            Trouble::Claim("a number that this entry does not answer", Some(difference))
        }
        (true, true) if accepted => Trouble::Claim("another row changed", Some(difference)),
        (true, true) => Trouble::Claim("a refusal changed something", Some(difference)),
    })
}

fn write_parts<T: Copy + LowerHex>(
    to: &mut Formatter,
    name: &str,
    lent: &Lent<T>,
    width: usize,
) -> Written {
    if !lent.is_lent() {
        return Ok(());
    }
    write!(to, "\n    {name}, length {}:", lent.slice().len())?;
    for (part, bar) in lent.parts().into_iter().zip(["", " |", " |"]) {
        write!(to, "{bar}")?;
        for item in part.iter().take(MOST_ITEMS) {
            write!(to, " {item:0width$x}")?;
        }
        if part.len() > MOST_ITEMS {
            write!(to, " ... ({} more, cut here)", part.len() - MOST_ITEMS)?;
        }
    }
    Ok(())
}

/// In hex, with a bar where each buffer begins and where it ends.
impl Display for Call {
    fn fmt(&self, to: &mut Formatter) -> Written {
        write!(
            to,
            "numbers {:?}, decision {:x?}",
            self.numbers, self.decision
        )?;
        for (name, lent) in NAMES.iter().zip(&self.bytes) {
            write_parts(to, name, lent, 2)?;
        }
        write_parts(to, "fields", &self.fields, 8)?;
        write_rows(to, &self.rows)
    }
}

impl Display for Difference {
    fn fmt(&self, to: &mut Formatter) -> Written {
        write!(
            to,
            "{}\n  before: {}",
            self.before.entry.name(),
            self.before
        )?;
        for (name, answer) in self.names.iter().zip(&self.answers) {
            write!(to, "\n  {name}: number {}, {}", answer.number, answer.after)?;
        }
        Ok(())
    }
}

impl Display for Trouble {
    fn fmt(&self, to: &mut Formatter) -> Written {
        match self {
            Trouble::Difference(difference) => write!(to, "the sides differ: {difference}"),
            Trouble::Claim(claim, None) => write!(to, "{claim}"),
            Trouble::Claim(claim, Some(difference)) => write!(to, "{claim}: {difference}"),
        }
    }
}
