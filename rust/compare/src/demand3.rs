//! Demand 3's claims about a whole history, after the scope paper's section "A history". Asked after every event.

use crate::world::Done;

#[derive(Default)]
pub struct Demand3 {
    proposed: Vec<u32>,
    /// The mileage decided and the lowest round in which it was.
    decided: Option<(u32, u32)>,
}

pub const DIFFER: &str = "two decisions differ";
pub const NOT_PROPOSED: &str = "a decision was not proposed before";
pub const OTHER_PROPOSAL: &str =
    "a log or an up unit's image in a round above a decision's has another proposal";

impl Demand3 {
    /// `records`: round and proposal of every log, and of every up unit's image.
    pub fn after(
        &mut self,
        done: &Done,
        mut records: impl Iterator<Item = (u32, u32)>,
    ) -> Result<(), &'static str> {
        if let Some(mileage) = done
            .proposed
            .filter(|mileage| !self.proposed.contains(mileage))
        {
            self.proposed.push(mileage);
        }
        if let Some((mileage, round)) = done.decided {
            self.decide(mileage, round)?;
        }
        match self.decided {
            Some((mileage, lowest))
                if records.any(|(round, proposal)| round > lowest && proposal != mileage) =>
            {
                Err(OTHER_PROPOSAL)
            }
            _ => Ok(()),
        }
    }

    fn decide(&mut self, mileage: u32, round: u32) -> Result<(), &'static str> {
        if !self.proposed.contains(&mileage) {
            return Err(NOT_PROPOSED);
        }
        let lowest = match self.decided {
            Some((before, _)) if before != mileage => return Err(DIFFER),
            Some((_, lowest)) => lowest.min(round),
            None => round,
        };
        self.decided = Some((mileage, lowest));
        Ok(())
    }

    /// The mileage decided, if there is one.
    pub fn decided(&self) -> Option<u32> {
        self.decided.map(|(mileage, _)| mileage)
    }

    /// The lowest round of a decision so far.
    pub fn decided_round(&self) -> Option<u32> {
        self.decided.map(|(_, round)| round)
    }
}
