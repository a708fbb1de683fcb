//! One unit's card in a history: its rows, and how each of them stands.

use crate::damage::LIMITS;
use crate::format::{image_of, log_of, BLANK};
use crate::rows;
use independent::card::{Contents, Row};

/// How a row stands: not started, up, or down with its image lost.
#[derive(Clone, Copy, PartialEq, Eq, Debug)]
pub enum Stage {
    New,
    Up,
    Down,
}

/// One unit's card.
#[derive(Clone)]
pub struct Card {
    pub rows: Vec<Row>,
    stages: Vec<Stage>,
}

impl Card {
    /// Garbage, or a unit of these settings that was left over.
    pub fn new([engine, n, unit]: [u32; 3], count: u32) -> Card {
        let garbage = |row| {
            let left = [engine, n, unit, row, 7, 5, 6, BLANK];
            match row % 3 {
                0 => rows::of_bytes(&log_of(left), &image_of(left)),
                _ => rows::of_number(LIMITS[row as usize % LIMITS.len()]),
            }
        };
        Card {
            rows: (1..=count).map(garbage).collect(),
            stages: vec![Stage::New; count as usize],
        }
    }

    /// How the row of this number stands, if the card has one.
    pub fn stage(&self, number: u32) -> Option<Stage> {
        let place = (number as usize).checked_sub(1)?;
        self.stages.get(place).copied()
    }

    /// The log of a row that was started, and its image where it is up.
    pub fn contents(&self, number: u32) -> impl Iterator<Item = &Contents> + '_ {
        let stage = self.stage(number).unwrap_or(Stage::New);
        let row = self.rows.get(number as usize - 1);
        let log = row.filter(|_| stage != Stage::New).map(|row| &row.log);
        let image = row.filter(|_| stage == Stage::Up).map(|row| &row.image);
        log.into_iter().chain(image)
    }

    /// The round of the row's image, or of its log while it is down.
    pub fn round(&self, number: u32) -> u32 {
        self.contents(number).last().map_or(0, |last| last.round)
    }

    /// The image of a row that goes down is lost: anything may stand there.
    pub fn lose_image(&mut self, number: u32, id: usize) {
        let row = &mut self.rows[number as usize - 1];
        *row = Row {
            log: row.log,
            ..rows::of_number(LIMITS[id % LIMITS.len()])
        };
        self.put_stage(number, Stage::Down);
    }

    pub fn put_stage(&mut self, number: u32, stage: Stage) {
        self.stages[number as usize - 1] = stage;
    }
}
